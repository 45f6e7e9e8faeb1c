"""How the tests call the commands: as a user does, with the program that TRESTLE names, or else with the one that is built.
Where none is, the tests end at once, and start no proof."""

import os
import subprocess
import sys
from pathlib import Path
from typing import List, NamedTuple

HERE = Path(__file__).resolve().parent
TOP = HERE.parents[1]
sys.path.insert(0, str(TOP / "tools"))

from trestle_tools.program import built, has_session  # noqa: E402

if not os.environ.get("TRESTLE"):
    if built() == str(TOP / "trestle"):
        # (unittest goes on behind a module that can't be read, so that the process has to end)
        print("tests: no program is built for these files: ./build --unproved makes one in minutes, or TRESTLE names one", file=sys.stderr)
        sys.stderr.flush()
        os._exit(2)
    os.environ["TRESTLE"] = built()

# Whether there is a program for sessions; else what needs one is left out, and starts no proof.
HAS_SESSION = has_session()


class Ended(NamedTuple):
    """What a command wrote, standard error last, and its status."""

    status: int
    text: str


def call(command: str, words: List[str], folder: Path = HERE, given: bytes = b"") -> Ended:
    """Calls a command in a folder."""
    environment = {**os.environ, "PYTHONDONTWRITEBYTECODE": "1"}
    ran = subprocess.run(
        [str(TOP / "bin" / command), *words], input=given, cwd=folder, env=environment, capture_output=True, check=False
    )
    return Ended(ran.returncode, (ran.stdout + ran.stderr).decode("utf-8"))
