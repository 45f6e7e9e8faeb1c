"""Runs the program trestle on a script: the program that TRESTLE names in the environment; or else the proved program, where
it is built; or else the unproved one, where that is built, which is told on standard error; or else ./trestle, which proves
and builds it. Installed tools take the program that was installed with them."""

import functools
import os
import subprocess
import sys
from pathlib import Path
from typing import NamedTuple

TOP = Path(__file__).resolve().parents[2]

# The statuses of the program, as docs/SCRIPT.md has them. 1 is the launcher's: it could not build the program.
PLAYED, NOT_BUILT, USAGE, REFUSED, READ_FAULT, WRITE_FAULT, NO_MEMORY, NO_ARGUMENTS = range(8)


class Trouble(Exception):
    """What keeps a command from doing its work. It is told in one line, and the command ends with 2."""


class Played(NamedTuple):
    """What the program wrote for a script, and its status."""

    status: int
    output: bytes

    def text(self) -> str:
        """The output as a text; a byte is a character of the same number."""
        return self.output.decode("latin-1")


@functools.lru_cache(maxsize=None)
def built() -> str:
    """The path of the program that is built for the files as they are, or of what builds it."""
    try:
        ran = subprocess.run([str(TOP / "build"), "--fresh"], stdin=subprocess.DEVNULL, stdout=subprocess.PIPE, check=False)
    except OSError:
        # (nothing that builds the program was installed)
        return installed()
    path = os.fsdecode(ran.stdout).rstrip("\n")
    if path == str(TOP / ".build" / "unproved" / "trestle"):
        print(f"{Path(sys.argv[0]).name}: by the unproved program, since the proved one isn't built", file=sys.stderr)
    return path or str(TOP / "trestle")


def installed() -> str:
    """The path of the program that was installed with the tools. Of an unproved one they tell once themselves, since they may
    call it many times."""
    unproved = TOP / "unproved" / "trestle"
    if not unproved.exists():
        return str(TOP / "trestle")
    print(f"{Path(sys.argv[0]).name}: by the unproved program, which was installed", file=sys.stderr)
    return str(unproved)


def program() -> str:
    """The path of the program."""
    return os.environ.get("TRESTLE") or built()


def session_program() -> str:
    """The path of the program trestle-session: of TRESTLE_SESSION, or beside trestle."""
    return os.environ.get("TRESTLE_SESSION") or str(Path(program()).with_name("trestle-session"))


def has_session() -> bool:
    """Whether that program is there, so that a session starts no proof."""
    path = Path(session_program())
    is_launcher = path.parent == TOP and (TOP / "build").exists()
    return os.access(path, os.X_OK) and not is_launcher


# So many seconds threads may take: they could wait for ever.
PATIENCE = 120


def play(script: bytes, word: str = "serial") -> Played:
    """Plays a script by `serial`, or by another of the program's words."""
    patience = PATIENCE if word == "play" else None
    try:
        ran = subprocess.run([program(), word], input=script, stdout=subprocess.PIPE, timeout=patience, check=False)
    except OSError as error:
        raise Trouble(f"{program()} does not start: {error.strerror}")
    except subprocess.TimeoutExpired:
        raise Trouble(f"{program()} {word} has not ended after {patience} seconds")
    if ran.returncode == NOT_BUILT:
        raise Trouble(f"{program()} ended with 1: the program is not built; ./build says why")
    if ran.returncode not in range(8):
        raise Trouble(f"{program()} ended with {ran.returncode}, which is none of its statuses")
    return Played(ran.returncode, ran.stdout)


def due_status(output: str) -> int:
    """The status that belongs to an output: each text that isn't what a script prints has its own."""
    for status, begin in ((REFUSED, "refused: "), (USAGE, "usage: "), (READ_FAULT, "read fault")):
        if output.startswith(begin):
            return status
    return PLAYED


def read_bytes(name: str) -> bytes:
    """The bytes of a file, or of standard input where the name is `-`."""
    try:
        with open(0 if name == "-" else name, "rb", closefd=name != "-") as file:
            return file.read()
    except OSError as error:
        raise Trouble(f"{name} cannot be read: {error.strerror}")
