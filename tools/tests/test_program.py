"""Which program the tools play scripts by, where TRESTLE names none: in a copy of them, with stand-ins for what builds."""

import os
import re
import shutil
import subprocess
import sys
import tempfile
import unittest
from pathlib import Path
from typing import Tuple

from commands_under_test import TOP

# Stand-ins for the three programs: each refuses what it is given, at a line that tells which it is.
PROGRAMS = {".build/trestle": 1, ".build/unproved/trestle": 2, "trestle": 3}
TOLD = "why: by the unproved program, since the proved one isn't built\n"


class WhichProgram(unittest.TestCase):
    """`why` in a folder with the tools and the stand-ins."""

    def setUp(self) -> None:
        self.folder = tempfile.TemporaryDirectory()
        self.addCleanup(self.folder.cleanup)
        self.top = Path(self.folder.name).resolve() / "a copy's"
        for part in ("bin", "tools/trestle_tools"):
            shutil.copytree(TOP / part, self.top / part, ignore=shutil.ignore_patterns("__pycache__"))
        for name, line in PROGRAMS.items():
            self.write(name, f"echo 'refused: line {line} B1'; exit 3")

    def write(self, name: str, command: str) -> None:
        """Makes a program of a line of the shell."""
        path = self.top / name
        path.parent.mkdir(parents=True, exist_ok=True)
        path.write_text(f"#!/bin/sh\n{command}\n")
        path.chmod(0o755)

    def played_by(self) -> Tuple[int, str]:
        """The line that the stand-in tells which played, and standard error."""
        environment = {name: value for name, value in os.environ.items() if name != "TRESTLE"}
        environment["PYTHONDONTWRITEBYTECODE"] = "1"
        words = [str(self.top / "bin/why"), "-"]
        ran = subprocess.run(words, input=b"a\nb\nc\n", cwd="/", env=environment, capture_output=True, check=False)
        self.assertEqual(1, ran.returncode, ran)
        return int(re.findall(r"line (\d)", ran.stdout.decode())[0]), ran.stderr.decode()

    def names(self, fresh: str) -> None:
        """Has `build --fresh` print this path, or nothing."""
        self.write("build", f'echo "${{0%/*}}/{fresh}"' if fresh else "exit 1")

    def test_proved(self) -> None:
        self.names(".build/trestle")
        self.assertEqual((1, ""), self.played_by())

    def test_unproved(self) -> None:
        self.names(".build/unproved/trestle")
        self.assertEqual((2, TOLD), self.played_by())

    def test_none(self) -> None:
        """Then ./trestle builds it, or says why it can't."""
        self.names("")
        self.assertEqual((3, ""), self.played_by())

    def test_installed(self) -> None:
        """An installed program has no `build` beside it."""
        self.assertEqual((3, ""), self.played_by())

    def test_session(self) -> None:
        """A session is there beside a program that is built or installed, and not where ./trestle-session would build it."""
        asks = "import sys; sys.path.insert(0, sys.argv[1]); from trestle_tools.program import has_session; print(has_session())"
        environment = {name: value for name, value in os.environ.items() if not name.startswith("TRESTLE")}
        for name in (".build/trestle-session", "trestle-session"):
            self.write(name, "exit 0")
        for fresh, is_there in ((".build/trestle", "True"), (".build/unproved/trestle", "False"), ("", "False"), (None, "True")):
            if fresh is None:
                (self.top / "build").unlink()
            else:
                self.names(fresh)
            words = [sys.executable, "-c", asks, str(self.top / "tools")]
            ran = subprocess.run(words, env=environment, stdout=subprocess.PIPE, stderr=subprocess.DEVNULL, check=True)
            self.assertEqual(is_there, ran.stdout.decode().strip(), fresh)


if __name__ == "__main__":
    unittest.main()
