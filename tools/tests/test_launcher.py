"""What the launchers say before a proof begins, by stand-ins for the programs and for ./build."""

import os
import pty
import shutil
import subprocess
import tempfile
import unittest
from pathlib import Path

from commands_under_test import TOP
from stand_ins import mark_fresh, write_program

HINT = "trestle: a proof begins; ./trestle --unproved plays at once, by the unproved program\r\n"


class Launcher(unittest.TestCase):
    """./trestle and ./trestle-session."""

    def setUp(self) -> None:
        folder = tempfile.TemporaryDirectory()
        self.addCleanup(folder.cleanup)
        self.top = Path(folder.name).resolve() / "a checkout's"
        self.top.mkdir()
        for name in ("trestle", "trestle-session", "fresh.sh"):
            shutil.copy(TOP / name, self.top)
        write_program(self.top / "proved", "echo proved")
        builds = [f'cp "${{0%/*}}/proved" "${{0%/*}}/.build/{name}"' for name in ("trestle", "trestle-session")]
        write_program(self.top / "build", " && ".join(['mkdir -p "${0%/*}/.build"', *builds]))
        write_program(self.top / ".build/unproved/trestle", "echo unproved")
        write_program(self.top / ".build/unproved/trestle-session", "echo unproved session")
        mark_fresh(self.top, ".build/unproved")

    def call(self, *words: str, program: str = "trestle") -> str:
        """What a launcher writes to a terminal as standard error, and then to standard output."""
        leader, follower = pty.openpty()
        path = f"{self.top}/kit/bin:{os.environ['PATH']}"
        streams = {"stdin": subprocess.DEVNULL, "stdout": subprocess.PIPE, "stderr": follower}
        ran = subprocess.run([str(self.top / program), *words], env={**os.environ, "PATH": path}, check=False, **streams)
        os.write(follower, b"\0")
        said = b""
        while not said.endswith(b"\0"):
            said += os.read(leader, 4096)
        os.close(leader)
        os.close(follower)
        return said[:-1].decode() + ran.stdout.decode()

    def test_before_a_proof(self) -> None:
        """One line tells of the unproved program where it is there for these files, and is wanted by nobody yet."""
        self.assertEqual(HINT + "proved\n", self.call("serial"))
        self.assertIn("unproved\n", self.call("--unproved", "serial"))
        self.assertNotIn("a proof begins", self.call("--unproved", "serial"))
        mark_fresh(self.top, ".build")
        self.assertEqual("proved\n", self.call("serial"))

    def test_session(self) -> None:
        """The session's launcher does the same for its own program."""
        self.assertEqual(HINT.replace("trestle", "trestle-session") + "proved\n", self.call(program="trestle-session"))
        said = "trestle-session: this program is unproved: its run-time checks find only some mistakes\r\n"
        self.assertEqual(said + "unproved session\n", self.call("--unproved", program="trestle-session"))

    def test_not_in_a_pipe(self) -> None:
        ran = subprocess.run([str(self.top / "trestle"), "serial"], stdin=subprocess.DEVNULL, capture_output=True, check=False)
        self.assertEqual((b"proved\n", b""), (ran.stdout, ran.stderr))

    def test_not_of_other_files(self) -> None:
        """After a change the unproved program would have to be compiled."""
        (self.top / "crates/one/src/main.rt").write_text("another\n")
        self.assertEqual("proved\n", self.call("serial"))


if __name__ == "__main__":
    unittest.main()
