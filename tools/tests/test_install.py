"""That ./install puts there what works without the checkout, and takes away no more than that; and the page for man."""

import os
import re
import shutil
import subprocess
import tempfile
import unittest
from pathlib import Path
from typing import Dict, List, Optional

from commands_under_test import HAS_SESSION, TOP, Ended
from stand_ins import mark_fresh, write_program
from trestle_tools.program import play, program, session_program
TOOLS = sorted(file.name for file in (TOP / "bin").iterdir() if file.is_file())
SCRIPT = b"trestle 1\nscreen 1 1 map8\nleaf a 0 1 1 0 1 1 solid 7\nroot a\nbegin\ndump\nend\n"
DUMP = "dump 1 1 map8\n07\n"
ANSWERS = 5 * "ok 0\n" + "ok 2\n" + DUMP + "ok 0\n"


class Installed(unittest.TestCase):
    """A copy of what is installed is made in a checkout of links and stand-ins, which then is no more."""

    def setUp(self) -> None:
        folder = tempfile.TemporaryDirectory()
        self.addCleanup(folder.cleanup)
        self.room = Path(folder.name).resolve()
        self.top, self.prefix = self.room / "a checkout's", self.room / "a prefix"
        for part in ("bin", "demos", "docs", "tools"):
            shutil.copytree(TOP / part, self.top / part, ignore=shutil.ignore_patterns("__pycache__", "examples", "*.png", "tests"))
        shutil.copy(TOP / "install", self.top)
        self.write("build", 'echo "$(cd -P "${0%/*}" && pwd)/.build/trestle"')
        self.write(".build/trestle", f'exec "{program()}" "$@"')
        self.write(".build/trestle-session", f'exec "{session_program()}" "$@"' if HAS_SESSION else f"printf %s '{ANSWERS}'")

    def write(self, name: str, command: str) -> None:
        """Makes a program of a line of the shell, in the checkout."""
        write_program(self.top / name, command)

    def call(self, words: List[str], given: bytes = b"", more: Optional[Dict[str, str]] = None) -> Ended:
        """Calls a command in a folder that has nothing to do with either, with no TRESTLE."""
        environment = {name: value for name, value in os.environ.items() if name not in ("TRESTLE", "TRESTLE_SESSION", "DESTDIR")}
        # (the toolchain that the stand-ins were made by)
        environment["PATH"] = f"{self.top}/kit/bin:{environment['PATH']}"
        environment.update(more or {})
        ran = subprocess.run(words, input=given, cwd=self.room, env=environment, capture_output=True, check=False)
        return Ended(ran.returncode, (ran.stdout + ran.stderr).decode("utf-8"))

    def install(self, *words: str, more: Optional[Dict[str, str]] = None) -> Ended:
        """Calls ./install."""
        return self.call([str(self.top / "install"), *words], more=more)

    def found(self) -> List[str]:
        """What lies in the room, but the checkout."""
        files = (file for file in self.room.rglob("*") if self.top not in file.parents and not file.is_dir())
        return sorted(str(file.relative_to(self.room)) for file in files)

    def test_without_the_checkout(self) -> None:
        """The programs and each tool work from another folder, also after all was moved; the checkout is gone."""
        self.assertEqual(0, self.install(str(self.prefix)).status)
        shutil.rmtree(self.top)
        moved = self.room / "moved"
        self.prefix.rename(moved)
        self.assertEqual(sorted(["trestle", "trestle-session", *(f"trestle-{tool}" for tool in TOOLS)]), sorted(os.listdir(moved / "bin")))
        tool = lambda name: str(moved / "bin" / f"trestle-{name}")
        self.assertEqual(Ended(0, DUMP), self.call([str(moved / "bin/trestle"), "serial"], SCRIPT))
        self.assertEqual(Ended(0, ANSWERS), self.call([str(moved / "bin/trestle-session")], SCRIPT))
        self.assertEqual(0, self.call([tool("look"), "-o", "one.png"], DUMP.encode()).status)
        self.assertEqual(b"\x89PNG", (self.room / "one.png").read_bytes()[:4])
        self.assertEqual(0, self.call([tool("why"), "-"], SCRIPT).status)
        self.assertEqual(0, self.call([tool("lint"), "-"], SCRIPT).status)
        (self.room / "one.txt").write_bytes(SCRIPT)
        self.assertEqual(0, self.call([tool("snap"), "--update", "one.txt"]).status)
        self.assertEqual(0, self.call([tool("snap"), "one.txt"]).status)
        self.assertEqual(DUMP, (self.room / "one.serial").read_text())
        for name in TOOLS:
            ended = self.call([tool(name), "--help"])
            self.assertEqual(0, ended.status, ended.text)
            self.assertNotRegex(ended.text, r"\./trestle|trestle --unproved|\bbin/")

    def test_uninstall(self) -> None:
        """All goes that was put there, and what others have there stays."""
        other = self.prefix / "bin" / "trestle-other"
        other.parent.mkdir(parents=True)
        other.write_text("another")
        before = self.found()
        self.assertEqual(0, self.install(str(self.prefix)).status)
        self.call([str(self.prefix / "bin/trestle-why"), "-"], SCRIPT, {"PYTHONDONTWRITEBYTECODE": ""})
        self.assertGreater(len(self.found()), 30)
        self.assertEqual(0, self.install("--uninstall", str(self.prefix)).status)
        self.assertEqual(before, self.found())
        self.assertFalse((self.prefix / "lib" / "trestle").exists())
        self.assertEqual(1, self.install("--uninstall", str(self.prefix)).status)

    def test_newer_over_older(self) -> None:
        """What an older version had and a newer one hasn't goes."""
        old = self.top / "tools/trestle_tools/old.py"
        old.write_text("")
        self.assertEqual(0, self.install(str(self.prefix)).status)
        self.assertTrue((self.prefix / "lib/trestle/tools/trestle_tools/old.py").exists())
        old.unlink()
        self.assertEqual(0, self.install(str(self.prefix)).status)
        self.assertFalse((self.prefix / "lib/trestle/tools/trestle_tools/old.py").exists())

    def test_staged(self) -> None:
        """DESTDIR stands before the prefix, and is nowhere in what is installed."""
        self.assertEqual(0, self.install("/usr/local/", more={"DESTDIR": str(self.room / "stage")}).status)
        self.assertTrue(all(name.startswith("stage/usr/local/") for name in self.found()))
        for name in self.found():
            path = self.room / name
            held = os.readlink(path).encode() if path.is_symlink() else path.read_bytes()
            self.assertNotIn(str(self.room).encode(), held, name)

    def test_what_is_not_built(self) -> None:
        """Nothing is installed where the proved programs aren't there."""
        for command in ("exit 1", 'echo "$(cd -P "${0%/*}" && pwd)/.build/unproved/trestle"'):
            self.write("build", command)
            ended = self.install(str(self.prefix))
            self.assertEqual(1, ended.status)
            self.assertIn("aren't built", ended.text)
            self.assertEqual([], self.found())

    def test_unproved(self) -> None:
        """The unproved programs are installed where they are asked for, also beside proved ones, and each call tells of it once."""
        shutil.copy(TOP / "fresh.sh", self.top)
        self.write(".build/unproved/trestle", f'exec "{program()}" "$@"')
        shutil.copy(self.top / ".build/trestle-session", self.top / ".build/unproved")
        ended = self.install("--unproved", str(self.prefix))
        self.assertEqual(1, ended.status)
        self.assertIn("./build --unproved compiles them", ended.text)
        mark_fresh(self.top, ".build/unproved")
        self.assertEqual(0, self.install("--unproved", str(self.prefix)).status)
        shutil.rmtree(self.top)
        moved = self.room / "moved"
        self.prefix.rename(moved)
        warning = "trestle: this program is unproved: its run-time checks find only some mistakes\n"
        self.assertEqual(Ended(0, DUMP + warning), self.call([str(moved / "bin/trestle"), "serial"], SCRIPT))
        session = self.call([str(moved / "bin/trestle-session")], SCRIPT)
        self.assertEqual(Ended(0, ANSWERS + warning.replace("trestle:", "trestle-session:")), session)
        warning = "trestle-lint: by the unproved program, which was installed\n"
        self.assertEqual(Ended(0, warning), self.call([str(moved / "bin/trestle-lint"), "-"], SCRIPT))

    def test_proved_over_unproved(self) -> None:
        """Nothing of the unproved programs stays."""
        shutil.copy(TOP / "fresh.sh", self.top)
        self.write(".build/unproved/trestle", "exit 9")
        self.write(".build/unproved/trestle-session", "exit 9")
        mark_fresh(self.top, ".build/unproved")
        for words in (["--unproved"], []):
            self.assertEqual(0, self.install(*words, str(self.prefix)).status)
        self.assertFalse((self.prefix / "lib/trestle/unproved").exists())
        self.assertEqual(Ended(0, DUMP), self.call([str(self.prefix / "bin/trestle"), "serial"], SCRIPT))

    def test_pages_as_installed(self) -> None:
        """The pages name the programs as they are called there; what they say of a checkout stays so."""
        self.assertEqual(0, self.install(str(self.prefix)).status)
        for page in ("SCRIPT", "SESSION", "TESTING"):
            for line in (self.prefix / f"share/doc/trestle/{page}.md").read_text("utf-8").split("\n"):
                if "checkout" not in line:
                    self.assertNotRegex(line, r"\./trestle|trestle --unproved|\bbin/\w")

    def test_words(self) -> None:
        for words in ([], ["--uninstall"], ["--unproved"], ["a", "b"], ["--other"], [""]):
            self.assertEqual(2, self.install(*words).status, words)
        self.assertEqual(0, self.install("--help").status)


class Page(unittest.TestCase):
    """docs/trestle.1."""

    text = (TOP / "docs" / "trestle.1").read_text("ascii")

    def test_tools(self) -> None:
        """Each tool of bin/ is on the page."""
        for tool in TOOLS:
            with self.subTest(tool):
                self.assertRegex(self.text, rf"(?m)^\.Nm trestle-{tool}( ,)?$")
                self.assertRegex(self.text, rf"(?m)^\.It Nm trestle-{tool}\b")

    def test_script(self) -> None:
        """The script on it plays."""
        script = re.findall(r"\.Bd -literal -offset indent\n(.*?)\.Ed\n", self.text, re.S)[0]
        self.assertEqual(0, play(script.encode()).status)


if __name__ == "__main__":
    unittest.main()
