"""The files by which editors colour scripts: that they follow from the table of forms, and which lines they mark as wrong."""

import json
import os
import re
import subprocess
import sys
import tempfile
import unittest
from pathlib import Path
from typing import Iterator, List, Tuple

from commands_under_test import TOP

sys.path[:0] = [str(TOP / "judges"), str(TOP / "tools")]

from model.reader import refusal_of  # noqa: E402
from trestle_tools.syntax import FILES, number  # noqa: E402

EDITORS = TOP / "tools" / "editors"
# What is wrong of one line alone: its bytes, its words, a value.
OF_A_LINE = (9, 1, 2)
# Lines with such a fault that pass: their words are of version 2, or their values don't go together.
PASS = re.compile(r"^(?:screen .* map4|rescreen map4|node \S+ pack .*|leaf .*|@\S+ (?:insert|erase|split|goto|copy|paste|exchange).*)$")


def scripts() -> Iterator[str]:
    """The scripts of the repository."""
    for folder in ("demos", "docs/examples"):
        for file in sorted((TOP / folder).glob("*.txt")):
            yield file.read_bytes().decode("latin-1")


def lines_with_faults() -> Iterator[Tuple[List[str], int]]:
    """Scripts line by line, up to the first fault, and its code."""
    for script in scripts():
        refusal = refusal_of(script.encode("latin-1"))
        lines = script.split("\n")
        if refusal is None:
            yield lines, 0
        elif 0 < refusal.line <= len(lines):
            yield lines[: refusal.line], refusal.code


class Grammar(unittest.TestCase):
    """The grammar as TextMate's readers take it: the first pattern that matches counts."""

    patterns = [re.compile(it["match"]) for it in json.loads(FILES["textmate/trestle.tmLanguage.json"]())["patterns"]]

    def is_wrong(self, line: str) -> bool:
        """Whether a line is marked as wrong."""
        found = next((it for it in self.patterns if it.search(line)), None)
        return found is self.patterns[-1]

    def test_files(self) -> None:
        """The files are those that tools/write_syntax makes."""
        for name, make in FILES.items():
            with self.subTest(name):
                self.assertTrue((EDITORS / name).read_text("ascii") == make(), "call tools/write_syntax")

    def test_scripts(self) -> None:
        """No line is marked before the first fault, and the line of a fault is marked where it shows in the line alone."""
        marked = 0
        for lines, code in lines_with_faults():
            for line in lines[:-1] if code else lines:
                self.assertFalse(self.is_wrong(line), line)
            if code in OF_A_LINE and not PASS.match(lines[-1]):
                marked += 1
                self.assertTrue(self.is_wrong(lines[-1]), lines[-1])
            elif code and code not in OF_A_LINE:
                self.assertFalse(self.is_wrong(lines[-1]), lines[-1])
        self.assertGreater(marked, 10)

    def test_numbers(self) -> None:
        """The pattern of a range has its numbers and no other."""
        for low, high in ((0, 0), (0, 4), (1, 2), (1, 32), (0, 80), (0, 199), (0, 255), (1, 1024), (-2048, 2048), (-8192, 8191)):
            pattern = re.compile(number(low, high))
            for value in range(-9000, 9000):
                with self.subTest(f"{low}..{high}: {value}"):
                    self.assertEqual(low <= value <= high, bool(pattern.fullmatch(str(value))))
            for text in ("", "-0", "00", "01", "+1", "-01", " 1"):
                self.assertFalse(pattern.fullmatch(text), text)


VIM = """
set nocompatible runtimepath^=%s
filetype on
syntax on
let told = []
for name in argv()
    silent execute 'edit' fnameescape(name)
    for number in range(1, line('$'))
        let marks = map(range(1, len(getline(number))), "synIDattr(synIDtrans(synID(number, v:val, 1)), 'name')")
        if index(marks, 'Error') >= 0
            call add(told, number . ' ' . name)
        endif
    endfor
endfor
call writefile(told, '%s')
qall!
"""


@unittest.skipUnless(os.environ.get("TRESTLE_TRIES_VIM"), "TRESTLE_TRIES_VIM=1 has vim colour scripts")
class Vim(unittest.TestCase):
    """What vim marks."""

    def test_scripts(self) -> None:
        """Vim marks the lines that the grammar marks."""
        files = [str(file) for folder in ("demos", "docs/examples") for file in sorted((TOP / folder).glob("*.txt"))]
        with tempfile.TemporaryDirectory() as folder:
            told, commands = Path(folder) / "told", Path(folder) / "commands.vim"
            commands.write_text(VIM % (EDITORS / "vim", told))
            subprocess.run(["vim", "-es", "-N", "-u", str(commands), *files], stdin=subprocess.DEVNULL, timeout=300, check=False)
            found = set(told.read_text().splitlines())
        wanted = set()
        for file in files:
            for at, line in enumerate(Path(file).read_bytes().decode("latin-1").split("\n"), 1):
                wanted |= {f"{at} {file}"} if Grammar().is_wrong(line) else set()
        self.assertEqual(wanted, found)


if __name__ == "__main__":
    unittest.main()
