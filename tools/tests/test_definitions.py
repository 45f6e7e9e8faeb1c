"""The first lines of definition files: one wording says that no public contract cites a file."""

import re
import unittest
from pathlib import Path
from typing import List

TOP = Path(__file__).resolve().parents[2]
WORDING = "-- Private contracts alone cite this file."
NEARLY = re.compile(r"private|own functions|\balone cites?\b|\bonly .*\bcites?\b", re.I)


def other_wordings(text: str) -> List[str]:
    """The comments of a file's first three lines that say it in other words, or in another place than line 1."""
    lines = text.split("\n")[:3]
    return [it for k, it in enumerate(lines) if it.startswith("--") and NEARLY.search(it) and (k or it != WORDING)]


class FirstLines(unittest.TestCase):
    """The first lines of each definition file."""

    def test_one_wording_says_it(self) -> None:
        files = sorted(TOP.glob("crates/*/specs/**/*.antt"))
        found = {str(it.relative_to(TOP)): other_wordings(it.read_text("utf-8")) for it in files}
        self.assertEqual({}, {name: lines for name, lines in found.items() if lines})
        self.assertGreater(sum(it.read_text("utf-8").startswith(WORDING + "\n") for it in files), 20)


class Mistakes(unittest.TestCase):
    """That the test above would find a mistake."""

    def test_mistakes_are_found(self) -> None:
        lines = [
            "-- Only private contracts cite this file. One band.",
            "-- For the crate's own functions: how great sums are.",
            "-- Contracts of the crate's own functions alone cite it.",
            "-- Private contracts alone cite this.",
        ]
        for line in lines:
            with self.subTest(line):
                self.assertEqual([line], other_wordings(line + "\nuse A.{private}\n"))
        self.assertEqual([], other_wordings(f"{WORDING}\n-- One band.\nuse A.{{b}}\n"))
        self.assertEqual([WORDING], other_wordings(f"-- One band.\n{WORDING}\n"))


if __name__ == "__main__":
    unittest.main()
