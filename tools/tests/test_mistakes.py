"""Ten mistakes that are easily made, each named by `why` or `lint` with what to do."""

import unittest
from typing import NamedTuple

from commands_under_test import HERE, call


class Mistake(NamedTuple):
    """A script with a mistake, the command that names it, the line that it names, and what it says."""

    command: str
    script: str
    line: int
    says: str


MISTAKES = (
    Mistake("why", "misspelled_word.txt", 8, "`tnit` is no step of a leaf; perhaps `tint` is meant"),
    Mistake("lint", "window_not_put.txt", 4, "box was never put below the root, so it shows nowhere: `put box PARENT`"),
    Mistake("why", "name_twice.txt", 4, "the name desk is taken since line 3 (desk is a z): give this window another"),
    Mistake("lint", "time_goes_back.txt", 10, "N7 5: the time 4 goes back"),
    Mistake("why", "size_out_of_range.txt", 2, "1600 is out of range: W is 1 to 1024"),
    Mistake("why", "no_root.txt", 4, "no window is the root: put a line `root NAME` before it"),
    Mistake("why", "blanks_at_the_end.txt", 8, "2 blanks at the end of the line: take them away"),
    Mistake("why", "tab.txt", 3, "a tab: words are separated by one blank each"),
    Mistake("why", "crlf.txt", 1, "12 lines end with a carriage return, as on Windows: sed -i"),
    Mistake("why", "leading_zero.txt", 8, "a leading zero: write 46"),
)


class Mistakes(unittest.TestCase):
    """Each of them."""

    def test_each_is_named(self) -> None:
        for mistake in MISTAKES:
            with self.subTest(mistake.script):
                ended = call(mistake.command, [mistake.script], HERE / mistake.command)
                self.assertEqual(1, ended.status)
                self.assertIn(mistake.says, ended.text)
                where = f"{mistake.script}, line {mistake.line}: " if mistake.command == "why" else f":{mistake.line}: "
                self.assertIn(where, ended.text)


if __name__ == "__main__":
    unittest.main()
