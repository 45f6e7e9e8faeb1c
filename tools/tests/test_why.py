"""What why says of mistakes that others made: words of other tools, files that are no scripts, a script that plays."""

import unittest
from typing import List

from commands_under_test import call
from test_files import DUMPS, Folder

SCRIPT = """trestle 1
screen 16 8 map8
node desk z 24
leaf lamp 0 8 8 0 8 8 solid 40
put lamp desk 0 0
root desk
begin
motion 1 3 3
sync
dump
end
"""


class Why(Folder):
    """A script with a mistake."""

    def why(self, script: bytes, *words: str) -> List[str]:
        """What why says of a script."""
        (self.folder / "button.txt").write_bytes(script)
        ended = call("why", [*words, "button.txt"], self.folder)
        lines = ended.text.splitlines()
        self.assertEqual(0 if lines == ["button.txt plays"] else 1, ended.status, ended.text)
        return lines

    def cause(self, old: str, new: str) -> str:
        """What it says last of the script with another line."""
        return self.why(SCRIPT.replace(old, new).encode())[-1]

    def test_a_script_that_plays(self) -> None:
        """It was silent where the script plays."""
        self.assertEqual(["button.txt plays"], self.why(SCRIPT.encode()))
        self.assertEqual("button.txt plays by `check`\n", call("why", ["--check", "button.txt"], self.folder).text)
        self.assertEqual((0, "standard input plays\n"), call("why", ["-"], self.folder, SCRIPT.encode()))

    def test_words_of_other_tools(self) -> None:
        """Of `click 3 3` it said that no line begins so, and not what a click is here."""
        for line, says in (
            ("click 3 3", "no line begins with `click`: a click is `motion T H V`, `mouse T down B` and `mouse T up B`"),
            ("drag 3 3 6 6", "no line begins with `drag`: a drag is `motion T H V`, `mouse T down B`, further motions and `mouse T up B`"),
            ("wait 100", "no line begins with `wait`: there is no time to wait for: `sync` waits until all steps are done"),
            ("screenshot", "no line begins with `screenshot`: the screen is printed by `dump`"),
            ("Sync", "no line begins with `Sync`; perhaps `sync` is meant: words have small letters"),
            ("moiton 1 3 3", "no line begins with `moiton`; perhaps `motion` is meant"),
        ):
            with self.subTest(line):
                self.assertTrue(self.cause("motion 1 3 3", line).startswith(says))

    def test_a_time_that_is_forgotten(self) -> None:
        """The form had WAY where the pages write `down`."""
        says = "3 words only, and the line is `mouse T down|up B`: the time T is missing"
        self.assertEqual(says, self.cause("motion 1 3 3", "mouse down 1"))

    def test_a_kind_of_version_2(self) -> None:
        """Of `rgb` it named the kinds of version 1 alone."""
        says = "`rgb` isn't known here: KIND is `mono` or `map8`, and in version 2 `map4`"
        self.assertEqual(says, self.cause("8 map8", "8 rgb"))

    def test_files_that_are_no_script(self) -> None:
        call("look", ["-o", "picture.png"], self.folder, DUMPS[:19])
        png = (self.folder / "picture.png").read_bytes()
        self.assertEqual("this is a picture (PNG), and no script", self.why(png)[-1])
        self.assertEqual("this is a packed file (gzip), and no script", self.why(b"\x1f\x8b\x08\x00")[-1])
        self.assertEqual("this is an output, as trestle writes it, and no script", self.why(DUMPS)[-1])
        self.assertEqual("this is an output, as trestle writes it, and no script", self.why(b"refused: line 3 B1\n")[-1])

    def test_a_script_from_another_system(self) -> None:
        says = "11 lines end with a carriage return, as on Windows: sed -i 's/\\r$//' FILE takes them away"
        self.assertEqual(says, self.why(SCRIPT.replace("\n", "\r\n").encode())[-1])

    def test_places_of_what_is_included(self) -> None:
        """A message names the line of the file that it is about, whatever is included before."""
        (self.folder / "fonts").mkdir()
        font = self.folder / "fonts/two.txt"
        font.write_text("glyph 48 6666667e66666600\nglyph 49 3c18181818183c00\n")
        script = SCRIPT.replace("node desk", "# include fonts/two.txt\nnode desk").encode()
        self.assertEqual(["button.txt plays"], self.why(script))
        self.assertIn("button.txt, line 6: B3, ", self.why(script.replace(b"put lamp", b"put lump"))[0])
        self.assertIn("perhaps `lamp` is meant (line 5)", self.why(script.replace(b"put lamp", b"put lump"))[-1])
        self.assertIn("button.txt, line 12: B8, ", self.why(script.replace(b"end\n", b""))[0])
        twice = script.replace(b"node desk", b"glyph 49 0000000000000000\nnode desk")
        self.assertIn("the glyph 49 is there since line 2 of fonts/two.txt: take", self.why(twice)[-1])
        font.write_text("# A font.\nglyph 4 6666667e66666600\n")
        self.assertIn("fonts/two.txt, line 2 (included by button.txt): B2, ", self.why(script)[0])
        font.unlink()
        self.assertEqual(2, call("why", ["button.txt"], self.folder).status)


if __name__ == "__main__":
    unittest.main()
