"""What `# include FILE` brings into a script, and what is refused of it."""

import os
import unittest
from pathlib import Path

from commands_under_test import TOP, Ended, call
from test_files import Folder

BUTTON = """trestle 1
screen 16 8 map8
# include fonts/two.txt
leaf name 16 16 16 8 8 8 label HI
root name
begin
dump
end
"""
H, I = "glyph 48 6666667e66666600", "glyph 49 3c18181818183c00"


class Include(Folder):
    """A script that includes a font."""

    def setUp(self) -> None:
        super().setUp()
        self.write("button.txt", BUTTON)
        self.write("fonts/two.txt", f"{H}\n{I}\n")

    def write(self, name: str, text: str) -> None:
        """Writes a file."""
        path = self.folder / name
        path.parent.mkdir(exist_ok=True)
        path.write_text(text)

    def packed(self, name: str = "button.txt") -> Ended:
        """What pack writes."""
        return call("pack", [name], self.folder)

    def refused(self, line: str) -> str:
        """Why a script with this line in place of its own is not packed."""
        self.write("button.txt", BUTTON.replace("# include fonts/two.txt", line))
        ended = self.packed()
        self.assertEqual(2, ended.status)
        self.assertNotIn("\n", ended.text.rstrip("\n"))
        return ended.text

    def test_the_lines_of_the_file_stand_in_place_of_the_comment(self) -> None:
        self.assertEqual((0, BUTTON.replace("# include ", "# included ").replace("two.txt\n", f"two.txt\n{H}\n{I}\n")), self.packed())

    def test_a_script_that_includes_nothing_is_passed_as_it_is(self) -> None:
        for script in ("trestle 1\n# includes a font", "", "#include fonts/two.txt\r\n"):
            (self.folder / "button.txt").write_bytes(script.encode())
            self.assertEqual(script, self.packed().text.replace("\r\n", "\r\n"))

    def test_a_file_includes_further_ones_by_paths_from_its_own_folder(self) -> None:
        self.write("fonts/two.txt", "# include one.txt\n# include ../more/one.txt")
        self.write("fonts/one.txt", H)
        self.write("more/one.txt", I)
        self.assertIn(f"{H}\n# included more/one.txt\n{I}\nleaf name", self.packed().text)

    def test_a_script_on_standard_input_includes_from_the_present_folder(self) -> None:
        self.assertEqual(self.packed(), call("pack", ["-"], self.folder, BUTTON.encode()))

    def test_a_file_that_includes_itself_is_refused(self) -> None:
        self.write("fonts/two.txt", "# include one.txt\n")
        self.write("fonts/one.txt", "\n# include ./two.txt\n")
        ended = self.packed()
        says = "fonts/one.txt, line 2: `# include ./two.txt`: fonts/two.txt is being included already"
        self.assertEqual((2, f"pack: {says} (button.txt:3 > fonts/two.txt:1 > fonts/one.txt:2)\n"), ended)
        self.assertIn("button.txt is being included already", self.refused("# include button.txt"))

    def test_files_elsewhere_are_refused(self) -> None:
        """Absolute paths, paths out of the script's folder, and links out of it."""
        self.assertIn("it wants the path of a file, relative to", self.refused("# include /etc/passwd"))
        self.assertIn("it wants the path of a file, relative to", self.refused("# include "))
        self.assertIn("lies outside of", self.refused("# include ../fonts/two.txt"))
        (self.folder / "fonts/link.txt").symlink_to("/etc/passwd")
        self.assertIn("lies outside of", self.refused("# include fonts/link.txt"))

    def test_the_most_lines(self) -> None:
        self.write("fonts/two.txt", "#\n" * 60_000)
        self.assertIn("over 100000 lines", self.refused("# include fonts/two.txt\n# include fonts/two.txt"))

    def test_a_git_repository_is_one_home(self) -> None:
        (self.folder / ".git").mkdir()
        self.write("tests/deep.txt", "# include ../fonts/two.txt\n")
        self.assertEqual((0, f"# included ../fonts/two.txt\n{H}\n{I}\n"), self.packed("tests/deep.txt"))

    def test_files_that_cannot_be_read_are_refused(self) -> None:
        self.assertIn("button.txt, line 3: `# include no.txt`: no.txt cannot be read: No such file", self.refused("# include no.txt"))
        self.assertIn("fonts is no file with lines", self.refused("# include fonts"))
        os.mkfifo(self.folder / "pipe")
        self.assertIn("pipe is no file with lines", self.refused("# include pipe"))

    def test_a_few_files_do_not_grow_without_end(self) -> None:
        """Each of fifteen files includes the next one ten times."""
        for number in range(15):
            self.write(f"fonts/{number}.txt", f"# include {number + 1}.txt\n" * 10)
        self.write("fonts/15.txt", "#\n")
        self.assertIn("1000 files are included before it", self.refused("# include fonts/3.txt"))
        self.write("fonts/15.txt", "# include 16.txt\n")
        self.write("fonts/16.txt", "#\n")
        self.assertIn("16 files are included one in the other", self.refused("# include fonts/0.txt"))


class Font(unittest.TestCase):
    """The font that is shipped."""

    def test_it_is_that_of_the_demo(self) -> None:
        glyphs = [[line for line in (TOP / name).read_text().split("\n") if line.startswith("glyph ")] for name in FONTS]
        self.assertEqual(glyphs[0], glyphs[1])
        self.assertEqual(95, len(glyphs[0]))


FONTS = ("demos/font.txt", "demos/fonts/ascii.txt")


if __name__ == "__main__":
    unittest.main()
