"""What lint names that is hardly meant: each finding of somebody who tested an interface, by a script with the mistake."""

import sys
import unittest
from typing import List
from unittest import mock

from commands_under_test import TOP, call
from test_files import Folder
from test_threads import ORDERED, scripts

sys.path.insert(0, str(TOP / "tools"))

from trestle_tools.findings import findings_of  # noqa: E402
from trestle_tools.instruments import body_of  # noqa: E402
from trestle_tools.program import PLAYED, play  # noqa: E402
from trestle_tools.scripts import lines_of  # noqa: E402

FONT = "".join(line + "\n" for line in (TOP / "demos/fonts/ascii.txt").read_text().split("\n") if line.startswith("glyph "))
END = ["sync", "dump", "end"]


def script(opening: List[str], steps: List[str], screen: str = "40 24 map8", version: int = 1) -> str:
    """A script with a desk, and what else it declares and does."""
    return "\n".join([f"trestle {version}", f"screen {screen}", "node desk z 24", *opening, "root desk", "begin", *steps, ""])


class Named(Folder):
    """A test that looks for findings."""

    def lint(self, text: str, *words: str) -> List[str]:
        """What lint says of a script: for each finding its line's number and text, and what it says."""
        (self.folder / "script.txt").write_text(text)
        ended = call("lint", [*words, "script.txt"], self.folder)
        lines = ended.text.splitlines()
        self.assertEqual(1 if lines else 0, ended.status, ended.text)
        return lines

    def says(self, text: str, line: str, finding: str) -> None:
        """A script has this finding alone, in this line."""
        found = self.lint(text)
        self.assertEqual(2, len(found), found)
        self.assertRegex(found[0], r"^script.txt:[0-9]+: ")
        self.assertEqual(line, found[0].split(": ", 1)[1])
        self.assertEqual("    " + finding, found[1])


class NeverSeen(Named):
    """Windows that no dump shows: lint said nothing of these."""

    def test_off_the_screen(self) -> None:
        text = script(["leaf a 0 4 4 0 4 4 solid 5", "put a desk 100 8"], ["@a force", *END])
        says = "a is never seen, the dump doesn't show it: a is at 100..104 by 8..12, off the screen (40 by 24)"
        self.says(text, "leaf a 0 4 4 0 4 4 solid 5", says)

    def test_outside_of_its_parent(self) -> None:
        opening = ["node box z 8", "node room rigid 0 8 8", "leaf a 0 4 4 0 4 4 solid 5", "put a box 8 0", "put box room", "put room desk 0 0"]
        says = "a is never seen, the dump doesn't show it: a is at 8..12 by 0..4, outside of box (0..8 by 0..8)"
        self.says(script(opening, ["@a force", *END]), "leaf a 0 4 4 0 4 4 solid 5", says)

    def test_without_a_preferred_size(self) -> None:
        text = script(["leaf a 0 0 4 0 4 4 solid 5", "put a desk 0 0"], END)
        says = "a is never seen, the dump doesn't show it: a has no point in desk, since it prefers 0 by 4"
        self.says(text, "leaf a 0 0 4 0 4 4 solid 5", says)

    def test_no_room_left_in_a_row(self) -> None:
        opening = ["node row h 0", "node box rigid 0 8 4", "leaf a 8 8 8 4 4 4 solid 5", "leaf b 4 4 4 4 4 4 solid 6"]
        text = script([*opening, "put a row", "put b row", "put row box", "put box desk 0 0"], END)
        says = "b is never seen, the dump doesn't show it: no room is left for b in row, which has 8 by 4 points"
        self.says(text, "leaf b 4 4 4 4 4 4 solid 6", says)

    def test_wholly_covered(self) -> None:
        text = script(["leaf a 0 4 4 0 4 4 solid 5", "leaf b 0 8 8 0 8 8 solid 6", "put a desk 2 2", "put b desk 0 0"], END)
        says = "a is never seen, the dump doesn't show it: a (2..6 by 2..6) is wholly covered by b"
        self.says(text, "leaf a 0 4 4 0 4 4 solid 5", says)

    def test_covered_by_several(self) -> None:
        leaves = ["leaf a 0 8 8 0 4 4 solid 5", "leaf b 0 4 4 0 4 4 solid 6", "leaf c 0 9 9 0 9 9 solid 6"]
        text = script([*leaves, "put a desk 0 0", "put b desk 0 0", "put c desk 4 0"], END)
        says = "a is never seen, the dump doesn't show it: a (0..8 by 0..4) is wholly covered by c and b"
        self.says(text, leaves[0], says)

    def test_never_shown(self) -> None:
        opening = ["node pile t 0", "node room rigid 0 8 8", "leaf a 0 4 4 0 4 4 solid 5", "leaf b 0 4 4 0 4 4 solid 6"]
        text = script([*opening, "put a pile", "put b pile", "put pile room", "put room desk 0 0"], END)
        self.says(text, "leaf b 0 4 4 0 4 4 solid 6", "b is never seen, the dump doesn't show it: pile shows a, and not b")

    def test_seen_at_one_of_several_dumps(self) -> None:
        text = script(["leaf a 0 4 4 0 4 4 solid 5", "put a desk 0 0"], ["dump", "detach a", *END])
        self.assertEqual([], self.lint(text))

    def test_moved_off_the_screen(self) -> None:
        """`move a 100 100` on a screen of 40 by 24."""
        text = script(["leaf a 0 4 4 0 4 4 solid 5", "put a desk 0 0"], ["dump", "move a 100 100", *END])
        self.says(text, "move a 100 100", "after it nothing of a is seen: a is at 100..104 by 100..104, off the screen (40 by 24)")

    def test_a_script_without_a_report(self) -> None:
        text = script(["leaf a 0 4 4 0 4 4 solid 5", "put a desk 0 0"], ["@a force", "sync", "end"])
        self.says(text, "end", "the script has no report, so it prints nothing: put a `dump` before it")


class Texts(Named):
    """Texts in which letters are boxes, or that have no room."""

    def label(self, text: str, opening: str, shape: str = "0 40 40 0 8 8") -> str:
        """A script with a label."""
        return script([*opening.splitlines(), f"leaf name {shape} label HI", "put name desk 0 0"], ["@name text " + text, "@name force", *END])

    def test_no_glyphs_at_all(self) -> None:
        """`@a text "HELLO"` without a font: all letters are boxes."""
        says = 'the script has no glyphs, so all letters of `"HELLO"` are boxes: include a font by `# include FILE`'
        found = self.lint(self.label('"HELLO"', "", "0 56 56 0 8 8"))
        self.assertEqual(['script.txt:8: @name text "HELLO"', "    " + says], [it.split(", as demos")[0] for it in found])

    def test_letters_without_a_glyph(self) -> None:
        says = "in `HI HO` the blank, `O` have no glyph and show as boxes: include a font by `# include FILE`"
        found = self.lint(self.label("HI HO", "glyph 48 6666667e66666600\nglyph 49 3c18181818183c00"))
        self.assertEqual(["script.txt:10: @name text HI HO", "    " + says], [it.split(", as demos")[0] for it in found])

    def test_letters_that_are_never_shown_need_no_glyph(self) -> None:
        self.assertEqual([], self.lint(self.label("HI", FONT).replace("label HI", "label \\")))

    def test_wider_than_its_window(self) -> None:
        says = "`HELLO` is 40 points wide, and name 28: of `LO` not all is seen"
        self.says(self.label("HELLO", FONT, "0 28 28 0 8 8"), "@name text HELLO", says)
        says = "`HELLO` is 40 points wide, and name 24: of `LO` nothing is seen"
        self.says(self.label("HELLO", FONT, "0 24 24 0 8 8"), "@name text HELLO", says)

    def test_lower_than_a_letter(self) -> None:
        says = "a letter is 8 points high, and name 6: of `HELLO` not all is seen"
        self.says(self.label("HELLO", FONT, "0 40 40 0 6 6"), "@name text HELLO", says)

    def test_lines_that_are_scrolled_away_are_not_looked_at(self) -> None:
        opening = [*FONT.splitlines(), "leaf text 0 16 16 0 8 8 lines", "put text desk 0 0"]
        self.assertEqual([], self.lint(script(opening, ["@text line HELLO", "@text line HI", "@text force", *END])))

    def test_a_font_that_is_included(self) -> None:
        (self.folder / "fonts").mkdir()
        (self.folder / "fonts/ascii.txt").write_text(FONT + "# meant\nleaf lost 1 1 1 1 1 1 solid 1\nleaf gone 1 1 1 1 1 1 solid 1\n")
        found = self.lint(self.label("HELLO", "# include fonts/ascii.txt"))
        self.assertEqual("fonts/ascii.txt:98: leaf gone 1 1 1 1 1 1 solid 1", found[0])
        self.assertEqual(2, len(found))
        found = self.lint(self.label("HELLO", "#include fonts/ascii.txt"))
        self.assertEqual(["script.txt:4: #include fonts/ascii.txt", "    it includes nothing: the line is `# include FILE`"], found[:2])


class Undone(Named):
    """Changes and dumps that nobody has anything from."""

    OPENING = ["leaf a 0 4 4 0 4 4 solid 5", "put a desk 0 0"]

    def test_a_change_undone_before_any_dump(self) -> None:
        text = script(self.OPENING, ["dump", "@a tint 8", "@a tint 5", "@a force", *END])
        self.says(text, "@a tint 5", "it undoes the change of line 9, and no `dump` or `peek` shows it between them")
        text = script(self.OPENING, ["dump", "move a 3 3", "move a 0 0", *END])
        self.says(text, "move a 0 0", "it undoes the change of line 9, and no `dump` or `peek` shows it between them")
        text = script(self.OPENING, ["dump", "move a 3 3", "sync", "peek", "move a 0 0", *END])
        self.assertEqual([], self.lint(text))

    def test_a_change_of_which_an_event_tells_is_meant(self) -> None:
        text = script(self.OPENING, ["dump", "shapes a 0 8 8 0 8 8", "shapes a 0 4 4 0 4 4", "move a 1 1", *END])
        self.assertEqual([], self.lint(text))

    def test_the_same_dump_twice(self) -> None:
        text = script(self.OPENING, ["dump", "motion 1 3 3", *END])
        self.says(text, "dump", "the same picture as the dump of line 8: no step between them changes the picture")
        self.says(script(self.OPENING, ["dump", "@a force", *END]), "dump", self.lint(text)[1].strip())
        self.assertEqual([], self.lint(script(self.OPENING, ["dump", "@a tint 8", "@a flush", *END])))

    def test_an_empty_cage(self) -> None:
        """`cage 0 8 8 0`, with the edges in another order."""
        text = script(self.OPENING, ["@a cage 0 8 8 0 here", "sync", "inbox a", "end"])
        says = "the cage `0 8 8 0` has no point, so that it tells at once: the order is W E N S, W below E, N below S"
        self.says(text, "@a cage 0 8 8 0 here", says)


class Presses(Named):
    """Presses that miss, and what follows from a line that was not made."""

    OPENING = ["node frame border 250 2", "leaf button 0 16 16 0 8 8 canvas", "leaf label 0 9 9 0 8 8 solid 9"]
    OPENING += ["put button frame", "put frame desk 9 6", "put label desk 29 8"]

    def press(self, h: int, v: int, report: str = "inbox button") -> List[str]:
        """What lint says of a press at a place."""
        steps = [f"motion 1 {h} {v}", "mouse 2 down 1", "mouse 3 up 1", "sync", report, "@button take", "@button take", "@button flush"]
        return self.lint(script(self.OPENING, [*steps, *END]))

    def test_a_press_one_pixel_beside(self) -> None:
        """It said `put a motion before it`, where one was."""
        beside = "at (27, 15) is the frame of `frame`, 1 point east of `button` (11..27 by 8..16)"
        found = self.press(27, 15)
        self.assertEqual(["script.txt:13: mouse 2 down 1", "    the press goes to nobody: " + beside], found[:2])
        self.assertEqual("    empty: no event waits for button, since the press of line 13 went to nobody", found[3])
        self.assertNotIn("motion", "".join(found[1::2]))

    def test_a_press_on_another_leaf(self) -> None:
        """Where a journal tells of all presses it named the `take` alone."""
        found = self.press(29, 12, "journal")
        beside = "at (29, 12) is `label`, 3 points east of `button` (11..27 by 8..16)"
        says = "    empty: no event waits for button, since the press of line 13 went to label"
        self.assertEqual([f"{says}: {beside}", says], found[1::2])

    def test_a_press_off_the_screen(self) -> None:
        says = "    the press goes to nobody: (40, 4) is off the screen (40 by 24), 3 points east and 4 north of `label` (29..38 by 8..16)"
        self.assertEqual(says, self.press(40, 4)[1])

    def test_a_press_without_a_motion(self) -> None:
        found = self.lint(script(self.OPENING, ["mouse 2 down 1", "mouse 3 up 1", *END]))
        self.assertIn("the cursor is off the screen, where it is before the first `motion T H V`: put one before it", found[1])

    def test_what_follows_from_a_line_is_not_named_as_a_cause(self) -> None:
        """`mouse 4 down` after `motion 5` isn't made; that the button isn't down afterwards follows from it."""
        steps = ["motion 5 12 9", "mouse 4 down 1", "mouse 6 up 1", "sync", "@button take", "sync", "inbox button", "dump", "end"]
        found = self.lint(script(self.OPENING, steps))
        self.assertIn("N7 5: the time 4 goes back, since the devices are at 5", found[1])
        self.assertEqual("    N9: it follows from line 13, which was not made (N7)", found[3])
        self.assertEqual("    empty: it follows from line 13, which was not made (N7)", found[5])
        self.assertEqual(6, len(found))

    def test_a_motion_that_is_not_made(self) -> None:
        steps = ["motion 5 40 23", "motion 4 12 9", "mouse 6 down 1", "mouse 7 up 1", "sync", "@button take", "sync", "inbox button", "end"]
        found = self.lint(script(self.OPENING, steps))
        self.assertIn("N7 5: the time 4 goes back", found[1])
        self.assertEqual("    the press goes to nobody: it follows from line 13, which was not made (N7)", found[3])
        self.assertEqual("    empty: it follows from line 13, which was not made (N7)", found[5])

    def test_keys_and_selections_that_follow(self) -> None:
        steps = ["motion 5 12 9", "mouse 6 down 1", "mouse 6 up 1", "sync", "inbox button", "@button own key 5", "sync"]
        found = self.lint(script(self.OPENING, [*steps, "key 7 65", "@button disown key", "sync", "journal", "end"]))
        self.assertIn("N10 6 6: the last event of button is of 6", found[1])
        self.assertIn("no leaf owns the selection `key`: it follows from line 17, which was not made (N10)", found[3])
        self.assertEqual("    N11: it follows from line 17, which was not made (N10)", found[5])

    def test_a_release_that_is_not_made(self) -> None:
        steps = ["motion 5 12 9", "mouse 6 down 1", "mouse 5 up 1", "sync", "inbox button", "end"]
        self.assertIn("button 1 is still down at the end: line 14 was not made (N7)", self.lint(script(self.OPENING, steps))[1])


class Orders(Named):
    """Steps of one part that threads may make in another order."""

    OPENING = ["leaf a 0 8 8 0 8 8 canvas", "leaf b 0 8 8 0 8 8 solid 4", "put a desk 0 0", "put b desk 8 0"]

    def test_a_take_beside_the_press(self) -> None:
        steps = ["motion 1 3 3", "mouse 2 down 1", "@a take", "mouse 3 up 1", "@a flush", "sync", "inbox a", "dump", "end"]
        says = "by `play` this `take` may come before the `mouse` of line 11, and then something else is printed: put a `sync` between them"
        self.says(script(self.OPENING, steps), "@a take", says)
        steps.insert(2, "sync")
        self.assertEqual([], self.lint(script(self.OPENING, steps)))

    def test_a_later_step_that_may_come_first(self) -> None:
        steps = ["motion 1 3 3", "sync", "@a cage 0 8 0 8 here", "sync", "motion 2 9 3", "@a cage 0 8 0 8 gone", "sync", "inbox a", "end"]
        found = self.lint(script(self.OPENING, steps))
        self.assertEqual(["script.txt:15: @a cage 0 8 0 8 gone"], found[::2])
        self.assertIn("by `play` this `cage` may come before the `motion` of line 14", found[1])

    def test_steps_that_have_nothing_to_do_with_one_another(self) -> None:
        steps = ["motion 1 3 3", "mouse 2 down 1", "mouse 3 up 1", "@b tint 8", "@b force", "sync", "inbox a", "@a take", "move b 8 4", "@a take"]
        self.assertEqual([], self.lint(script(self.OPENING, [*steps, "@a flush", *END])))

    def test_very_many_pairs_are_not_all_tried(self) -> None:
        """It says where it stopped."""
        pairs = [step for time in range(1, 9) for step in (f"motion {time} {time % 8} 3", "@a cage 0 8 0 8 both")]
        lines = lines_of(script(self.OPENING, ["motion 1 3 3", "sync", *pairs, "sync", "inbox b", "end"]).encode())
        says = "tried 3 pairs of steps for an order that shows by `play`, and stopped in the part that begins at line 12"
        with mock.patch("trestle_tools.orders.TRIED", 3):
            self.assertEqual(([], [says]), findings_of(lines, body_of(lines)))

    def test_what_a_journal_alone_would_show_is_left(self) -> None:
        """A journal and a peek may differ at each run by `play`."""
        steps = ["motion 1 3 3", "mouse 2 down 1", "mouse 2 up 1", "@a own source 2", "@b read source", "sync", "journal", "end"]
        self.assertEqual([], self.lint(script(self.OPENING, steps)))


# What lint says by itself of demos and examples, whatever their comments say is meant, and of which of them.
KINDS = {
    # Those whose tests of `play` expect something else to be printed.
    "by `play` this": set(ORDERED),
    "is never seen, ": {"edits"},
    "after it nothing of ": set(),
    " no glyph": {"editor", "widget_label"},
    " points wide, and ": set(),
    " points high, and ": {"lower_case"},
    "it undoes the change of ": {"lag"},
    "the same picture as ": {"painting_steps", "stream"},
    " has no point, so that ": set(),
    "has no report": set(),
    "the press goes to nobody": {"mouse", "testing_button"},
}


class NoFalseAlarms(unittest.TestCase):
    """Demos and examples in which nothing is wrong stay without a finding."""

    def test_the_scripts_of_the_repository(self) -> None:
        found = {says: set() for says in KINDS}
        for file in scripts():
            script = file.read_bytes().replace(b"# meant", b"#")
            if play(script).status != PLAYED:
                continue
            lines = lines_of(script)
            said = [finding.says for finding in findings_of(lines, body_of(lines))[0]]
            for says in KINDS:
                found[says] |= {file.stem} if any(says in it for it in said) else set()
        self.assertEqual(KINDS, found)


if __name__ == "__main__":
    unittest.main()
