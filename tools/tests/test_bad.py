"""Which points are bad: what look --bad shows, and what lint --steps says of each step."""

import re
import sys
import unittest
from typing import List, Set, Tuple

from commands_under_test import TOP, call
from test_files import Folder, colours_of

sys.path[:0] = [str(TOP / "tools"), str(TOP / "judges")]

from model.printing import Model  # noqa: E402
from trestle_tools.bad import Prober, place_of  # noqa: E402
from trestle_tools.include import pack  # noqa: E402
from trestle_tools.instruments import Peek, answers, body_of  # noqa: E402
from trestle_tools.places import Rect  # noqa: E402
from trestle_tools.scripts import Line  # noqa: E402
from trestle_tools.steps import After, greatest  # noqa: E402

# A typescript behind a note, and two windows in a row.
SCRIPT = """trestle 1
screen 16 24 map8
glyph 41 183c66667e666600
glyph 42 7c66667c66667c00
glyph 43 3c66606060663c00
node desk z 3
node row h 4
leaf text 0 16 16 0 16 16 lines
leaf note 0 4 4 0 4 4 solid 7
leaf left 2 2 8 4 4 4 solid 8
leaf right 4 4 4 4 4 4 solid 9
put left row
put right row
put row desk 0 18
put text desk 0 0
put note desk 2 10
root desk
begin
@text line A
@text line B
sync
dump
@text line C
@text flush
sync
peek
dump
@left mark 0 1 0 2
@left flush
detach note
shapes left 4 4 8 4 4 4
tint desk 5
move row 1 17
attach note desk 40 40
move note 20 20
sync
peek
dump
end
"""


def points_of(rects) -> Set[Tuple[int, int]]:
    """The points of some rectangles."""
    return {(h, v) for west, east, north, south in rects for h in range(west, east) for v in range(north, south)}


class Exact(unittest.TestCase):
    """The points are those that a second reader of the docs finds, who keeps for each point whether it is bad."""

    def test_each_place_of_some_scripts(self) -> None:
        for name in ("batches", "moved", "keeps", "edits", "painting_steps", "split_z", "faults_of_edits", "reports"):
            with self.subTest(name):
                self.compare(TOP / f"docs/examples/{name}.txt")

    def compare(self, file) -> None:
        """Compares all bad points of a script, and the number of the stale ones."""
        body = body_of(pack(str(file)).lines)
        prober, model = Prober(body, answers(body)), Model(False)
        for line in body.opening:
            model.line(line.text)
        for line in body.lines:
            if line.text != "dump":
                wide, high = model.tree.size
                points = prober.points(place_of(body, line.number) - (line in prober.items), Rect(0, wide, 0, high))
                self.assertEqual((model.bad, []), (points_of(points.bad), points.unknown), line)
                self.assertEqual(model.stale(), len(points_of(points.stale)), line)
            model.line(line.text)


class Look(Folder):
    """look --bad."""

    def setUp(self) -> None:
        super().setUp()
        (self.folder / "script.txt").write_text(SCRIPT)

    def test_the_points_at_each_peek(self) -> None:
        """What is bad was a number alone, without a place."""
        lines = call("look", ["--bad", "script.txt"], self.folder).text.splitlines()
        self.assertEqual("line 26, `peek`: 16 bad, 0 stale", lines[0])
        marked = [(h, v) for v, row in enumerate(lines[1:25]) for h in range(16) if row[2 * h : 2 * h + 2] == "##"]
        self.assertEqual([(h, v) for v in range(2, 6) for h in range(2, 6)], marked)

    def test_after_a_line_and_into_a_file(self) -> None:
        ended = call("look", ["--bad", "script.txt", "--at", "29", "-o", "bad.png"], self.folder)
        self.assertEqual((0, "line 29, `@left flush`: 2 bad, 0 stale"), (ended.status, ended.text.splitlines()[0]))
        rows = colours_of((self.folder / "bad.png").read_bytes())
        marked = {(h, v) for v, row in enumerate(rows) for h, colour in enumerate(row) if colour == "ff00ff"}
        self.assertEqual({(0, 18), (0, 19)}, marked)

    def test_stale_points(self) -> None:
        lines = call("look", ["--bad", "script.txt", "--at", "23"], self.folder).text.splitlines()
        self.assertRegex(lines[0], "line 23, `@text line C`: 0 bad, [1-9][0-9]* stale")
        self.assertTrue("%%" in "".join(lines[1:25]))

    def test_what_is_refused(self) -> None:
        self.assertEqual(2, call("look", ["--bad", "script.txt", "--at", "4"], self.folder).status)
        self.assertEqual(2, call("look", ["--bad", "script.txt", "--play"], self.folder).status)
        self.assertEqual(2, call("look", ["--at", "4"], self.folder).status)
        (self.folder / "script.txt").write_text(SCRIPT.replace("tint desk 5", "tnit desk 5"))
        says = "look: script.txt does not play: refused: line 32 B1; bin/why script.txt says why\n"
        self.assertEqual((2, says), call("look", ["--bad", "script.txt"], self.folder))

    def test_a_tree_that_has_no_room_for_covers(self) -> None:
        """It says that it cannot tell, and lint --steps tells no windows."""
        script = str(TOP / "docs/examples/too_deep.txt")
        says = "the tree has so many windows, or so deep ones, that no cover can come in front of it"
        ended = call("look", ["--bad", script], self.folder)
        self.assertEqual((2, f"look: {says}\n"), ended)
        self.assertTrue(call("lint", ["--steps", script], self.folder).text.endswith(f"lint: {says}\n"))


class Steps(Folder):
    """lint --steps."""

    def test_changes_windows_and_reasons(self) -> None:
        """It had totals alone: no change, no window, no reason and no greatest step."""
        (self.folder / "script.txt").write_text(SCRIPT)
        lines = [it.strip() for it in call("lint", ["--steps", "script.txt"], self.folder).text.splitlines()]
        after = {line.split("  ")[-1]: place for place, line in enumerate(lines)}
        for step, reasons in (
            ("@text flush", ["+16 of text: scrolled from behind, or from bad points"]),
            ("@left flush", ["+2 of left: marked"]),
            ("detach note", ["+16 of text: uncovered"]),
            ("shapes left 4 4 8 4 4 4", ["+16 of right: moved by a layout", "+8 of left: of another size"]),
            ("tint desk 5", ["+96 of the frame of desk: another tint"]),
        ):
            with self.subTest(step):
                place = after[step]
                self.assertEqual(reasons, lines[place + 1 : place + 1 + len(reasons)])
        self.assertRegex(lines[after["begin"]], r"^384 +0 +0 +18  begin$")
        self.assertRegex(lines[after["@text flush"]], r"^16 +\+16 +0 +-3 ")
        self.assertTrue(any(re.match("(after the first dump, |once all was painted by line [0-9]+, )most points are bad after line ", it) for it in lines))
        self.assertTrue(any(re.match(".*, most points become bad by line ", it) for it in lines))

    def greatest(self, text: str, bad: List[int]) -> List[str]:
        """What is said at the end of lines of one letter each, with so many bad points after each."""
        told = [After(Line(number, it), Peek(now, 0, 0), Peek(before, 0, 0), []) for number, (it, now, before) in enumerate(zip(text, bad, [0, *bad]), 1)]
        told = [after._replace(line=Line(after.line.number, "dump")) if after.line.text == "d" else after for after in told]
        return list(greatest(told))

    def test_all_lines_that_tie_are_named(self) -> None:
        """It named the first one alone, and called it the greatest though all points are bad before the first dump."""
        self.assertEqual(
            [
                "after the first dump, most points are bad after line 4 to line 5 and line 7: 8",
                "after the first dump, most points become bad by lines 4, 7: 8 each",
            ],
            self.greatest("abdxydedf", [90, 90, 0, 8, 8, 0, 8, 0, 4]),
        )
        self.assertEqual(
            ["once all was painted by line 2, most points are bad after line 3: 6 (`c`)", "once all was painted by line 2, most points become bad by line 3: 6 (`c`)"],
            self.greatest("abcd", [90, 0, 6, 0]),
        )
        self.assertEqual(["most points are bad after line 1 to line 2: 90"], self.greatest("ab", [90, 90])[:1])
        self.assertEqual([], self.greatest("ad", [90, 0]))


if __name__ == "__main__":
    unittest.main()
