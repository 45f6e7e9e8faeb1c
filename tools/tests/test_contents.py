"""What the models of widgets say: which commands change nothing, and what events are answered with."""

import sys
import unittest
from typing import List, NamedTuple, Optional

from commands_under_test import TOP

sys.path.insert(0, str(TOP / "tools"))

from trestle_tools.contents import WIDGETS, Edit  # noqa: E402
from trestle_tools.grammar import COMMANDS  # noqa: E402


class Typed(NamedTuple):
    """Commands of an editor, what it holds then, and why the last one changes nothing, if so."""

    commands: str
    lines: List[str]
    caret: tuple
    clip: str
    same: Optional[str]


TYPED = (
    Typed("insert hi", ["hi"], (0, 2), "", None),
    Typed("insert hi/erase", ["h"], (0, 1), "", None),
    Typed("insert a  b/goto 0 1/insert x", ["ax  b"], (0, 2), "", None),
    Typed("insert", [""], (0, 0), "", "the text is empty"),
    Typed("erase", [""], (0, 0), "", "the caret is at the start of the text"),
    Typed("insert hi/split/insert a/goto 1 0/erase", ["hia"], (0, 2), "", None),
    Typed("insert hello/copy 1 3", ["hello"], (0, 5), "el", None),
    Typed("insert hello/copy 1 3/paste", ["helloel"], (0, 7), "el", None),
    Typed("insert hello/copy 3 1", ["hello"], (0, 5), "", "the clip is `` already"),
    Typed("paste", [""], (0, 0), "", "the clip is empty: nothing was copied"),
    Typed("insert hi/goto 7 9", ["hi"], (0, 2), "", "the caret is there already"),
    Typed("insert " + 80 * "x" + "/insert y", [80 * "x"], (0, 80), "", "the line would have over 80 bytes"),
    Typed("split/" * 199 + "split", [""] * 200, (199, 0), "", "there are 200 lines already"),
)

ANSWERS = (
    ("solid", ["5"], "key 3 65", "tint 65"),
    ("solid", ["5"], "mouse 3 firstdown 1 4 2", ""),
    ("board", ["aa55aa55aa55aa55 0 0"], "key 3 65", ""),
    ("label", ["HI"], "key 3 33", "text HI!"),
    ("label", ["HI"], "key 3 10", ""),
    ("lines", [], "key 3 65", "line A"),
    ("canvas", [], "mouse 3 firstdown 1 4 2", "rect 4 6 2 4 1"),
    ("canvas", [], "mouse 3 lastup 1 4 2", ""),
    ("canvas", [], "mouse 3 firstdown 1 -1 2", ""),
    ("canvas", [], "key 3 8", "undo"),
    ("meter", ["2"], "key 3 65", "bar 0 65"),
    ("edit", [], "key 3 65", "insert A"),
    ("edit", [], "key 3 8", "erase"),
    ("edit", [], "key 3 13", "split"),
    ("edit", [], "reshape 4 4 map8", ""),
)


class Contents(unittest.TestCase):
    """The models."""

    def test_editor(self) -> None:
        for typed in TYPED:
            with self.subTest(typed.commands[:40]):
                editor, same = Edit([]), None
                for command in typed.commands.split("/"):
                    same = editor.change(command.split(" "))
                caret = editor.row, editor.column
                self.assertEqual(typed[1:], (editor.lines, caret, editor.clip, same))

    def test_answers(self) -> None:
        for widget, initial, event, answer in ANSWERS:
            with self.subTest(f"{widget}: {event}"):
                self.assertEqual(answer, " ".join(WIDGETS[widget](initial).answer(event.split(" "))))

    def test_each_widget_has_its_commands(self) -> None:
        for widget, commands in COMMANDS.items():
            for command in commands:
                self.assertTrue(hasattr(WIDGETS[widget], f"do_{command}"), f"{widget} {command}")


if __name__ == "__main__":
    unittest.main()
