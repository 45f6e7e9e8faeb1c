"""What `play` does with whole scripts; and that judges/model/threads.py finds what is wrong of one."""

import sys
import unittest
from pathlib import Path
from typing import Iterator, List

from commands_under_test import TOP

sys.path[:0] = [str(TOP / "judges"), str(TOP / "tools")]

from model.threads import LAST, Ended, cut_of, judge, text_of, written_of  # noqa: E402
from trestle_tools.program import REFUSED, play  # noqa: E402

# The scripts in which steps of one actor hang on those of another one in the same part, so that the order in which they come
# shows also outside of journals and of `peek`.
ORDERED = ("cages", "focus", "keys", "positions", "testing_copy_paste", "widget_label", "widget_lines", "widget_meter", "widget_solid")

SCRIPT = b"trestle 1\nscreen 1 1 map8\nleaf a 1 1 1 1 1 1 solid 7\nroot a\nbegin\n@a tint 8\n@a mark 0 1 0 1\nmotion 1 0 0\nend\n"
JOURNAL = """1 desk mu motion 1 0 0 = ok
2 painter share:a repaint a = ok
3 leaf:a win:a tint 8 = ok
4 leaf:a mu,win:a mark 0 1 0 1 = ok
5 player mu sync = ok
6 painter mu repaint a = ok
7 player mu dump = ok
"""
PLAYED = "dump 1 1 map8\n08\njournal 7\n" + JOURNAL + "played threads\n"
SERIAL = PLAYED.replace("share:a", "mu").replace("played threads\n", "").replace("mu,win:a tint", "win:a tint")


def scripts() -> Iterator[Path]:
    """The demos, and the examples of docs/SCRIPT.md that are played."""
    for folder in ("demos", "docs/examples"):
        yield from sorted((TOP / folder).glob("*.txt"))


def run(word: str, script: bytes) -> Ended:
    """A run."""
    return Ended(*play(script, word))


def said(played: str, serial: str = SERIAL) -> List[object]:
    """What the judge says where the program writes these texts."""
    judged = judge(lambda word, script: Ended(0, (played if word == "play" else serial).encode()), SCRIPT)
    return [judged.problem, judged.is_other]


class Threads(unittest.TestCase):
    """Scripts that threads play."""

    def test_scripts_of_the_repository(self) -> None:
        """Each is refused as by serial; or it writes what serial writes but journals and what they count, and its journal has each
        step once, in its actor's order, with the answer that serial gives in that order."""
        for file in scripts():
            with self.subTest(file.stem):
                script = file.read_bytes()
                serial, played = run("serial", script), run("play", script)
                self.assertEqual(serial.status, played.status)
                if serial.status == REFUSED:
                    self.assertEqual(serial, played)
                    continue
                self.assertTrue(played.output.endswith(LAST), played.output[-80:])
                if file.stem not in ORDERED:
                    lines = [it for it in written_of(played.output[: -len(LAST)]) if not isinstance(it, list)]
                    self.assertEqual([it for it in written_of(serial.output) if not isinstance(it, list)], lines)
                self.assertIsNone(judge(run, script).problem)


class Judge(unittest.TestCase):
    """What is found wrong."""

    def test_what_is_right(self) -> None:
        self.assertEqual([None, True], said(PLAYED))
        self.assertEqual(text_of(cut_of(SCRIPT)), SCRIPT)

    def test_what_is_wrong(self) -> None:
        for old, new, problem in (
            ("played threads\n", "", "the last line is"),
            ("played threads", "played thread", "the last line is"),
            ("tint 8 = ok", "tint 9 = ok", "in its order serial has another journal"),
            ("\n08\n", "\n07\n", "in its order serial writes"),
            ("leaf:a win:a tint", "leaf:a mu,win:a tint", "entry 3 has other levels"),
            ("leaf:a mu,win:a mark", "leaf:a win:a mark", "entry 4 has other levels"),
            ("share:a repaint a", "share:b repaint a", "entry 2 is none of the painter's"),
            ("4 leaf:a mu,win:a mark 0 1 0 1 = ok", "4 painter mu frame = ok", "no order: a step is missing of leaf:a"),
            ("2 painter share:a repaint a = ok", "2 desk mu motion 1 0 0 = ok", "no order: desk has made a step too many"),
            ("1 desk mu motion 1 0 0 = ok\n2", "2", "no order"),
            ("played threads", "differs leaf:a 1: tint 8 / -\nplayed again", "it was played again, and writes something else"),
        ):
            with self.subTest(new):
                self.assertIn(problem, str(said(PLAYED.replace(old, new))[0]))

    def test_what_is_played_again(self) -> None:
        """It is told, though it is right: something differed that the threads should have made."""
        again = SERIAL + "differs desk 1: motion 1 0 0 / -\nplayed again\n"
        self.assertEqual(["it was played again, since something differs", False], said(again))


if __name__ == "__main__":
    unittest.main()
