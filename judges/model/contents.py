#!/usr/bin/env python3
"""Plays scripts of one window, whose client makes commands that are drawn at random, and compares each dump with that of a
plain model. `fuzz` has few commands for each content; here texts grow to their limits, and windows have any small size.

    judges/model/contents.py PROGRAM [ROUNDS] [SEED]

PROGRAM is a linked trestle. In each of ROUNDS rounds, 1 where none is given, each widget has a script in a window of each
size, with up to 60 dumps behind up to 100 commands each. Some commands come behind a mark, so that a part is painted anew; some
behind another kind of pixels, or another size of the screen. The status is 1 where any dump differs."""

import random
import sys
from pathlib import Path
from typing import Callable, Dict, List, Optional, Tuple

TOP = Path(__file__).resolve().parents[2]
sys.path[:0] = [str(TOP / "judges"), str(TOP / "tools")]

from model import printing  # noqa: E402
from model.fuzz import other_output  # noqa: E402
from model.program import PLAYED, Limits, Runner  # noqa: E402

# The last one shows all columns of a line.
SIZES = ((24, 24), (8, 16), (17, 39), (40, 8), (16, 7), (12, 80), (1, 1), (648, 8))
# So many dumps a script has, and so many of the widest window.
DUMPS, WIDE_DUMPS = 60, 12
KINDS = ("mono", "map4", "map8")
TEXTS = ("", "a", "a", "Zz~", " to be ", "or not to b", "b ", "~~~~~", "x" * 40, "y" * 79, "z" * 80)
GLYPHS = ["glyph 61 183c66667e666600", "glyph 7e 8040201008040201", "glyph 20 0000000000000000"]


class Draw:
    """What is drawn for the commands of one script."""

    def __init__(self, chance: random.Random, size: Tuple[int, int]):
        self.chance = chance
        self.size = size
        # So many of a hundred commands of an editor break a line.
        self.splits = 40

    def below(self, count: int) -> int:
        """A number."""
        return self.chance.randrange(count)

    def text(self) -> str:
        """A text."""
        return self.chance.choice(TEXTS)

    def board(self) -> str:
        """A command of a board."""
        tile = f"tile {self.chance.getrandbits(64):016x}"
        return self.chance.choice((tile, f"shift {self.below(256) - 100} {self.below(256) - 100}"))

    def edge(self) -> int:
        """An edge in the window or a little beside it, and now and then a far one."""
        return self.chance.choice((-8192, 8192)) if self.below(12) == 0 else self.below(max(self.size) + 6) - 3

    def edges(self) -> str:
        """A rectangle, which may have no point."""
        return " ".join(str(self.edge()) for _ in range(4))

    def column(self) -> int:
        """A column, at times the first."""
        return 0 if self.below(3) == 0 else self.below(81)

    def editor(self) -> str:
        """A command of an editor."""
        way = self.below(100)
        if way < self.splits:
            return "split"
        row = self.below(200) if self.below(3) == 0 else self.below(12)
        others = [f"insert {self.text()}"] * 3 + ["erase"] * 3 + ["paste", f"copy {self.column()} {self.column()}"]
        return self.chance.choice([*others, *[f"goto {row} {self.column()}"] * 2])

    def canvas(self) -> str:
        """A command of a canvas."""
        tints = f"{self.below(20)} {self.below(20)}"
        drawn = [f"rect {self.edges()} {self.below(20)}"] * 2 + [f"exchange {self.edges()} {tints}", f"swap {self.edges()}"]
        return self.chance.choice([*drawn, "undo"])


COMMANDS: Dict[str, Callable[[Draw], str]] = {
    "solid 5": lambda it: f"tint {it.below(256)}",
    "board 8040201008040201 1 0": Draw.board,
    "label hi": lambda it: f"text {it.text()}",
    "lines": lambda it: "clear" if it.below(150) == 0 else f"line {it.text()}",
    "canvas": Draw.canvas,
    "meter 2": lambda it: f"bar {it.below(4)} {it.below(32)}",
    "edit": Draw.editor,
}


def steps(draw: Draw, widget: str, dump: int) -> List[str]:
    """The lines up to a dump."""
    chance = draw.chance
    # Lines of an editor are broken for some dumps, and then they grow for as many.
    draw.splits = 40 if dump // 6 % 2 == 0 else 4
    lines = [f"@a {COMMANDS[widget](draw)}" for _ in range(chance.choice((1, 1, 2, 5, 100)))]
    if chance.random() < 0.3:
        lines.insert(chance.randrange(len(lines)), f"@a mark {draw.edges()}")
        lines.insert(chance.randrange(len(lines)), "@a flush")
    if chance.random() < 0.1:
        wide, high = draw.size
        other = f"resize {chance.randint(1, wide)} {chance.randint(1, high)}"
        lines.insert(0, chance.choice((f"rescreen {chance.choice(KINDS)}", other, f"resize {wide} {high}")))
    return [*lines, "sync", "dump"]


def script(chance: random.Random, widget: str, size: Tuple[int, int]) -> bytes:
    """A script."""
    wide, high = size
    head = ["trestle 2", f"screen {wide} {high} {chance.choice(KINDS)}", *GLYPHS, f"leaf a 0 1 4096 0 1 4096 {widget}"]
    draw = Draw(chance, size)
    dumps = DUMPS if wide * high <= 1000 else WIDE_DUMPS
    parts = [line for dump in range(dumps) for line in steps(draw, widget, dump)]
    return "".join(line + "\n" for line in [*head, "root a", "begin", *parts, "end"]).encode("ascii")


def problem(runner: Runner, text: bytes) -> Optional[str]:
    """What differs, if anything."""
    ran = runner.run(["serial"], text, Limits(seconds=10))
    if ran.errors or ran.status != PLAYED:
        return f"status {ran.status}, {ran.output[:80]!r} and {ran.errors[:80]!r}"
    return other_output(text, "serial", ran.output)


def main(words: List[str]) -> int:
    """Plays all scripts."""
    if not 1 <= len(words) <= 3:
        print(__doc__, file=sys.stderr)
        return 2
    rounds, seed = int(words[1]) if len(words) > 1 else 1, words[2] if len(words) > 2 else "1"
    printing.POINTS = max(wide * high for wide, high in SIZES)
    runner = Runner(words[0])
    tried = wrong = 0
    for number in range(rounds):
        for widget in COMMANDS:
            for size in SIZES:
                tried += 1
                found = problem(runner, script(random.Random(f"{seed} {number} {widget} {size}"), widget, size))
                if found:
                    wrong += 1
                    print(f"contents: round {number}, {widget} in {size[0]} by {size[1]}: {found}", flush=True)
    runner.close()
    print(f"contents: {tried - wrong} of {tried} scripts show what the model shows")
    return 1 if wrong else 0


if __name__ == "__main__":
    sys.exit(main(sys.argv[1:]))
