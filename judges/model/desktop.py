#!/usr/bin/env python3
"""Writes a script of a desktop: a typescript in a border, a canvas, a meter and a panel with two pages of two colours. Four
clients have 200 lines each; the desk moves and lifts 60 times, turns a page, and makes the screen mono and back. In three
parts, with a dump at the end, which is the same in whatever order the clients and the desk come."""

import sys
from typing import List

ROUNDS = 200


def opening() -> List[str]:
    """The opening."""
    lines = ["trestle 1", "screen 1024 768 map8", "glyph 41 183c66667e666600", "node z z 3", "node edge border 9 4", "node panel page 5 2"]
    lines += ["leaf text 0 640 640 0 192 192 lines", "leaf dots 0 300 300 0 200 200 canvas", "leaf load 0 128 128 0 100 100 meter 16"]
    lines += [f"leaf lamp{number} 0 60 60 0 40 40 solid {40 + number}" for number in range(4)]
    lines += ["put text edge", "put edge z 20 20", "put dots z 500 300", "put load z 700 100", "put panel z 100 400"]
    return [*lines, *(f"put lamp{number} panel" for number in range(4)), "root z", "begin"]


def round_of(number: int) -> List[str]:
    """A line of each of the four clients, and what the desk does then."""
    n = number
    figure = f"rect {n} {n + 40} {n % 90} {n % 90 + 30} {n % 256}" if n % 3 else "undo"
    lines = [f"@text line A{n}", f"@dots {figure}", f"@load bar {n % 16} {n % 100}", f"@lamp0 tint {n % 256}"]
    lines += [f"move edge {3 * n} {2 * n}"] * (n % 4 == 0) + ["lift dots"] * (n % 20 == 0)
    further = {60: ["sync"], 80: ["rescreen mono"], 100: ["turn panel 1"], 120: ["rescreen map8"], 140: ["sync"], ROUNDS: ["sync"]}
    return lines + further.get(n, [])


def script() -> bytes:
    """The whole script."""
    lines = [line for number in range(1, ROUNDS + 1) for line in round_of(number)]
    return "".join(line + "\n" for line in [*opening(), *lines, "dump", "end"]).encode("ascii")


if __name__ == "__main__":
    sys.stdout.buffer.write(script())
