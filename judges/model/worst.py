#!/usr/bin/env python3
"""Plays scripts and streams that are as dear as they may be, at a part of their size and at twice that size.

    judges/model/worst.py PROGRAM [PART [NAME..]]
    judges/model/worst.py --write NAME PART

PROGRAM is a linked trestle, PART the part of the size that the limits allow, as 0.01 (which is taken where it is left out)
or 1; NAME is that of a script or a stream, and all are played where there is none. For each a line tells the processor time
and the memory of both sizes, and their ratios; where the work grows as the size does they are about 2. `--write` prints
the script or the stream."""

import random
import sys
from pathlib import Path
from typing import Callable, Dict, List, NamedTuple

TOP = Path(__file__).resolve().parents[2]
sys.path[:0] = [str(TOP / "judges"), str(TOP / "tools")]

from model.program import Limits, Ran, Runner  # noqa: E402

SIDE = 1024
WHOLE = f"0 {SIDE} 0 {SIDE}"
FIT = f"0 {SIDE} {SIDE} 0 {SIDE} {SIDE}"
HEAD = ["trestle 2", f"screen {SIDE} {SIDE} map8"]
# So many lines a script may have beside its opening, its last report and its end.
STEPS = 99_000
END = ["sync", "dump", "end"]


def one(widget: str) -> List[str]:
    """An opening with one window, on the whole screen."""
    return [*HEAD, f"leaf a {FIT} {widget}", "root a", "begin", "dump", "sync"]


def comments(count: int) -> List[str]:
    """Comments, 4 MiB of them."""
    return [*one("solid 1")[:-2], *["#" * 40] * count, "dump", "end"]


def commands(count: int) -> List[str]:
    """A typescript that scrolls the whole screen at each second line."""
    return [*one("lines"), *[f"@a line {'x' * 33}", "@a flush"] * (count // 2), *END]


def figures(count: int) -> List[str]:
    """A canvas of 64 figures as large as the screen, which is painted anew at each second line."""
    full = [f"@a exchange {WHOLE} 1 2", f"@a swap {WHOLE}"] * 32
    return [*one("canvas"), *full, *[f"@a mark {WHOLE}", "@a force"] * (count // 2), *END]


def undone(count: int) -> List[str]:
    """The same canvas, whose last figure is undone and drawn again; nothing of it is painted until the end."""
    full = [f"@a swap {WHOLE}"] * 64
    return [*one("canvas"), *full, *["@a undo", f"@a swap {WHOLE}"] * (count // 2), *END]


def flushed(count: int) -> List[str]:
    """The same, but what waits is executed, and nothing is painted anew."""
    full = [f"@a swap {WHOLE}"] * 64
    return [*one("canvas"), *full, "@a force", *["@a undo", f"@a swap {WHOLE}"] * (count // 2), "@a flush", "sync", "end"]


def feeds(count: int) -> List[str]:
    """Blank lines behind the end, as many as 4 MiB have."""
    return [*one("solid 1")[:-2], "dump", "end", *[""] * (42 * count)]


def marks(count: int) -> List[str]:
    """Single points are marked, no two beside one another, and each of them is made bad at once."""
    points = (divmod(number * 7919 % (SIDE * SIDE // 4), SIDE // 2) for number in range(count // 2))
    lines = [f"@a mark {2 * h} {2 * h + 1} {2 * v} {2 * v + 1}\n@a flush" for v, h in points]
    return [*one("solid 1"), *lines, "sync", "peek", "end"]


def waiting_marks(count: int) -> List[str]:
    """The same points wait, and are made bad by one line."""
    points = (divmod(number * 7919 % (SIDE * SIDE // 4), SIDE // 2) for number in range(count))
    return [*one("solid 1"), *[f"@a mark {2 * h} {2 * h + 1} {2 * v} {2 * v + 1}" for v, h in points], "@a flush", "sync", "peek", "end"]


def spotted(count: int) -> List[str]:
    """A screen with many bad points, no two beside one another, on which a window of its size is moved to and fro."""
    points = (divmod(number * 7919 % (SIDE * SIDE // 4), SIDE // 2) for number in range(count // 2))
    spots = [f"@a mark {2 * h} {2 * h + 1} {2 * v} {2 * v + 1}" for v, h in points]
    opening = [*HEAD, "node z z 3", f"leaf a {FIT} solid 1", "put a z 0 0", "root z", "begin", "dump", "sync"]
    return [*opening, *spots, "@a flush", *["move a 0 1", "move a 0 0"] * (count // 4), "sync", "peek", "end"]


def tinted(count: int) -> List[str]:
    """The same screen, of whose edits each leaves it as it was."""
    points = (divmod(number * 7919 % (SIDE * SIDE // 4), SIDE // 2) for number in range(count // 2))
    spots = [f"@a mark {2 * h} {2 * h + 1} {2 * v} {2 * v + 1}" for v, h in points]
    opening = [*HEAD, "node z z 3", f"leaf a {FIT} solid 1", "put a z 0 0", "root z", "begin", "dump", "sync"]
    return [*opening, *spots, "@a flush", *["tint z 3"] * (count // 2), "sync", "peek", "end"]


def crowd(count: int) -> List[str]:
    """255 windows over one another on a desk, each of which is brought to the front in turn."""
    windows = [f"node n{number} rigid {number % 250} {5 + 3 * number} {SIDE - 4 * number}" for number in range(224)]
    leaves = [f"leaf l{number} {FIT} solid {number}" for number in range(31)]
    puts = [f"put l{number} z {number} {-number}" for number in range(31)]
    puts += [f"put n{number} z {4 * number} {2 * number}" for number in range(224)]
    lifts = [f"lift n{number * 89 % 224}" for number in range(count)]
    return [*HEAD, "node z z 0", *windows, *leaves, *puts, "root z", "begin", "dump", "sync", *lifts, *END]


def combs(count: int) -> List[str]:
    """Thin windows stand across one another, so that the window behind them shows in many pieces, and is moved."""
    windows = [f"node n{number} rigid {number} {3 if number % 2 else SIDE} {SIDE if number % 2 else 3}" for number in range(254)]
    puts = ["put a z 0 0"]
    for number in range(254):
        place = 8 * (number // 2)
        puts.append(f"put n{number} z {place if number % 2 else 0} {0 if number % 2 else place}")
    opening = [*HEAD, "node z z 0", *windows, f"leaf a {FIT} solid 7", *puts, "root z", "begin", "dump", "sync"]
    return [*opening, *["move a 1 1", "move a 0 0"] * (count // 2), *END]


def striped(count: int) -> List[str]:
    """224 narrow windows stand as high as the screen before a window with many bad points, and one of them is moved."""
    windows = [f"node n{number} rigid 1 2 {SIDE}" for number in range(224)]
    puts = ["put a z 0 0", *(f"put n{number} z {4 * number} 0" for number in range(224))]
    opening = [*HEAD, "node z z 0", *windows, f"leaf a {FIT} solid 7", *puts, "root z", "begin", "dump", "sync"]
    points = (divmod(number * 7919 % (SIDE * SIDE // 8), SIDE // 4) for number in range(count // 2))
    spots = [f"@a mark {4 * h + 2} {4 * h + 3} {2 * v} {2 * v + 1}" for v, h in points]
    return [*opening, *spots, "@a flush", *["move n0 0 1", "move n0 0 0"] * (count // 4), "sync", "peek", "end"]


def sizes(count: int) -> List[str]:
    """The screen gets another size at each line, with 32 windows on it that keep what they can."""
    leaves = [f"leaf l{number} 0 32 {SIDE} 0 1024 {SIDE} lines" for number in range(32)]
    puts = [f"put l{number} r" for number in range(32)]
    opening = [*HEAD, "node r h 3", *leaves, *puts, "root r", "begin", "dump", "sync"]
    return [*opening, *[f"resize {SIDE - 1} {SIDE}", f"resize {SIDE} {SIDE - 1}"] * (count // 2), *END]


def journals(count: int) -> List[str]:
    """Each line tells 32 windows with long names of another kind of screen, and the journal is reported 60 times."""
    names = [f"a_name_so_long{number // 10}{number % 10}" for number in range(32)]
    leaves = [f"leaf {name} {FIT} solid 1" for name in names]
    opening = [*HEAD, "node z z 3", *leaves, *(f"put {name} z" for name in names), "root z", "begin"]
    return [*opening, *["rescreen map4", "rescreen map8"] * (count // 2), "sync", *["journal"] * 60, "end"]


def dumps(count: int) -> List[str]:
    """64 dumps of the largest screen, whatever the size."""
    return [*one("canvas")[:-1], *["dump"] * max(1, count * 63 // STEPS), "end"]


def rows(_: int) -> List[str]:
    """64 dumps of the largest screen without two equal rows, whatever the size: each row has an edge of a figure, and each dump
    another colour at its west."""
    names = [f"c{strip}" for strip in range(16)]
    leaves = [f"leaf {name} 0 {SIDE // 16} {SIDE // 16} 0 {SIDE} {SIDE} canvas" for name in names]
    puts = [f"put {name} desk {strip * SIDE // 16} 0" for strip, name in enumerate(names)]
    edges = [f"@{name} rect 0 {SIDE // 16} {16 * number + strip} {SIDE} {4 * number + 1}"
        for number in range(64) for strip, name in enumerate(names)]
    opening = [*HEAD, "node desk z 24", *leaves, f"leaf s 0 8 8 0 {SIDE} {SIDE} solid 1", *puts, "put s desk 0 0", "root desk", "begin"]
    return [*opening, *edges, *[line for number in range(64) for line in (f"@s tint {number + 2}", "sync", "dump")], "end"]


def checked(count: int) -> List[str]:
    """A check of the undone canvas."""
    side = 256
    count = max(2, count * 1900 // STEPS)
    opening = ["trestle 2", f"screen {side} {side} map8", f"leaf a {FIT} canvas", "root a", "begin"]
    full = [f"@a swap {WHOLE}"] * 64
    return [*opening, *full, *["@a undo", f"@a swap {WHOLE}"] * (count // 2), "sync", "end"]


def parted(count: int) -> List[str]:
    """Threads play 991 parts at full size; each looks through the journal so far; 32 clients have the lines in turn."""
    leaves = [f"leaf l{number} 0 32 {SIDE} 0 1024 {SIDE} solid {number}" for number in range(32)]
    opening = [*HEAD, "node r h 3", *leaves, *(f"put l{number} r" for number in range(32)), "root r", "begin"]
    steps = max(1, count // 999)
    lines = []
    for number in range(min(999, count // (steps + 1))):
        lines += [*(f"@l{(number + it) % 32} tint {(number + it) % 256}" for it in range(steps)), "sync"]
    return [*opening, *lines, "dump", "end"]


def shared(count: int) -> List[str]:
    """Threads paint: 32 windows side by side are told another colour. The painter comes after 16 lines, then some
    sixty times a second, and when all are made."""
    leaves = [f"leaf l{number} 0 32 {SIDE} 0 1024 {SIDE} solid {number}" for number in range(32)]
    opening = [*HEAD, "node r h 3", *leaves, *(f"put l{number} r" for number in range(32)), "root r", "begin"]
    return [*opening, *(f"@l{number % 32} tint {number // 32 % 256}" for number in range(count)), *END]


def events(count: int) -> List[str]:
    """32 windows set cages, and the cursor leaves them all at each line."""
    leaves = [f"leaf l{number} 1 32 {SIDE} 1 1024 {SIDE} solid 1" for number in range(32)]
    puts = [f"put l{number} r" for number in range(32)]
    opening = [*HEAD, "node r h 3", *leaves, *puts, "root r", "begin"]
    rounds = max(1, count // 33)
    lines = []
    for number in range(rounds):
        lines += [f"@l{leaf} cage 0 0 0 0 {'both' if number % 2 else 'gone'}" for leaf in range(32)]
        lines.append(f"motion {number + 1} {number % SIDE} {number % 7}")
    return [*opening, *lines, *END]


def written(count: int) -> List[str]:
    """An editor with 200 full lines, into which lines are split, erased and pasted."""
    lines = [f"@a insert {'x' * 80}", "@a goto 0 0", "@a split"] * 199 + ["@a goto 0 0"]
    return [*one("edit"), *lines, *["@a erase", "@a insert x", "@a goto 199 0", "@a goto 0 0"] * (count // 4), *END]


def turned(count: int) -> List[str]:
    """The same editor in a window of 198 rows, whose caret goes to its end and back: each time all shown lines are painted,
    and wait. (In a window of 199 rows they are moved by one row.)"""
    opening = [*HEAD, "node z z 3", f"leaf a 0 {SIDE} {SIDE} 0 1584 1584 edit", "put a z", "root z", "begin", "dump", "sync"]
    lines = [f"@a insert {'x' * 80}", "@a goto 0 0", "@a split"] * 199
    return [*opening, *lines, *["@a goto 199 0", "@a goto 0 0"] * (count // 2), *END]


SCRIPTS: Dict[str, Callable[[int], List[str]]] = {
    it.__name__: it
    for it in (
        comments, feeds, commands, figures, undone, flushed, marks, waiting_marks, spotted, tinted, striped, crowd,
        combs, sizes, journals, dumps, rows, checked, parted, shared, events, written, turned,
    )
}  # fmt: skip


# The most cuts of a stream.
CUTS = 64
# A record that begins the largest screen.
SCREEN = b"\1" + SIDE.to_bytes(2, "big") * 2 + b"\1"


def cut(number: int) -> bytes:
    """The record of a cut."""
    return b"\4" + number.to_bytes(4, "big")


def unchanged(cuts: int) -> bytes:
    """The largest screen, and cuts that change nothing."""
    return SCREEN + b"".join(cut(number) for number in range(1, cuts + 1))


def rewritten(cuts: int) -> bytes:
    """At full size the longest stream without a fault: each group has the largest screen, and each row has other pixels."""
    numbers, stream = random.Random(1), bytearray()
    for number in range(1, cuts + 1):
        stream += SCREEN
        for v in range(SIDE):
            stream += b"\2\0\0" + v.to_bytes(2, "big") + SIDE.to_bytes(2, "big")
            stream += numbers.getrandbits(8 * SIDE).to_bytes(SIDE, "big")
        stream += cut(number)
    return bytes(stream)


STREAMS: Dict[str, Callable[[int], bytes]] = {it.__name__: it for it in (unchanged, rewritten)}
# The words by which some of them are played.
WORDS = {"checked": "check", "parted": "play", "shared": "play", **dict.fromkeys(STREAMS, "show")}


class Measured(NamedTuple):
    """What a size of a script or a stream came to."""

    size: str
    ran: Ran


def script(name: str, part: float) -> bytes:
    """The script or the stream at a part of its size."""
    if name in STREAMS:
        return STREAMS[name](max(1, int(CUTS * part)))
    return "".join(line + "\n" for line in SCRIPTS[name](max(4, int(STEPS * part)))).encode("ascii")


def measure(runner: Runner, name: str, part: float) -> Measured:
    """Plays a script or a stream at a part of its size."""
    given = script(name, part)
    ran = runner.run([WORDS.get(name, "serial")], given, Limits(seconds=7200))
    size = f"bytes={len(given)}" if name in STREAMS else f"lines={given.count(10)}"
    return Measured(size, ran)


def told(measured: Measured) -> str:
    """What is told of a size."""
    ran = measured.ran
    status = "" if ran.status == 0 else f" status={ran.status}"
    return f"{measured.size} s={ran.seconds:.2f} MB={ran.kilobytes // 1024} written={len(ran.output)}{status}"


def main(words: List[str]) -> int:
    """Measures, or writes a script."""
    if len(words) == 3 and words[0] == "--write":
        sys.stdout.buffer.write(script(words[1], float(words[2])))
        return 0
    if not words or words[0].startswith("-"):
        print(__doc__, file=sys.stderr)
        return 2
    part = float(words[1]) if len(words) > 1 else 0.01
    runner = Runner(words[0])
    for name in words[2:] or (*SCRIPTS, *STREAMS):
        if part > 0.5:
            print(f"worst: {name:13} {told(measure(runner, name, part))}", flush=True)
            continue
        small, large = measure(runner, name, part), measure(runner, name, 2 * part)
        ratio = large.ran.seconds / max(small.ran.seconds, 0.001)
        print(f"worst: {name:13} {told(small)}; {told(large)}; ratio={ratio:.1f}", flush=True)
    return 0


if __name__ == "__main__":
    sys.exit(main(sys.argv[1:]))
