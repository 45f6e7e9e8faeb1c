#!/usr/bin/env python3
"""Plays scripts at each limit: the last value that passes, and the first one that is refused or changes nothing.

    judges/model/limits.py PROGRAM

PROGRAM is a linked trestle. Where nothing is refused, what is looked at is the end of what the script prints."""

import sys
from pathlib import Path
from typing import Iterator, List, NamedTuple, Optional

TOP = Path(__file__).resolve().parents[2]
sys.path[:0] = [str(TOP / "judges"), str(TOP / "tools")]

from model.program import PLAYED, REFUSED, Limits, Runner  # noqa: E402
from model.reader import Refusal, refusal_of  # noqa: E402
from trestle_tools.scripts import CHECK_STEPS, DEPTH, LEAVES, LINE_BYTES, LINES, NAME_BYTES, REPORTS, STR_BYTES  # noqa: E402
from trestle_tools.scripts import SYNCS, TEXT_BYTES, WINDOWS  # noqa: E402

HEAD = ["trestle 2", "screen 1 1 map8"]
LEAF = "leaf a 1 1 1 1 1 1 solid 7"
BEGIN = [*HEAD, LEAF, "root a", "begin"]
# The rows of a glyph, all of whose points are set.
FULL = "ffffffffffffffff"


class Case(NamedTuple):
    """A script, and what becomes of it: it is refused, or plays and ends with these lines."""

    name: str
    script: bytes
    refusal: Optional[Refusal] = None
    end: bytes = b""
    word: str = "serial"


def text(*parts: List[str]) -> bytes:
    """The script of some lines."""
    return "".join(line + "\n" for part in parts for line in part).encode("ascii")


def plays(name: str, script: bytes, *end: str, word: str = "serial") -> Case:
    """A script that plays and ends with these lines."""
    return Case(name, script, None, text(list(end)), word)


def refused(name: str, script: bytes, line: int, code: int, word: str = "serial") -> Case:
    """A script that is refused."""
    return Case(name, script, Refusal(line, code), b"", word)


def padded(script: bytes, size: int) -> bytes:
    """A script with comments before its last line, so that it has so many bytes."""
    head, end = script[:-4], script[-4:]
    left = size - len(script)
    whole, rest = divmod(left, LINE_BYTES + 1)
    lines = [LINE_BYTES] * whole + [rest - 1] * (rest > 0)
    return head + b"".join(b"#" * length + b"\n" for length in lines) + end


def texts() -> Iterator[Case]:
    """The bytes of a text, its lines, and the bytes of a line."""
    small = text(BEGIN, ["dump", "end"])
    dump = ("dump 1 1 map8", "07")
    yield plays("4 MiB", padded(small, TEXT_BYTES), *dump)
    yield refused("4 MiB and one byte", padded(small, TEXT_BYTES + 1), 0, 7)
    comments = LINES - len(BEGIN) - 2
    yield plays("100,000 lines", text(BEGIN, ["#"] * comments, ["dump", "end"]), *dump)
    yield refused("100,001 lines", text(BEGIN, ["#"] * comments, ["dump", "#", "end"]), LINES + 1, 7)
    yield refused("a blank line as the last one", text(BEGIN, [""] * (comments + 3)), LINES + 1, 7)
    yield refused("100,000 comments", text(["trestle 1"], ["#"] * LINES), LINES + 1, 7)
    yield refused("100,000 lines without an end", text(BEGIN, ["#"] * (comments + 2)), LINES + 1, 8)
    yield plays("100,000 lines, and comments", text(BEGIN, ["#"] * comments, ["dump", "end", "#", "", "#"]), *dump)
    yield plays("a line of 1,024 bytes", text(BEGIN, ["#" * LINE_BYTES, "dump", "end"]), *dump)
    yield refused("a line of 1,025 bytes", text(BEGIN, ["#" * (LINE_BYTES + 1), "dump", "end"]), 6, 9)
    yield refused("and behind the end", text(BEGIN, ["dump", "end", "#" * (LINE_BYTES + 1)]), 8, 9)


def strings() -> Iterator[Case]:
    """The texts of a label, a typescript and an editor, also where a key would make them longer."""
    wide = 8 * STR_BYTES
    head = ["trestle 2", f"screen {wide} 8 map8", f"glyph 78 {FULL}"]
    leaf = f"leaf a {wide} {wide} {wide} 8 8 8"
    written, dump = "x" * STR_BYTES, [f"dump {wide} 8 map8", *["01" * wide] * 8]
    label = [*head, f"{leaf} label {written}"]
    yield plays("a label of 80 bytes", text(label, ["root a", "begin", "dump", "end"]), *dump)
    yield refused("a label of 81 bytes", text(label[:-1], [f"{label[-1]}x"]), 4, 2)
    owning = ["root a", "begin", "motion 1 0 0", "mouse 2 down 1", "sync", "@a own key 2", "@a take", "sync"]
    keyed = [*owning, "key 3 120", "sync", "@a take", "sync", "dump", "end"]
    yield plays("a label of 80 bytes by a key", text(head, [f"{leaf} label {written[:-1]}"], keyed), *dump)
    yield plays("a key on a label of 80 bytes", text(label, keyed), *dump)
    for widget, command in (("lines", "line"), ("edit", "insert")):
        body = [*head, f"{leaf} {widget}", "root a", "begin", f"@a {command} {written}"]
        yield plays(f"{command} of 80 bytes", text(body, ["sync", "dump", "end"]), *dump)
        yield refused(f"{command} of 81 bytes", text(body[:-1], [f"{body[-1]}x"]), 7, 2)
    yield plays("a byte more for a line of 80", text(body, ["@a insert x", "sync", "dump", "end"]), *dump)


def names() -> Iterator[Case]:
    """The letters of a name."""
    name, other = "a" * NAME_BYTES, "b" * NAME_BYTES
    shape = LEAF.split(" ", 2)[2]
    body = [f"leaf {name} {shape}", f"node {other} h 0", f"put {name} {other}", f"root {other}", "begin", "where 0 0", "end"]
    yield plays("names of 16 letters", text(HEAD, body), f"where 0 0 leaf {name} 0 0")
    yield refused("a leaf with a name of 17", text(HEAD, [f"leaf {name}a {shape}"]), 3, 2)
    yield refused("a node with a name of 17", text(HEAD, [f"node {name}a h 0"]), 3, 2)


def counts() -> Iterator[Case]:
    """Syncs and reports."""
    yield plays("1,000 syncs", text(BEGIN, ["sync"] * SYNCS, ["peek", "end"]), "peek bad 1 waiting 0 stale 0")
    yield refused("1,001 syncs", text(BEGIN, ["sync"] * (SYNCS + 1), ["peek", "end"]), 6 + SYNCS, 7)
    yield plays("64 reports", text(BEGIN, ["where 0 0"] * REPORTS, ["end"]), *["where 0 0 leaf a 0 0"] * REPORTS)
    yield refused("65 reports", text(BEGIN, ["where 0 0"] * (REPORTS + 1), ["end"]), 6 + REPORTS, 7)


def windows() -> Iterator[Case]:
    """Windows, leaves, children and levels."""
    nodes = [f"node n{number} h 0" for number in range(WINDOWS - 1)]
    body = ["root a", "begin", "dump", "end"]
    dump = ("dump 1 1 map8", "07")
    yield plays("256 windows", text(HEAD, nodes, [LEAF], body), *dump)
    yield refused("257 windows", text(HEAD, nodes, [LEAF, "node m h 0"], body), 3 + WINDOWS, 7)
    leaves = [f"leaf l{number} 1 1 1 1 1 1 solid {number}" for number in range(LEAVES - 1)]
    yield plays("32 leaves", text(HEAD, leaves, [LEAF], body), *dump)
    yield refused("33 leaves", text(HEAD, leaves, [LEAF, "leaf m 1 1 1 1 1 1 canvas"], body), 3 + LEAVES, 7)
    puts = [f"put n{number} n0" for number in range(1, WINDOWS - 1)]
    body = ["put a n0", "root n0", "begin", "show n0 a", "sync", "dump", "end"]
    for kind, values, end in (("h", "", "07"), ("z", "", "07"), ("t", "", "07"), ("pack", " across 0", "07"), ("page", " 16", "05")):
        script = text(HEAD, [f"node n0 {kind} 5{values}", *nodes[1:], LEAF], puts, body)
        yield plays(f"255 children of a {kind}", script, "dump 1 1 map8", end)


def levels() -> Iterator[Case]:
    """A tree of 16 levels, and of 17, by `put` and by `attach`."""
    nodes = [f"node b{number} border 0 0" for number in range(DEPTH)]
    chain = [f"put b{number} b{number + 1}" for number in range(DEPTH - 1)]
    root = [f"root b{DEPTH - 2}", "begin", "dump", "end"]
    yield plays("16 levels", text(HEAD, nodes, [LEAF, "put a b0"], chain[:-1], root), "dump 1 1 map8", "07")
    yield refused("17 levels", text(["trestle 1", HEAD[1]], nodes, [LEAF, "put a b0"], chain, root), 35, 6)
    top = [f"root b{DEPTH - 1}", "begin", f"attach b{DEPTH - 2} b{DEPTH - 1}", "detach a", f"attach b{DEPTH - 2} b{DEPTH - 1}", "sync"]
    end = ["journal 4", f"1 desk mu attach b{DEPTH - 2} b{DEPTH - 1} 0 0 = N5", "2 desk mu detach a = ok"]
    end += [f"3 desk mu attach b{DEPTH - 2} b{DEPTH - 1} 0 0 = ok", "4 player mu sync = ok"]
    script = text(HEAD, nodes, [LEAF, "put a b0"], chain[:-1], top, ["journal", "end"])
    yield plays("17 levels by attach", script, *end)


def screens() -> Iterator[Case]:
    """The size of the screen, and lengths of shapes."""
    body = [LEAF, "root a", "begin", "dump", "end"]
    row = ["07" * 1024] * 1024
    yield plays("a screen of 1024 by 1024", text(["trestle 1", "screen 1024 1024 map8"], body), "dump 1024 1024 map8", *row)
    for size in ("1025 1", "1 1025", "0 1", "1 0"):
        yield refused(f"a screen of {size}", text(["trestle 1", f"screen {size} map8"], body), 2, 2)
        yield refused(f"a resize to {size}", text(BEGIN, [f"resize {size}", "sync", "end"]), 6, 2)
    yield plays("a resize to 1024 1024", text(BEGIN, ["resize 1024 1024", "sync", "where 1023 1023", "end"]), "where 1023 1023 leaf a 1023 1023")
    far = ["node z z 0", "leaf b 0 4096 4096 0 4096 4096 solid 9", "put b z -2048 -2048", "root z", "begin"]
    yield plays("a window of 4096 by 4096", text(HEAD, far, ["dump", "where 0 0", "end"]), "09", "where 0 0 leaf b 2048 2048")
    yield refused("a shape of 4097", text(HEAD, ["leaf b 0 1 4097 0 1 1 solid 9"]), 3, 2)
    sums = ["node r h 0", *(f"leaf l{n} 0 4096 4096 0 1 1 solid {n}" for n in range(3)), *(f"put l{n} r" for n in range(3))]
    script = text(HEAD, ["node z z 0"], sums, ["put r z -2048 0", "root z", "begin", "where 0 0", "sync", "move r -2048 0", "sync", "where 0 0", "end"])
    yield plays("a row that wants 12,288", script, "where 0 0 leaf l0 2048 0")


def contents() -> Iterator[Case]:
    """What widgets and inboxes hold."""
    head = ["trestle 2", "screen 8 8 map8", f"glyph 41 {FULL}", "node z z 0"]
    body = ["put a z 0 0", "root z", "begin"]
    lines = [*head, "leaf a 0 8 8 0 1600 1600 lines", *body, "@a line A"]
    first, rest = ["dump 8 8 map8"] + ["01" * 8] * 8, ["dump 8 8 map8"] + ["00" * 8] * 8
    empty = ["@a line  "]
    yield plays("200 lines", text(lines, empty * 199, ["sync", "dump", "end"]), *first)
    glyph = [f"glyph 20 {'0' * 16}"]
    yield plays("201 lines", text(glyph_first(lines, glyph), empty * 200, ["sync", "dump", "end"]), *rest)
    figures = [f"@a rect 0 1 0 1 {number}" for number in range(1, 66)]
    canvas = ["trestle 2", "screen 1 1 map8", "leaf a 1 1 1 1 1 1 canvas", "root a", "begin"]
    yield plays("64 figures", text(canvas, figures[:64], ["sync", "dump", "end"]), "dump 1 1 map8", "40")
    yield plays("65 figures", text(canvas, figures, ["sync", "dump", "end"]), "dump 1 1 map8", "40")
    meter = ["trestle 2", "screen 256 1 map8", "leaf a 1 1 1 1 1 1 meter 32", "root a", "begin", "@a bar 31 255"]
    yield plays("32 bars", text(meter, ["sync", "dump", "end"]), "dump 256 1 map8", "00" * 248 + "01" * 8)
    yield refused("33 bars", text(HEAD, ["leaf a 1 1 1 1 1 1 meter 33"]), 3, 2)
    yield refused("the bar of number 32", text(meter, ["@a bar 32 1"]), 7, 2)
    clicks = ["motion 1 0 0", *(f"mouse {2 + n} {'up' if n % 2 else 'down'} 1" for n in range(65))]
    told = [f"mouse {2 + n} {'lastup' if n % 2 else 'firstdown'} 1 0 0" for n in range(64)]
    yield plays("64 events", text(BEGIN, clicks[:65], ["sync", "inbox a", "end"]), "inbox a waiting 64 dropped 0", *told)
    yield plays("65 events", text(BEGIN, clicks, ["sync", "inbox a", "end"]), "inbox a waiting 64 dropped 1", *told)
    late = ["motion 4294967295 0 0", "key 4294967295 1", "sync", "journal", "end"]
    yield plays("the last time", text(BEGIN, late), "2 desk mu key 4294967295 1 = ok", "3 player mu sync = ok")


def editors() -> Iterator[Case]:
    """The lines of an editor, and where its caret may go. A window of one row shows the caret's line: each `x` and the caret's
    cell behind them are all 1."""
    head = ["trestle 2", "screen 24 8 map8", f"glyph 78 {FULL}", "leaf a 24 24 24 8 8 8 edit", "root a", "begin"]
    dump = [["dump 24 8 map8", *["01" * 8 * cells + "00" * 8 * (3 - cells)] * 8] for cells in range(4)]
    end = ["sync", "dump", "end"]
    yield plays("200 lines of an editor", text(head, ["@a insert x", "@a split"] * 199, end), *dump[1])
    yield plays("201 lines of an editor", text(head, ["@a insert x", "@a split"] * 200, end), *dump[2])
    for count, shown in ((STR_BYTES - 1, dump[3]), (STR_BYTES, dump[2])):
        lines = [f"@a insert {'x' * count}", "@a split", "@a insert x", "@a goto 1 0", "@a erase", "@a goto 1 40"]
        yield plays(f"a line of {count + 1} bytes of two", text(head, lines, end), *shown)
    for command in ("goto 199 80", "copy 80 80"):
        yield plays(command, text(head, [f"@a {command}"], end), *dump[1])
    for command in ("goto 200 0", "goto 0 81", "copy 81 0", "copy 0 81"):
        yield refused(command, text(head, [f"@a {command}"], end), 7, 2)


def glyph_first(lines: List[str], glyph: List[str]) -> List[str]:
    """The lines of a script with one glyph more."""
    return lines[:2] + glyph + lines[2:]


def checks() -> Iterator[Case]:
    """What is checked."""
    tints = ["@a tint 7"] * CHECK_STEPS
    end = f"step {CHECK_STEPS} bad 1 stale 0 outside 0"
    yield plays("a check of 2,000 steps", text(BEGIN, tints, ["sync", "end"]), end, word="check")
    yield refused("a check of 2,001", text(BEGIN, tints, ["@a tint 7", "sync", "end"]), 0, 7, word="check")
    small = ["trestle 1", "screen 256 256 map8", LEAF, "root a", "begin", "sync", "peek", "end"]
    yield plays("a check of 65,536 points", text(small), "peek bad 65536 waiting 0 stale 0", word="check")
    yield refused("a check of 65,792", text([small[0], "screen 257 256 map8", *small[2:]]), 0, 7, word="check")


def threads() -> Iterator[Case]:
    """What `play` does at limits: parts, reports, and threads, one for each leaf and two more."""
    last = "played threads"
    yield plays("1,000 syncs by threads", text(BEGIN, ["sync"] * SYNCS, ["dump", "end"]), "dump 1 1 map8", "07", last, word="play")
    wheres = ["where 0 0 leaf a 0 0"] * REPORTS
    yield plays("64 reports by threads", text(BEGIN, ["where 0 0"] * REPORTS, ["end"]), *wheres, last, word="play")
    leaves = [f"leaf l{number} 1 1 1 1 1 1 solid {number}" for number in range(LEAVES)]
    row = ["node r h 9", *(f"put l{number} r" for number in range(LEAVES)), "root r", "begin"]
    tints = [f"@l{number} tint {tint}" for tint in range(100, 166) for number in range(LEAVES)]
    script = text(["trestle 1", "screen 32 1 map8"], leaves, row, tints, ["sync", "dump", "end"])
    yield plays("32 clients with 66 commands each", script, "dump 32 1 map8", "a5" * LEAVES, last, word="play")
    yield refused("33 leaves by threads", text(HEAD, leaves, [LEAF]), 3 + LEAVES, 7, word="play")


def cases() -> Iterator[Case]:
    """All of them."""
    for group in (texts, strings, names, counts, windows, levels, screens, contents, editors, checks, threads):
        yield from group()


def problem(runner: Runner, case: Case) -> Optional[str]:
    """What is wrong with what becomes of a case, if anything."""
    found = refusal_of(case.script)
    if found != case.refusal and case.word != "check":
        return f"the second reader says {found}"
    ran = runner.run([case.word], case.script, Limits(seconds=20, patience=60))
    want = case.refusal.text() if case.refusal else case.end
    if ran.errors or ran.status != (REFUSED if case.refusal else PLAYED):
        return f"status {ran.status}, {ran.output[:80]!r} and {ran.errors[:80]!r}"
    is_right = ran.output == want if case.refusal else ("\n".encode() + ran.output).endswith(b"\n" + want)
    return None if is_right else f"it writes {ran.output[-300:]!r} in place of {want[-300:]!r}"


def main(words: List[str]) -> int:
    """Tries all cases."""
    if len(words) != 1:
        print(__doc__, file=sys.stderr)
        return 2
    runner = Runner(words[0])
    tried = wrong = 0
    for case in cases():
        tried += 1
        found = problem(runner, case)
        if found:
            wrong += 1
            print(f"limits: {case.name}: {found}", flush=True)
    print(f"limits: {tried - wrong} of {tried} are as they should be")
    return 1 if wrong else 0


if __name__ == "__main__":
    sys.exit(main(sys.argv[1:]))
