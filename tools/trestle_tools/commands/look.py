"""look: shows the dumps of an output as pictures."""

import argparse
import sys
import time
from itertools import islice
from pathlib import Path
from typing import List, Optional, Sequence

from . import FINE, FOUND, TROUBLE, Parser, write, write_file
from ..bad import Points, Prober, place_of
from ..comparison import differing_dumps, panels, report
from ..include import pack
from ..instruments import Body, answers, body_of
from ..kinds import is_stream, kind_of, strange_byte
from ..outputs import Dump, Output, take_apart
from ..pictures import (
    FORMATS,
    MARKED,
    STALE,
    UNKNOWN,
    Picture,
    beside,
    cleared,
    digits_of,
    marked_in,
    picture_of,
    scaled,
    terminal_lines,
)
from ..places import Rect
from ..program import PLAYED, Trouble, read_bytes
from ..program import play as play_script
from ..scripts import Line, shown_byte
from ..terminal import add_color, columns, view_of
from ..visible import area

WHAT = """\
Shows the dumps of an output as pictures in the terminal, two rows of points in a line of half blocks, and
passes on all other lines. With -o it writes the pictures to files, and their names in place of the pictures. With
--play it shows them one after another in the same place. Without colours (in a pipe, if NO_COLOR is set, or by
--color never) it passes dumps on as they are.

With --bad it takes a script, and marks the bad and the stale points on the picture that the windows want to show. The
points are exact: it plays copies of the script with covers in front of parts of the screen, and `peek` counts what
they hide. If the tree has no room for covers, it says so.

It ends with 2 if the input isn't whole or is no output: a refusal, a dump that is cut off, a row that isn't hex, a
stream, a picture or other bytes."""

EXAMPLE = """\
./trestle --unproved serial < demos/desktop.txt | bin/look
./trestle --unproved serial < demos/desktop.txt | bin/look -o desktop.png --scale 8
./trestle --unproved mirror < demos/desktop.txt | ./trestle --unproved show | bin/look --play
bin/look --diff demos/desktop.serial today.serial
bin/look --bad demos/typescript.txt     # which points are bad at each `peek`"""

GREATEST_SCALE = 64

# The signs for a bad point, a stale one, and one that may be either, if there are no colours.
SIGNS = ("##", "%%", "??")
LEGEND = "magenta is bad, yellow is stale; what else is there is good"

# How long a dump is shown before the next one takes its place.
SECONDS = 0.1


def words() -> Parser:
    """The words that look takes."""
    taken = Parser("look", WHAT, EXAMPLE)
    taken.add_argument("file", nargs="?", default="-", metavar="FILE", help="an output; without it standard input")
    taken.add_argument(
        "-o", dest="into", metavar="NAME", help="write pictures: NAME.png or NAME.ppm, of several NAME-1.png and so on"
    )
    taken.add_argument(
        "--scale", type=scale, default=1, metavar="N", help=f"N by N points for each pixel, 1 to {GREATEST_SCALE}"
    )
    taken.add_argument(
        "--play", action="store_true", help="the dumps one after another in the same place, a tenth of a second each"
    )
    taken.add_argument("--together", action="store_true", help="with -o: all pictures side by side in one file")
    taken.add_argument(
        "--diff", nargs=2, metavar=("A", "B"), help="the dumps of two outputs side by side; ends with 1 if any differ"
    )
    taken.add_argument(
        "--bad",
        metavar="SCRIPT",
        help="mark the bad and the stale points at each `peek` of a script; if it has none, before each `dump`",
    )
    taken.add_argument("--at", type=int, metavar="LINE", help="with --bad: mark them after this line of the script instead")
    taken.add_argument("--whole", action="store_true", help="with --diff: cut nothing short")
    add_color(taken)
    return taken


def scale(word: str) -> int:
    """The number behind --scale."""
    if not word.isdecimal() or not 1 <= int(word) <= GREATEST_SCALE:
        raise argparse.ArgumentTypeError(f"N is 1 to {GREATEST_SCALE}, and not {word}")
    return int(word)


def main(arguments: List[str]) -> int:
    """Shows one output, or what differs between two."""
    taken = words()
    asked = taken.parse_args(arguments)
    if asked.into is not None and Path(asked.into).suffix not in FORMATS:
        taken.error(f"-o takes NAME.png or NAME.ppm, and not {asked.into}")
    if asked.together and asked.into is None:
        taken.error("--together goes with -o NAME")
    if asked.play and (asked.into or asked.diff):
        taken.error("--play goes with neither -o nor --diff")
    asked.view = view_of(asked.color, asked.whole)
    if asked.at is not None and asked.bad is None:
        taken.error("--at goes with --bad")
    if asked.bad is not None and (asked.play or asked.diff):
        taken.error("--bad goes with neither --play nor --diff")
    if asked.bad is not None:
        return show_bad(asked)
    if asked.play:
        return play(asked)
    return show_difference(asked) if asked.diff else show(asked)


def show(asked: argparse.Namespace) -> int:
    """Shows an output, its dumps as pictures."""
    output = read_output(asked.file)
    pictures = [picture_of(dump) for dump in output.dumps()]
    if asked.into and not pictures and not output.faults:
        raise Trouble("the input has no dump, so nothing is written")
    names = iter(written(asked, pictures) if asked.into else [])
    for part in output.parts:
        if isinstance(part, str):
            write(part)
            continue
        write(part.header())
        for line in islice(names, 1) if asked.into else lines_for(part, asked):
            write(line)
    if not asked.into:
        tell_width(output, asked)
    return TROUBLE if told(output, asked.file) else FINE


def lines_for(dump: Dump, asked: argparse.Namespace) -> List[str]:
    """A dump as it is shown below its first line."""
    if not asked.view.coloured:
        return [row.hex() for row in dump.rows]
    return terminal_lines(scaled(picture_of(dump), asked.scale))


def tell_width(output: Output, asked: argparse.Namespace) -> None:
    """Says that a picture is wider than the terminal, which breaks its lines."""
    room = columns()
    widest = max((dump.width * asked.scale for dump in output.dumps()), default=0)
    if asked.view.coloured and room and widest > room:
        sys.stdout.flush()
        wider = f"a picture is {widest} columns wide, and the terminal has {room}"
        remedy = "take a wider terminal, or write it to a file by -o NAME.png"
        print(f"look: {wider}, so its lines are broken: {remedy}", file=sys.stderr)


def play(asked: argparse.Namespace) -> int:
    """Shows the dumps of an output, each in the place of the one before. What is no dump is left out."""
    output = read_output(asked.file)
    shown = 0
    for dump in output.dumps():
        if shown:
            time.sleep(SECONDS)
        write((cleared(shown) if asked.view.coloured else "") + dump.header())
        lines = lines_for(dump, asked)
        for line in lines:
            write(line)
        sys.stdout.flush()
        shown = 1 + len(lines)
    tell_width(output, asked)
    return TROUBLE if told(output, asked.file) else FINE


def show_bad(asked: argparse.Namespace) -> int:
    """Shows which points are bad, and which are stale, at some places of a script."""
    packed = pack(asked.bad)
    played = play_script(packed.script)
    if played.status != PLAYED:
        raise Trouble(f"{asked.bad} does not play: {played.text().strip()}; bin/why {asked.bad} says why")
    body = body_of(packed.lines)
    prober = Prober(body, answers(body))
    pictures = []
    for line in wanted_lines(body, asked.at):
        place = place_of(body, line.number)
        dump = prober.picture(place)
        points = prober.points(place, Rect(0, dump.width, 0, dump.height))
        write(f"{line.at()}, `{line.text}`: {area(points.bad)} bad, {area(points.stale)} stale" + said_unknown(points))
        groups = points.bad, points.stale, points.unknown
        pictures.append(marked_in(dump, list(zip((MARKED, STALE, UNKNOWN), groups))))
        if not asked.into and asked.view.coloured:
            lines = terminal_lines(scaled(pictures[-1], asked.scale))
        else:
            lines = [] if asked.into else digits_of(dump, list(zip(SIGNS, groups)))
        for text in lines:
            write(text)
    if asked.into:
        for name in written(asked, pictures):
            write(name)
    write(LEGEND if asked.view.coloured or asked.into else f"{SIGNS[0]} is bad, {SIGNS[1]} is stale; what else is there is good")
    return FINE


def said_unknown(points: Points) -> str:
    """That not all could be told."""
    return f", and some more of {area(points.unknown)} points, which are in too many pieces" if points.unknown else ""


def wanted_lines(body: Body, number: Optional[int]) -> List[Line]:
    """The lines at which bad points are shown: each `peek`, else each `dump`, or one that is asked for."""
    lines = [*body.opening[-1:], *body.lines]
    if number is None:
        return [it for it in lines if it.text == "peek"] or [it for it in lines if it.text == "dump"] or lines[-1:]
    found = [it for it in lines if not it.file and (it.place or it.number) == number]
    if not found:
        raise Trouble(f"line {number} is none of the script's steps and reports, nor its `begin`")
    return found


def show_difference(asked: argparse.Namespace) -> int:
    """Shows what differs between two outputs."""
    names = asked.diff
    first, second = read_output(names[0]), read_output(names[1])
    if any([told(first, names[0]), told(second, names[1])]):
        return TROUBLE
    lines = report(first, second, asked.view)
    if not lines:
        return FINE
    write(f"A is {names[0]}, B is {names[1]}")
    for line in lines:
        write(line)
    pictures = [beside(panels(one, other)) for _, one, other in differing_dumps(first, second)]
    if asked.into and pictures:
        for name in written(asked, pictures):
            write(name)
    return FOUND


def read_output(name: str) -> Output:
    """The output in a file, which has printable bytes and line feeds alone."""
    data = read_bytes(name)
    place = strange_byte(data)
    if place is not None:
        raise Trouble(no_output(name, data, place))
    return take_apart(data.decode("latin-1"))


def no_output(name: str, data: bytes, place: int) -> str:
    """That bytes are no output, and what they seem to be."""
    file = "standard input" if name == "-" else name
    kind = kind_of(data)
    if is_stream(data):
        return f"{file} is {kind}, and no output: ./trestle show < STREAM | bin/look"
    if kind:
        return f"{file} is {kind}, and no output of trestle"
    line = data.count(b"\n", 0, place) + 1
    if data[place] == 0x0D:
        return f"{file}: line {line} has a carriage return, as on Windows: sed -i 's/\\r$//' FILE takes them away"
    return f"{file}: line {line} has the byte {shown_byte(chr(data[place]))}, which no output has"


def told(output: Output, name: str) -> bool:
    """Whether an output has faults; each is told."""
    sys.stdout.flush()
    for fault in output.faults:
        places = [name] * (name != "-") + [f"line {fault.line}"] * (fault.line > 0)
        print("look: " + ": ".join(places + [fault.what]), file=sys.stderr)
    return bool(output.faults)


def written(asked: argparse.Namespace, pictures: Sequence[Picture]) -> List[str]:
    """Writes pictures to files, and gives their names: one has the name as it is, several have numbers."""
    path = Path(asked.into)
    if asked.together and pictures:
        pictures = [beside(pictures)]
    names = [asked.into]
    if len(pictures) != 1:
        names = [str(path.with_name(f"{path.stem}-{number}{path.suffix}")) for number in range(1, len(pictures) + 1)]
    for name, picture in zip(names, pictures):
        write_file(name, FORMATS[path.suffix](picture, asked.scale))
    return names
