"""What differs between two outputs: their dumps as pictures, all other lines as text."""

import difflib
from typing import Iterator, List, NamedTuple, Sequence, Tuple

from .outputs import Dump, Output
from .pictures import Picture, beside_in_columns, different_points, lines_beside, marks, picture_of
from .terminal import View

# So many points are shown around what differs, where a picture is cut.
MARGIN = 4
# So many lines that differ are shown, and so many are compared line by line.
SHOWN = 12
COMPARED = 2000
TITLES = ("A", "B", "what differs")
SAME, OTHER = "..", "##"
WHOLE = "--whole shows all"


class Box(NamedTuple):
    """The least rectangle that holds some points, and their number."""

    west: int
    east: int
    north: int
    south: int
    count: int

    def around(self, width: int, height: int) -> Tuple[int, int, int, int]:
        """The rectangle with a margin, within a picture. It begins at an even row, as lines of half blocks do."""
        west, north = max(0, self.west - MARGIN), max(0, self.north - MARGIN)
        return west, min(width, self.east + MARGIN), north - north % 2, min(height, self.south + MARGIN)


def box_of(points: List[Tuple[int, int]]) -> Box:
    """The box of some points, of which there are any."""
    across, down = [h for h, _ in points], [v for _, v in points]
    return Box(min(across), max(across) + 1, min(down), max(down) + 1, len(points))


def differing_dumps(first: Output, second: Output) -> Iterator[Tuple[int, Dump, Dump]]:
    """The dumps that differ, by their number from 1. Dumps that one output alone has are no such pair."""
    for number, (one, other) in enumerate(zip(first.dumps(), second.dumps()), 1):
        if (one.width, one.height, one.kind, one.rows) != (other.width, other.height, other.kind, other.rows):
            yield number, one, other


def panels(one: Dump, other: Dump) -> List[Picture]:
    """Two dumps that differ, and where."""
    return [picture_of(one), picture_of(other), marks(one, other)]


def report(first: Output, second: Output, view: View = View()) -> List[str]:
    """The lines that tell a person what differs; none where nothing does."""
    lines = text_differences(first, second, view)
    for number, one, other in differing_dumps(first, second):
        lines += dump_difference(number, one, other, view)
    return lines + different_counts(first, second)


def different_counts(first: Output, second: Output) -> List[str]:
    """That one output has more dumps than the other."""
    one, other = len(first.dumps()), len(second.dumps())
    return [f"A has {plural(one, 'dump')}, B has {other}"] if one != other else []


def plural(count: int, thing: str) -> str:
    """`1 dump`, `2 dumps`."""
    return f"{count} {thing}" if count == 1 else f"{count} {thing}s"


def dump_difference(number: int, one: Dump, other: Dump, view: View) -> List[str]:
    """What differs between two dumps in a sentence, and the pictures side by side."""
    points = list(different_points(one, other))
    sentence = difference_of(number, one, other, points)
    return [sentence, *shown_panels(one, other, box_of(points), view)] if points else [sentence]


def difference_of(number: int, one: Dump, other: Dump, points: List[Tuple[int, int]]) -> str:
    """What differs between two dumps, and at which points."""
    if not points:
        return f"dump {number}: {one.kind} in A, {other.kind} in B, with the same pixels"
    box = box_of(points)
    h, v = points[0]
    line = f"dump {number}: {box.count} of {one.width * one.height} points differ"
    if one.header() != other.header():
        line = f"dump {number}: `{one.header()}` in A, `{other.header()}` in B; {plural(box.count, 'point')} differ"
    line += f", the first at ({h}, {v}), {pixel(one, h, v)} in A, {pixel(other, h, v)} in B"
    return line + f"; all in W E N S {box.west} {box.east} {box.north} {box.south}"


def pixel(dump: Dump, h: int, v: int) -> str:
    """The pixel at a point in hex digits, or that there is none."""
    return f"{dump.rows[v][h]:02x}" if h < dump.width and v < dump.height else "none"


def shown_panels(one: Dump, other: Dump, box: Box, view: View) -> List[str]:
    """The pictures of two dumps in the terminal; of large ones of one size the part around what differs."""
    pictures = panels(one, other)
    same_size = (one.width, one.height) == (other.width, other.height)
    part = all_of_it = 0, max(one.width, other.width), 0, max(one.height, other.height)
    # In hex digits a picture is large, and most of it is alike.
    fits = view.coloured and sum(it.width for it in pictures) + 4 <= view.columns
    if same_size and not fits and not view.whole:
        part = box.around(one.width, one.height)
    said = [f"(the part {' '.join(map(str, part))}; {WHOLE})"] if part != all_of_it else []
    if not view.coloured:
        return said + digits_beside(one, other, pictures[2], part)
    west, east, north, south = part
    cut = [it.part(west, min(east, it.width), north, min(south, it.height)) for it in pictures]
    return said + lines_beside(cut, TITLES)


def digits_beside(one: Dump, other: Dump, marked: Picture, part: Tuple[int, int, int, int]) -> List[str]:
    """A part of two dumps side by side in hex digits, and where they differ, without colours."""
    west, east, north, south = part
    columns: List[Sequence[str]] = [[row[west:east].hex() for row in dump.rows[north:south]] for dump in (one, other)]
    columns.append(["".join(OTHER if it else SAME for it in row) for row in marked.flags(west, east, north, south)])
    return beside_in_columns(columns, TITLES)


def text_differences(first: Output, second: Output, view: View) -> List[str]:
    """The lines outside of dumps that differ, with their numbers, `-` before those of A, `+` before those of B. Of long
    texts the first ones are compared alone, since no person reads on, unless all is asked for."""
    one, other = numbered(first), numbered(second)
    front = common_front([it.compared for it in one], [it.compared for it in other])
    one, other = one[front:], other[front:]
    if max(len(one), len(other)) > COMPARED and not view.whole:
        lines = list(changed_lines(one[:SHOWN], other[:SHOWN]))
        return lines + [f"  (the first {SHOWN} lines are compared, from the first that differs on; {WHOLE})"]
    lines = list(changed_lines(one, other))
    if len(lines) <= SHOWN or view.whole:
        return lines
    return lines[:SHOWN] + [f"  and {plural(len(lines) - SHOWN, 'line')} more; {WHOLE}"]


class Numbered(NamedTuple):
    """A line of an output with its number, or a dump, by its first line; and that by which it is compared."""

    number: int
    text: str
    compared: str


def changed_lines(one: List[Numbered], other: List[Numbered]) -> Iterator[str]:
    """The lines that two texts don't have in common."""
    matcher = difflib.SequenceMatcher(None, [it.compared for it in one], [it.compared for it in other])
    for way, west, east, north, south in matcher.get_opcodes():
        if way != "equal":
            yield from (f"- {it.number}: {it.text}" for it in one[west:east])
            yield from (f"+ {it.number}: {it.text}" for it in other[north:south])


def numbered(output: Output) -> List[Numbered]:
    """The lines of an output by their numbers, with one in place of each dump. Any two dumps are alike here."""
    lines, number = [], 1
    for part in output.parts:
        if isinstance(part, str):
            lines.append(Numbered(number, part, part))
            number += 1
        else:
            lines.append(Numbered(number, part.header(), "dump"))
            number += 1 + part.height
    return lines


def common_front(one: List[str], other: List[str]) -> int:
    """With how many equal lines two texts begin."""
    count = 0
    for here, there in zip(one, other):
        if here != there:
            break
        count += 1
    return count
