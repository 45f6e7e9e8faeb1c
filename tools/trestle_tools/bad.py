"""Which points of the screen are bad, and which are stale, at a place in a script: exactly, by the program's own counts.

No report names these points; `peek` counts them. So a copy of the script puts the tree into a desk, and then puts
covers in front of it: rectangles, one after another, that have no point in common. The points of a new cover are bad,
and `peek` no longer counts those behind it. So each cover tells how many points behind it were bad, and how many stale:

    bad within the cover   = bad before + points of the cover - bad after
    stale within the cover = stale before - stale after

A rectangle with some bad points and some good ones is cut in two, until each is wholly the one or the other."""

from typing import Iterator, List, NamedTuple, Tuple

from .grammar import EDITS
from .instruments import Body, Peek, copy_of, played
from .outputs import PEEK, Dump, Entry, take_apart
from .places import Rect
from .program import Trouble
from .scripts import DEPTH, REPORTS, WINDOWS, Line
from .visible import area
from .windows import Windows

# So many copies are played at most for one place; what isn't told then is said to be so.
COPIES = 200


class Count(NamedTuple):
    """How many points of a rectangle are bad, and how many stale."""

    bad: int
    stale: int

    def less(self, other: "Count") -> "Count":
        """What is left without the points of a part."""
        return Count(self.bad - other.bad, self.stale - other.stale)


class Points(NamedTuple):
    """Rectangles that are wholly bad, or wholly stale; and those that have some such points, if too many copies were needed."""

    bad: List[Rect]
    stale: List[Rect]
    unknown: List[Rect]


class Prober:
    """Counts bad and stale points of rectangles at places in the list of a script's steps and dumps: 0 is before all."""

    def __init__(self, body: Body, entries: List[Entry]):
        self.body = body
        self.items = body.steps_and_dumps()
        made = iter(entries)
        # A step that was not made changes nothing, and in the copy the root has a parent.
        self.refused = {line.number for line in body.steps() if next(made).answer.startswith("N")}
        self.windows = windows_of(body)
        if self.deepest() + 2 > DEPTH or len(self.windows.names) + 3 > WINDOWS:
            raise Trouble("the tree has so many windows, or so deep ones, that no cover can come in front of it")
        free = (f"z{number}" for number in range(1, 2 * WINDOWS))
        self.free = [name for name in free if name not in self.windows.names][: WINDOWS - len(self.windows.names)]
        self.top, self.room, *self.covers = self.free
        self.copies = 0

    def deepest(self) -> int:
        """How deep the tree gets."""
        windows = windows_of(self.body)
        assert windows.root
        deepest = windows.root.height()
        for line in self.body.steps():
            words = line.texts()
            if words[0] in EDITS and line.number not in self.refused:
                windows.edit(words)
                deepest = max(deepest, windows.root.height())
        return deepest

    def counts(self, place: int, rects: List[Rect]) -> List[Count]:
        """What is bad and stale of some rectangles of the screen that have no point in common."""
        found: List[Count] = []
        most = min(len(self.covers), REPORTS - 2)
        for begin in range(0, len(rects), most):
            found += self.counts_of_some(place, rects[begin : begin + most])
        return found

    def counts_of_some(self, place: int, rects: List[Rect]) -> List[Count]:
        """The same of so few that a copy has room for them."""
        self.copies += 1
        covers = list(zip(self.covers, rects))
        lines = [f"attach {name} {self.top} {there.west} {there.north}" for name, there in covers]
        items = [*self.before(place), "peek", *(word for line in lines for word in (line, "peek"))]
        text = played(copy_of(self.body._replace(opening=self.opening(covers)), items)).text()
        peeks = [peek_of(part) for part in take_apart(text).parts if isinstance(part, str)]
        return [
            Count(one.bad + area([there]) - next_one.bad, one.stale - next_one.stale)
            for one, next_one, there in zip(peeks, peeks[1:], rects)
        ]

    def before(self, place: int) -> Iterator[str]:
        """The steps before a place, and the last dump among them: after a dump all is painted, whatever was before."""
        items = self.items[:place]
        last = max((it.number for it in items if it.text == "dump"), default=0)
        for line in items:
            words = line.texts()
            if (line.text == "dump" and line.number != last) or line.number in self.refused:
                continue
            yield line.text
            if words[0] == "resize":
                yield f"fix {self.room} {words[1]} {words[2]}"

    def opening(self, covers: List[Tuple[str, Rect]]) -> List[Line]:
        """The opening, in which the root is in a desk, at the size of the screen, and with covers that are in nothing yet."""
        root = self.windows.root
        assert root
        wide, high = self.windows.screen
        lines = [line.text for line in self.body.opening if line.texts()[0] not in ("root", "begin")]
        lines += [f"node {self.top} z 0", f"node {self.room} rigid 0 {wide} {high}"]
        lines += [f"node {name} rigid 0 {there.east - there.west} {there.south - there.north}" for name, there in covers]
        lines += [f"put {root.name} {self.room}", f"put {self.room} {self.top}", f"root {self.top}", "begin"]
        return [Line(0, text) for text in lines]

    # ---- All points

    def points(self, place: int, screen: Rect) -> Points:
        """All bad and all stale points at a place."""
        found = Points([], [], [])
        [count] = self.counts(place, [screen])
        mixed = self.settle([(screen, count)], found)
        begin = self.copies
        while mixed:
            if self.copies - begin >= COPIES:
                found.unknown.extend(there for there, _ in mixed)
                break
            halves = [halved(there) for there, _ in mixed]
            counts = self.counts(place, [one for one, _ in halves])
            parts = [
                part
                for (one, other), count, (_, whole) in zip(halves, counts, mixed)
                for part in ((one, count), (other, whole.less(count)))
            ]
            mixed = self.settle(parts, found)
        return found

    @staticmethod
    def settle(parts: List[Tuple[Rect, Count]], found: Points) -> List[Tuple[Rect, Count]]:
        """Puts rectangles that are wholly bad, stale or neither where they belong, and gives the others."""
        mixed = []
        for there, count in parts:
            points = area([there])
            if count.bad == points:
                found.bad.append(there)
            elif count.stale == points:
                found.stale.append(there)
            elif count.bad or count.stale:
                mixed.append((there, count))
        return mixed

    # ---- The picture

    def picture(self, place: int) -> Dump:
        """What the screen is to show at a place, once all is painted."""
        items = [it.text for it in self.items[:place] if it.text != "dump"]
        return take_apart(played(copy_of(self.body, [*items, "dump"])).text()).dumps()[-1]


def windows_of(body: Body) -> Windows:
    """The windows of a script's opening."""
    windows = Windows()
    for line in body.opening:
        windows.add(line)
    return windows


def peek_of(text: str) -> Peek:
    """What a line of a peek says."""
    found = PEEK.fullmatch(text)
    if not found:
        raise Trouble(f"a copy printed `{text}` in place of a peek")
    return Peek(*(int(it) for it in found.groups()))


def halved(there: Rect) -> Tuple[Rect, Rect]:
    """A rectangle in two, across its longer side."""
    west, east, north, south = there
    if east - west >= south - north:
        middle = (west + east) // 2
        return Rect(west, middle, north, south), Rect(middle, east, north, south)
    middle = (north + south) // 2
    return Rect(west, east, north, middle), Rect(west, east, middle, south)


def place_of(body: Body, number: int) -> int:
    """The place in the list of steps and dumps behind a line, or before a report."""
    items = body.steps_and_dumps()
    place = sum(it.number <= number for it in items)
    is_dump = any(it.number == number and it.text == "dump" for it in items)
    return place - is_dump
