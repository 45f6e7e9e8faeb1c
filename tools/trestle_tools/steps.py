"""A script step by step: what is bad, waits and is stale after each, and whose points became bad, and why."""

from itertools import groupby
from typing import Dict, Iterator, List, NamedTuple, Optional, Set, Tuple

from .bad import Prober, windows_of
from .grammar import EDITS
from .instruments import Body, Peek, is_step, lags, peeks
from .outputs import Entry
from .places import EMPTY, Layout
from .program import Trouble
from .scripts import Line, places_of
from .visible import visible
from .windows import Window

# So many steps are looked into at most: each needs copies of its own.
LOOKED_INTO = 400
# The edits by which a window is moved with its pixels.
MOVES = ("move", "offset")
SCROLLING = ("lines", "edit")


class Grown(NamedTuple):
    """How many points more of a window are bad after a step, and why."""

    window: str
    points: int
    why: str


class After(NamedTuple):
    """A step or a dump: the numbers after it, those before it, and whose points became bad."""

    line: Line
    now: Peek
    before: Peek
    grown: List[Grown]


class Steps:
    """Plays copies of a script for what happens at its steps."""

    def __init__(self, body: Body, entries: List[Entry]):
        self.body = body
        self.entries = {line.number: entry for line, entry in zip(body.steps(), entries)}
        self.items = body.steps_and_dumps()
        self.windows = windows_of(body)
        # What is bad before all steps.
        self.first = peeks(body, {0})[0]
        # What waits in each leaf that may leave points bad when it is flushed.
        self.waiting: Dict[str, Set[str]] = {}
        self.looked_into = 0
        # Why the windows aren't told, where they aren't.
        self.note = ""
        try:
            self.prober: Optional[Prober] = Prober(body, entries)
        except Trouble as trouble:
            self.prober, self.note = None, str(trouble)

    def all(self) -> Iterator[After]:
        """Each step and dump, in order."""
        before = self.first
        bad: Dict[str, int] = {}
        place_of_bad = -1
        layout = Layout(self.windows)
        for place, (line, now) in enumerate(zip(self.items, numbers_after(self.body))):
            kinds = {it.name: (layout.at(it.name), it) for it in self.windows.names.values()}
            waiting = self.step(line)
            after = Layout(self.windows) if line.texts()[0] in EDITS else layout
            grown: List[Grown] = []
            if self.is_looked_into(line, before, now):
                if place_of_bad != place:
                    bad = self.bad_by_window(place, layout)
                there = self.bad_by_window(place + 1, after)
                for name in there:
                    if there[name] > bad.get(name, 0):
                        why = self.why(line, name, kinds[name][0], after, waiting)
                        grown.append(Grown(name, there[name] - bad.get(name, 0), why))
                bad, place_of_bad = there, place + 1
            yield After(line, now, before, sorted(grown, key=lambda it: -it.points))
            before, layout = now, after

    def is_looked_into(self, line: Line, before: Peek, now: Peek) -> bool:
        """Whether points may have become bad."""
        if not self.prober or not now.bad or line.text == "dump":
            return False
        if now.bad <= before.bad and (line.texts()[0] not in EDITS or now.bad == before.bad):
            return False
        if self.looked_into == LOOKED_INTO:
            self.note = f"the windows are told of the first {LOOKED_INTO} steps after which more is bad"
            return False
        self.looked_into += 1
        return True

    def bad_by_window(self, place: int, layout: Layout) -> Dict[str, int]:
        """How many points are bad of each leaf and of each frame."""
        parts = [(it.name, part) for it in self.windows.names.values() for part in visible(layout, it)]
        assert self.prober
        counts = self.prober.counts(place, [part for _, part in parts])
        found: Dict[str, int] = {}
        for (name, _), count in zip(parts, counts):
            found[name] = found.get(name, 0) + count.bad
        return found

    def step(self, line: Line) -> Set[str]:
        """Takes over a step; what waited in its leaf before it."""
        words = line.texts()
        entry = self.entries.get(line.number)
        if not entry:
            self.waiting = {}
            return set()
        if words[0] in EDITS:
            if not entry.answer.startswith("N"):
                self.windows.edit(words)
            return set()
        name = words[0][1:] if words[0].startswith("@") else ""
        waiting = self.waiting.setdefault(name, set())
        before = set(waiting)
        if words[1] in ("flush", "force"):
            waiting.clear()
        else:
            waiting.add(words[1])
        return before

    def why(self, line: Line, name: str, there: Tuple[int, ...], after: Layout, waiting: Set[str]) -> str:
        """Why points of a window became bad at a step."""
        words = line.texts()
        window = self.windows.names[name]
        if words[0].startswith("@"):
            return why_flushed(window, waiting)
        now = after.at(name)
        if words[0] == "tint" and words[1] == name:
            return "another tint"
        if words[0] == "rescreen":
            return "another kind of pixels"
        if not window.is_leaf or there == now:
            return "uncovered"
        if there == EMPTY:
            return "shown again, or for the first time"
        if (now.east - now.west, now.south - now.north) != (there[1] - there[0], there[3] - there[2]):
            return "of another size"
        if words[0] in MOVES and self.windows.names[words[1]] in self.moved_with(window, words):
            return "moved from behind a window, or from off the screen"
        return "moved by a layout"

    def moved_with(self, window: Window, words: List[str]) -> List[Window]:
        """The windows above a leaf with which an edit may move its pixels along."""
        above = list(window.above())
        return above[1:] if words[0] == "offset" else above


def why_flushed(window: Window, waiting: Set[str]) -> str:
    """Why points are bad after what waited was painted."""
    reasons = ["marked"] * ("mark" in waiting)
    if window.kind in SCROLLING and waiting - {"mark", "cage", "free", "own", "disown", "read"}:
        reasons.append("scrolled from behind, or from bad points")
    if window.kind == "canvas" and waiting & {"swap", "exchange"}:
        reasons.append("exchanged where it was bad")
    return ", or ".join(reasons) or "not known when it was painted"


def numbers_after(body: Body) -> List[Peek]:
    """What is bad, waits and is stale after each step and dump. `check` tells no waiting commands, and a peek does."""
    items = body.steps_and_dumps()
    waiting = peeks(body, {place + 1 for place, line in enumerate(items) if is_step(line)})
    return [
        Peek(bad, waiting[place + 1].waiting if place + 1 in waiting else 0, stale)
        for place, (bad, stale) in enumerate(lags(body))
    ]


def table(lines: List[Line], steps: Steps) -> Iterator[str]:
    """The lines of a script, each step and dump with what is bad, waits and is stale after it, and by how much that changed."""
    told = {after.line.number: after for after in steps.all()}
    begin = steps.body.opening[-1]
    told[begin.number] = After(begin, steps.first, steps.first, [])
    yield "".join(f"{it:>7}{'':7}" for it in ("bad", "waiting", "stale")).rstrip()
    for line in lines:
        after = told.get(line.number)
        columns = columns_of(after) if after else " " * 42
        place = f"{line.file}:{line.place}" if line.file else str(line.number if not line.place else line.place)
        yield f"{columns}{place:>7}  {line.text}"
        for grown in after.grown if after else ():
            yield f"{'':51}{grown.points:+} of {titled(steps, grown.window)}: {grown.why}"
    yield from greatest([told[number] for number in sorted(told)])


def columns_of(after: After) -> str:
    """The numbers after a step, each with its change."""
    pairs = zip(after.now, after.before)
    return "".join(f"{now:>7}{(f'{now - before:+}' if now != before else ''):>7}" for now, before in pairs)


def titled(steps: Steps, name: str) -> str:
    """A leaf, or the frame of a node."""
    return name if steps.windows.names[name].is_leaf else f"the frame of {name}"


def greatest(told: List[After]) -> Iterator[str]:
    """The steps after which most is bad, and those by which most became bad, once all was painted for the first time."""
    painted = next((place for place, after in enumerate(told) if not after.now.bad), None)
    rest = told if painted is None else told[painted:]
    most = max(it.now.bad for it in rest)
    if not most:
        return
    since = "" if painted is None else since_when(told[painted].line)
    after = [it.line for it in rest if it.now.bad == most]
    yield f"{since}most points are bad after {' and '.join(runs(rest, most))}: {most}{text_of(after)}"
    grown = max(it.now.bad - it.before.bad for it in rest)
    by = [it.line for it in rest if it.now.bad - it.before.bad == grown]
    if grown > 0:
        yield f"{since}most points become bad by {places_of(by)}: {grown}{' each' * (len(by) > 1)}{text_of(by)}"


def since_when(line: Line) -> str:
    """From which line on the points are counted: in the beginning all are bad."""
    return "after the first dump, " if line.text == "dump" else f"once all was painted by {line.at()}, "


def runs(told: List[After], bad: int) -> Iterator[str]:
    """The lines after which so many points are bad: of lines in a row the first and the last one."""
    for is_so, group in groupby(told, lambda it: it.now.bad == bad):
        lines = [it.line for it in group]
        if is_so:
            yield lines[0].at() + f" to {lines[-1].at()}" * (len(lines) > 1)


def text_of(lines: List[Line]) -> str:
    """The text of a line, if it is the only one."""
    return f" (`{lines[0].text}`)" if len(lines) == 1 else ""
