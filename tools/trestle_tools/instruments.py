"""Copies of a script that play as it does, with reports of their own.

A report stands only directly behind `begin`, a `sync` or another report, and there are at most 64. A sync and a
report change nothing of the windows, but that a `dump` repaints them first. So a copy has the script's steps in
their order, only those of its dumps that matter, the reports that are wanted, and a sync where one is needed.
"""

from typing import Dict, Iterator, List, NamedTuple, Set, Tuple

from .grammar import REPORTS as REPORT_WORDS
from .outputs import PEEK, STEP, Entry, entries_of, take_apart
from .program import PLAYED, REFUSED, Played, Trouble, play
from .scripts import CHECK_POINTS, CHECK_STEPS, REPORTS, Line


class Body(NamedTuple):
    """A script in its opening, up to `begin`, and its steps, syncs and reports; without what means nothing."""

    opening: List[Line]
    lines: List[Line]

    def steps(self) -> List[Line]:
        """The steps alone."""
        return [line for line in self.lines if is_step(line)]

    def steps_and_dumps(self) -> List[Line]:
        """What changes the screen."""
        return [line for line in self.lines if is_step(line) or line.text == "dump"]


def is_step(line: Line) -> bool:
    """Whether a line after `begin` is a step of a leaf or of the desk."""
    return line.texts()[0] not in (*REPORT_WORDS, "sync")


def body_of(lines: List[Line]) -> Body:
    """The parts of a script that plays."""
    means = [line for line in lines if not line.is_empty()]
    begin = next(place for place, line in enumerate(means) if line.text == "begin") + 1
    return Body(means[:begin], means[begin : len(means) - 1])


class Peek(NamedTuple):
    """What a peek says."""

    bad: int
    waiting: int
    stale: int


def copy_of(body: Body, items: List[str]) -> bytes:
    """A script with the opening of another, and these steps and reports."""
    lines = [line.text for line in body.opening]
    for item in [*items, "end"]:
        before = lines[-1].split(" ")[0]
        needs_sync = item.split(" ")[0] in (*REPORT_WORDS, "end")
        if needs_sync and before not in (*REPORT_WORDS, "sync", "begin"):
            lines.append("sync")
        lines.append(item)
    return "".join(line + "\n" for line in lines).encode("latin-1")


def played(script: bytes, word: str = "serial") -> Played:
    """Plays a copy, which is to be played to its end."""
    result = play(script, word)
    if result.status == REFUSED and word == "check":
        raise Trouble(f"check takes at most {CHECK_STEPS} steps, and no screen of more than {CHECK_POINTS} points")
    if result.status != PLAYED:
        raise Trouble(f"a copy with reports of its own did not play: {result.text().strip() or result.status}")
    return result


def answers(body: Body) -> List[Entry]:
    """The entry of the journal for each step. No report changes an answer, so the copy has one, its journal."""
    steps = body.steps()
    text = played(copy_of(body, [*(step.text for step in steps), "journal"])).text()
    entries = [it for it in entries_of(text.split("\n")[1:-1]) if it.actor != "player"]
    if len(entries) != len(steps):
        raise Trouble(f"{len(steps)} steps have {len(entries)} entries in the journal")
    return entries


def peeks(body: Body, wanted: Set[int]) -> Dict[int, Peek]:
    """What a peek says at places in the list of steps and dumps: at 0 before them all, at 1 behind the first.

    After a dump all is painted, whatever was before; so of the dumps before a batch of peeks the last one is
    enough, and no copy has more reports than it may."""
    items = [line.text for line in body.steps_and_dumps()]
    found: Dict[int, Peek] = {}
    for begin, end in batches(items, wanted):
        dumps = [place for place, item in enumerate(items[:begin]) if item == "dump"][:-1]
        text = played(copy_of(body, list(with_peeks(items, set(dumps), wanted, begin, end)))).text()
        values = [PEEK.fullmatch(part) for part in take_apart(text).parts if isinstance(part, str)]
        places = [place for place in range(begin, end) if place in wanted]
        for place, value in zip(places, values):
            found[place] = Peek(*(int(it) for it in value.groups())) if value else found[place]
    return found


def with_peeks(items: List[str], left_out: Set[int], wanted: Set[int], begin: int, end: int) -> Iterator[str]:
    """Steps and dumps, with the peeks at the places from one to another; what comes behind these is left out."""
    for place in range(end):
        if begin <= place and place in wanted:
            yield "peek"
        if place < end - 1 and place not in left_out:
            yield items[place]


def batches(items: List[str], wanted: Set[int]) -> Iterator[Tuple[int, int]]:
    """Places from one to another, with so few peeks and dumps that a copy has room for them, and a dump before."""
    begin = reports = 0
    for place in range(len(items) + 1):
        needed = (place in wanted) + (place > 0 and items[place - 1] == "dump")
        if reports + needed > REPORTS - 1:
            yield begin, place
            begin, reports = place, 0
        reports += needed
    yield begin, len(items) + 1


def lags(body: Body) -> List[Tuple[int, int]]:
    """How many points are bad and how many stale after each step and each dump, as `check` says."""
    items = [line.text for line in body.steps_and_dumps()]
    parts = iter(take_apart(played(copy_of(body, items), "check").text()).parts)
    found: List[Tuple[int, int]] = []
    last = (0, 0)
    for item in items:
        for part in parts:
            step = STEP.fullmatch(part) if isinstance(part, str) else None
            last = (int(step[2]), int(step[3])) if step else last
            # The steps before a dump are the painter's.
            if item != "dump" or not step:
                break
        found.append(last)
    return found
