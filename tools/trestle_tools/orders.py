"""Steps of one part, from a sync to the next, whose order may show where threads play the script.

By `play` each actor makes its own steps in order, and the steps of others come before, between or after them. For each
pair of steps that may depend on one another a copy of the script has them the other way round, and `serial` plays it. If
a dump, an inbox or a place differs then, the order shows. Journals and the counts of `peek` may always differ by `play`,
so they aren't compared."""

from typing import Iterator, List, NamedTuple, Tuple

from .grammar import DEVICES
from .instruments import Body, is_step
from .looks import Finding
from .outputs import Dump, Entry, take_apart
from .program import PLAYED, play
from .scripts import Line

OWNERS = ("own", "disown")
# So many orders are played at most, and so many steps on either side of a step are tried.
TRIED, NEAR = 120, 12


class Step(NamedTuple):
    """A step of a part: its line, who makes it, its word, the selection that it is about, and who was sent an event by it."""

    line: Line
    actor: str
    word: str
    selection: str
    sent: Tuple[str, ...]


class Pair(NamedTuple):
    """The places of two steps in a part."""

    earlier: int
    later: int


def step_of(line: Line, entry: Entry) -> Step:
    """A step, with what its entry says of it."""
    words = line.texts()
    actor = words[0] if words[0].startswith("@") else ""
    word = words[1] if actor else words[0]
    sent = tuple(event.split(" ")[0] for event in entry.events)
    return Step(line, actor, word, words[2] if word in OWNERS else "", sent)


def orders(body: Body, entries: List[Entry]) -> Tuple[List[Finding], List[str]]:
    """The steps whose order may show; and that not all were tried, where they are very many."""
    found: List[Finding] = []
    tried = 0
    printed: List[object] = []
    for begin, part in parts(body, entries):
        hanging: List[Pair] = []
        for pair in pairs(part):
            if any(pair.earlier <= it.earlier and it.later <= pair.later for it in hanging):
                # A sync between those two is between these two as well.
                continue
            if tried == TRIED:
                says = f"tried {TRIED} pairs of steps for an order that shows by `play`"
                return found, [f"{says}, and stopped in the part that begins at {part[0].line.at()}"]
            printed = printed or compared(script_of(body, body.lines))
            tried += 1
            if compared(script_of(body, reordered(body.lines, begin, part, pair))) != printed:
                found.append(Finding(part[pair.later].line, said(part, pair)))
                hanging.append(pair)
    return found, []


def parts(body: Body, entries: List[Entry]) -> Iterator[Tuple[int, List[Step]]]:
    """The parts with steps of several actors, each with the place of its first step, as long as something is printed behind."""
    made = iter(entries)
    begin, part = 0, []
    last = max((place for place, line in enumerate(body.lines) if line.texts()[0] in ("dump", "inbox", "where")), default=-1)
    for place, line in enumerate(body.lines):
        if is_step(line):
            begin = begin if part else place
            part.append(step_of(line, next(made)))
        elif line.text == "sync":
            if len({step.actor for step in part}) > 1 and place < last:
                yield begin, part
            part = []


def pairs(part: List[Step]) -> Iterator[Pair]:
    """The pairs of a part that may hang on one another, those that are near to one another first."""
    found = [
        Pair(*sorted((one, other)))
        for one, step in enumerate(part)
        for other in range(max(0, one - NEAR), min(len(part), one + NEAR + 1))
        if step.actor != part[other].actor and may_hang(step, part[other])
    ]
    return iter(sorted(set(found), key=lambda it: (it.later - it.earlier, it.later)))


def may_hang(step: Step, other: Step) -> bool:
    """Whether a client's step may have another result if the other step comes on its other side."""
    if step.word == "take":
        return step.actor[1:] in other.sent
    if step.word in ("cage", "free"):
        return not other.actor and other.word not in ("mouse", "key")
    if step.word in OWNERS:
        return other.word in DEVICES or (other.word in OWNERS and other.selection == step.selection)
    return False


def reordered(lines: List[Line], begin: int, part: List[Step], pair: Pair) -> List[Line]:
    """The lines of a script in which the later step of a pair, with those of its actor between them, comes first."""
    between = part[pair.earlier : pair.later + 1]
    first = [step for step in between if step.actor == part[pair.later].actor]
    rest = [step for step in between if step.actor != part[pair.later].actor]
    place = begin + pair.earlier
    return lines[:place] + [step.line for step in [*first, *rest]] + lines[place + len(between) :]


def script_of(body: Body, lines: List[Line]) -> bytes:
    """A script with the opening of another, and these lines."""
    return "".join(line.text + "\n" for line in [*body.opening, *lines]).encode("latin-1") + b"end\n"


def compared(script: bytes) -> List[object]:
    """What a script prints but journals and what `peek` counts. A script that doesn't play prints nothing."""
    played = play(script)
    return list(without_journals(take_apart(played.text()).parts)) if played.status == PLAYED else []


def without_journals(parts: List[object]) -> Iterator[object]:
    """The dumps, inboxes and places of an output."""
    left = 0
    for part in parts:
        if isinstance(part, Dump):
            yield part.header(), part.rows
        elif left:
            left -= 1
        elif str(part).startswith("journal "):
            left = int(str(part).split(" ")[1])
        elif not str(part).startswith("peek "):
            yield part


def said(part: List[Step], pair: Pair) -> str:
    """That two steps may come the other way round."""
    earlier, later = part[pair.earlier], part[pair.later]
    says = f"by `play` this `{later.word}` may come before the `{earlier.word}` of {earlier.line.at()}"
    return says + ", and then something else is printed: put a `sync` between them"
