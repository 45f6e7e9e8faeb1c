"""Whether what `play` writes of a script is right, as `serial` judges it.

The journal that `play` prints has the order in which the threads made their steps. The script's lines, put within each part
into that order, are a script again, and played by `serial` it has to write the same: the same dumps, places and inboxes, and
journals with the same entries, with their answers and with what they sent. By right differ what `peek` counts and the
painter's entries, which hang on when the painter comes, and so the numbers of all entries; and the levels of the clients'
steps, of which it is known which they are."""

import itertools
import re
from typing import Callable, Dict, Iterator, List, NamedTuple, Optional, Tuple

from trestle_tools.grammar import REPORTS
from trestle_tools.scripts import LINES, REPORTS as MOST_REPORTS, SYNCS

from .program import PLAYED
from .reader import lines_of

LAST = b"played threads\n"
AGAIN = re.compile(rb"(differs \S+ \d+: .* / .*\n)played again\n\Z")
ENTRY = re.compile(rb"\d+ (\S+) (\S+) (.*)")
PAINTED = re.compile(rb"mu (?:flush|repaint) (\S+) = ok|share:(\S+) repaint \2 = ok|mu frame = ok")
# The steps of a client that are no commands of its widget.
OWN_STEPS = (b"mark", b"flush", b"force", b"take", b"cage", b"free", b"own", b"disown", b"read")
# Of so many steps or fewer threads play a part also where one actor has all.
FEW_STEPS = 1000
# Those of them that have the tree's lock alone, where no other actor has steps.
PAINTING_STEPS = (b"flush", b"force")
# So many commands of a client wait at most before one is made under the tree's lock.
MOST_POSTED = 64


class Part(NamedTuple):
    """A part of a script: its reports, and its steps, each with who makes it."""

    reports: List[bytes]
    steps: List[Tuple[bytes, bytes]]


class Cut(NamedTuple):
    """A script, cut into its opening, up to `begin`, and its parts. Blank lines and comments are left out."""

    opening: List[bytes]
    parts: List[Part]


class Entry(NamedTuple):
    """A line of a journal without its number; behind the levels stand the step, the answer and what was sent."""

    actor: bytes
    levels: bytes
    rest: bytes


# What is written, in its order: a line, or all entries of a journal. A `peek` is left out.
Written = List[object]


class Ended(NamedTuple):
    """A status, and what was written."""

    status: int
    output: bytes


class Judged(NamedTuple):
    """What is wrong, if anything; whether threads played it to its end; and whether in another order than the script's."""

    problem: Optional[str]
    by_threads: bool
    is_other: bool


# ---- Scripts


def cut_of(script: bytes) -> Cut:
    """A script that plays, cut."""
    lines = [line for line in lines_of(script) if line and not line.startswith(b"#")]
    begin = lines.index(b"begin") + 1
    cut = Cut(lines[:begin], [Part([], [])])
    for line in lines[begin:]:
        word = line.split(b" ", 1)[0]
        if word == b"end":
            break
        if word == b"sync":
            cut.parts.append(Part([], []))
        elif word.decode("latin-1") in REPORTS:
            cut.parts[-1].reports.append(line)
        else:
            cut.parts[-1].steps.append((b"leaf:" + word[1:] if word.startswith(b"@") else b"desk", line))
    return cut


def text_of(cut: Cut) -> bytes:
    """The script of its parts."""
    lines = list(cut.opening)
    for number, part in enumerate(cut.parts):
        lines += [b"sync"] * (number > 0) + part.reports + [line for _, line in part.steps]
    return b"\n".join([*lines, b"end", b""])


def watched(cut: Cut) -> Optional[Cut]:
    """The same with a part more, which has a dump and a journal; nothing, where it would be too long."""
    more = Cut(cut.opening, [*cut.parts, Part([b"dump", b"journal"], [])])
    reports = sum(len(part.reports) for part in more.parts)
    if reports > MOST_REPORTS or len(more.parts) > SYNCS + 1 or text_of(more).count(b"\n") > LINES:
        return None
    return more


# ---- Outputs


def written_of(output: bytes) -> Written:
    """What was written, in its order."""
    lines = output.split(b"\n")[:-1]
    found: Written = []
    at = 0
    while at < len(lines):
        line = lines[at]
        at += 1
        if line.startswith(b"journal "):
            count = int(line.split()[1])
            found.append([entry_of(it) for it in lines[at : at + count]])
            at += count
        elif not line.startswith(b"peek "):
            found.append(line)
    return found


def entry_of(line: bytes) -> Entry:
    """A line of a journal."""
    matched = ENTRY.fullmatch(line)
    if not matched:
        raise ValueError(f"no entry: {line!r}")
    return Entry(*matched.groups())


def is_command(entry: Entry) -> bool:
    """Whether it is a command of a client for its widget."""
    return entry.actor.startswith(b"leaf:") and re.split(rb" ", entry.rest, maxsplit=1)[0] not in OWN_STEPS


def compared(written: Written) -> Written:
    """The same without the painter's entries, and without the levels of clients."""
    return [[without(entry) for entry in it if entry.actor != b"painter"] if isinstance(it, list) else it for it in written]


def without(entry: Entry) -> Entry:
    """An entry, without its levels where a client made it."""
    return entry._replace(levels=b"") if entry.actor.startswith(b"leaf:") else entry


# ---- What is right of a journal by itself


def wrong_levels(entries: List[Entry]) -> Optional[str]:
    """An entry whose levels are wrong, if one is. A command waits at its window's lock, but each 65th one that a client posts
    without another step in between is made under the tree's lock, as are all other steps of a client. In a part in which one
    actor has all steps, and many, they have the levels that `serial` gives."""
    posted: Dict[bytes, int] = {}
    alone = is_alone(entries)
    for number, entry in enumerate(entries, 1):
        if is_sync(entry):
            posted, alone = {}, is_alone(entries[number:])
        if entry.actor == b"painter":
            if not PAINTED.fullmatch(entry.levels + b" " + entry.rest):
                return f"entry {number} is none of the painter's: {entry}"
            continue
        if entry.levels != (levels_alone(entry) if alone else levels_of(entry, posted)):
            return f"entry {number} has other levels: {entry}"
    return None


def is_sync(entry: Entry) -> bool:
    """Whether it ends a part."""
    return entry.actor == b"player" and entry.rest.startswith(b"sync ")


def is_alone(entries: List[Entry]) -> bool:
    """Whether one actor has all steps up to the next sync, and many."""
    actors = [entry.actor for entry in itertools.takewhile(lambda entry: not is_sync(entry), entries)]
    makers = [actor for actor in actors if actor not in (b"player", b"painter")]
    return len(makers) > FEW_STEPS and len(set(makers)) == 1


def levels_alone(entry: Entry) -> bytes:
    """The levels of an entry that isn't the painter's, in such a part."""
    if not entry.actor.startswith(b"leaf:") or entry.rest.split(b" ", 1)[0] in PAINTING_STEPS:
        return b"mu"
    window = b"win:" + entry.actor[5:]
    return window if is_command(entry) else b"mu," + window


def levels_of(entry: Entry, posted: Dict[bytes, int]) -> bytes:
    """The levels of an entry that isn't the painter's, and how many commands each client has posted."""
    if not entry.actor.startswith(b"leaf:"):
        return b"mu"
    window = b"win:" + entry.actor[5:]
    if is_command(entry) and posted.get(entry.actor, 0) < MOST_POSTED:
        posted[entry.actor] = posted.get(entry.actor, 0) + 1
        return window
    posted[entry.actor] = 0
    return b"mu," + window


def in_order(cut: Cut, entries: List[Entry]) -> Cut:
    """The script with the lines of each part in the order in which a journal has them."""
    rest = iter(entries)
    return Cut(cut.opening, [Part(part.reports, ordered_steps(part, rest)) for part in cut.parts])


def ordered_steps(part: Part, rest: Iterator[Entry]) -> List[Tuple[bytes, bytes]]:
    """The steps of a part in the order of the entries up to the next sync."""
    queues: Dict[bytes, List[bytes]] = {}
    for actor, line in reversed(part.steps):
        queues.setdefault(actor, []).append(line)
    made = []
    for entry in rest:
        if entry.actor == b"player" and entry.rest.startswith(b"sync "):
            break
        if entry.actor not in (b"player", b"painter"):
            if not queues.get(entry.actor):
                raise ValueError(f"{entry.actor.decode('latin-1')} has made a step too many")
            made.append((entry.actor, queues[entry.actor].pop()))
    left = [actor.decode("latin-1") for actor, lines in queues.items() if lines]
    if left:
        raise ValueError(f"a step is missing of {', '.join(left)}")
    return made


# ---- The judge


def judge(run: Callable[[str, bytes], Ended], script: bytes) -> Judged:
    """Judges what `play` writes of a script that plays: with a journal at its end, if it is short enough for that."""
    whole = cut_of(script)
    cut = watched(whole)
    played = run("play", text_of(cut or whole))
    problem = wrong_ending(run, text_of(cut or whole), played)
    if problem is not None or AGAIN.search(played.output):
        return Judged(problem or "it was played again, since something differs", False, False)
    if cut is None:
        return Judged(None, True, False)
    return judge_order(run, cut, played.output[: -len(LAST)])


def wrong_ending(run: Callable[[str, bytes], Ended], script: bytes, played: Ended) -> Optional[str]:
    """What is wrong with how `play` ends."""
    if played.status != PLAYED:
        return f"play ends with status {played.status}: {played.output[:200]!r}"
    again = AGAIN.search(played.output)
    if again and run("serial", script) != Ended(PLAYED, played.output[: again.start()]):
        return "it was played again, and writes something else than serial"
    return None if again or played.output.endswith(LAST) else f"the last line is {played.output[-80:]!r}"


def judge_order(run: Callable[[str, bytes], Ended], cut: Cut, output: bytes) -> Judged:
    """Judges what was written by the order that its last journal has."""
    try:
        written = written_of(output)
        entries = written[-1]
        if not isinstance(entries, list):
            raise ValueError("the last report is no journal")
        ordered = in_order(cut, entries)
    except ValueError as error:
        return Judged(f"no order: {error}", True, False)
    is_other = ordered != cut
    serial = run("serial", text_of(ordered))
    if serial.status != PLAYED:
        return Judged(f"in its order serial ends with {serial.status}: {serial.output[:200]!r}", True, is_other)
    return Judged(wrong_levels(entries) or differing(compared(written), compared(written_of(serial.output))), True, is_other)


def differing(found: Written, wanted: Written) -> Optional[str]:
    """Where two outputs differ first, if they do."""
    for here, there in zip(found, wanted):
        if here != there and isinstance(here, list) and isinstance(there, list):
            pairs = [(a, b) for a, b in zip(here, there) if a != b]
            return f"in its order serial has another journal: {pairs[0] if pairs else (len(here), len(there))}"
        if here != there:
            return f"in its order serial writes {there!r} and not {here!r}"
    return None if len(found) == len(wanted) else "in its order serial writes more or fewer lines"
