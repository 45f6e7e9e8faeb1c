"""A script step by step: each step with its answer and what it sent, the screen after it, and how far the screen lags.

The screen after a step is a dump: a copy of the script has a `sync` and a `dump` after each step that is wanted. A
dump is the picture painted from nothing, so it changes no later one. A copy has at most 64 dumps, 100,000 lines and
4 MiB, so a long script takes several copies, and of a very long one every k-th step is shown."""

import difflib
import zlib
from typing import Callable, Dict, Iterator, List, NamedTuple, Optional, Sequence, Set, Tuple

from .answers import meaning
from .grammar import REPORTS as REPORT_WORDS
from .include import Packed
from .instruments import Body, answers, body_of, copy_of, is_step, lags, peeks, played
from .outputs import Dump, Entry, take_apart
from .places import Layout, Rect
from .program import PLAYED, REFUSED, Trouble, play
from .scripts import LINES, REPORTS, TEXT_BYTES, Line
from .stream_reader import Frame
from .streams import frame_of, frames_of, stream_of
from .windows import Window, Windows

# So many pictures a page has at most, and so many points in all of them together; but always those of one copy.
MOST_PICTURES, MOST_POINTS = 1024, 1 << 28
# So many bytes of packed pictures a page has at most.
MOST_PACKED = 24 << 20
# So many places of windows are found for a trace. Where edits need more, places are found where a picture is.
MOST_PLACES = 2_000_000
# So many lines of a report are told.
MOST_PRINTED = 80
# So many other leaves are named where one has no event to take.
MOST_OTHERS = 3

Progress = Callable[[str], None]


class Moment(NamedTuple):
    """A line after which one may look: `begin`, a step or a report."""

    line: int
    # How many steps have been made.
    count: int
    answer: str = ""
    # What the answer means, where it isn't ok.
    says: str = ""
    events: Tuple[str, ...] = ()
    # What a report printed.
    printed: Tuple[str, ...] = ()


class Chunk(NamedTuple):
    """The screens after some numbers of steps: a stream with a cut for each, packed by zlib."""

    counts: Tuple[int, ...]
    packed: bytes


class Placed(NamedTuple):
    """Where a window is, how deep it is in the tree, and the line that put it there."""

    name: str
    depth: int
    rect: Rect
    line: int


class Trace:
    """What a page shows of a script or an output."""

    def __init__(self, name: str, lines: List[str], labels: Sequence[str] = ()):
        self.name = name
        self.lines = lines
        # What a person calls the lines; none where that is their numbers.
        self.labels = labels
        self.moments: List[Moment] = []
        self.chunks: List[Chunk] = []
        # How far the screen lags after a moment, by its number; waiting is None where nobody asked.
        self.numbers: Dict[int, Tuple[int, Optional[int], int]] = {}
        # From a number of steps on: all windows below the root, each followed by those in it, the front one first.
        self.places: Dict[int, List[Placed]] = {}
        self.windows: Dict[str, Window] = {}
        self.notes: List[str] = []
        # A sum over each screen, where it is asked for.
        self.sums: Dict[int, int] = {}

    def pictured(self) -> Set[int]:
        """The numbers of steps after which there is a picture."""
        return {count for chunk in self.chunks for count in chunk.counts}

    def is_thinned(self) -> bool:
        """Whether some steps have no picture."""
        pictured = self.pictured()
        return any(moment.count and moment.count not in pictured for moment in self.moments)

    def has_room(self) -> bool:
        """Whether the pictures aren't too many for a page."""
        return sum(len(chunk.packed) for chunk in self.chunks) <= MOST_PACKED

    def can_go_on(self) -> bool:
        """Whether the last step has a picture, and there is room for more of them."""
        return self.moments[-1].count in self.pictured() and self.has_room()


# ---- Which pictures are wanted


def stride(steps: int, points: int) -> int:
    """How many steps lie between two pictures, for so many steps on a screen of so many points."""
    most = max(REPORTS, min(MOST_PICTURES, MOST_POINTS // points))
    return max(1, -(-steps // most))


def greatest_screen(lines: Sequence[Line]) -> int:
    """The points of the greatest screen that a script may have."""
    sizes = [line.texts() for line in lines if line.texts()[0] in ("screen", "resize")]
    return max(int(words[1]) * int(words[2]) for words in sizes)


def wanted_counts(body: Body, every: int) -> List[int]:
    """The numbers of steps after which a picture is wanted: every so many, at each report, and at the end."""
    count, wanted = 0, {0}
    for line in body.lines:
        count += is_step(line)
        if count % every == 0 or line.texts()[0] in REPORT_WORDS:
            wanted.add(count)
    return sorted(wanted | {count})


# ---- Copies


def batches(body: Body, wanted: Sequence[int]) -> Iterator[List[int]]:
    """The numbers of steps at which each copy has a dump. Numbers that leave no room for a dump are left out."""
    sizes = sizes_of(body)
    batch: List[int] = []
    for count in wanted:
        if batch and not has_room(body, sizes[count], count, len(batch) + 1):
            yield batch
            batch = []
        if not has_room(body, sizes[count], count, 1):
            return
        batch.append(count)
    if batch:
        yield batch


def sizes_of(body: Body) -> List[int]:
    """The bytes of the opening and so many steps, by the number of steps."""
    sizes = [sum(len(line.text) + 1 for line in body.opening)]
    for step in body.steps():
        sizes.append(sizes[-1] + len(step.text) + 1)
    return sizes


def all_answers(body: Body) -> List[Entry]:
    """The journal's entry for each step. If a copy has no room for a journal, the last entries are empty."""
    steps, sizes = body.steps(), sizes_of(body)
    count = len(steps)
    while count and (len(body.opening) + count + 3 > LINES or sizes[count] + len("sync\njournal\nend\n") > TEXT_BYTES):
        count -= 1
    entries = answers(Body(body.opening, steps[:count]))
    return entries + [Entry(0, "", step.text, "", ()) for step in steps[count:]]


def has_room(body: Body, size: int, count: int, dumps: int) -> bool:
    """Whether a copy with so many steps has room for so many dumps, each behind a sync."""
    lines = len(body.opening) + count + 2 * dumps + 1
    return dumps <= REPORTS and lines <= LINES and size + 10 * dumps + 4 <= TEXT_BYTES


def pictures(body: Body, batch: Sequence[int]) -> bytes:
    """The stream of the screens after some numbers of steps."""
    items: List[str] = []
    before = 0
    steps = body.steps()
    for count in batch:
        items += [step.text for step in steps[before:count]]
        items.append("dump")
        before = count
    return played(copy_of(body, items), "mirror").output


def add_pictures(trace: Trace, body: Body, wanted: Sequence[int], asked: "Asked") -> None:
    """Adds the screens after some numbers of steps."""
    parts = list(batches(body, wanted))
    for number, batch in enumerate(parts, 1):
        asked.progress(f"pictures: copy {number} of {len(parts)}")
        stream = pictures(body, batch)
        trace.chunks.append(Chunk(tuple(batch), zlib.compress(stream, 9)))
        if asked.summed:
            add_sums(trace, batch, frames_of(stream))


def add_sums(trace: Trace, counts: Sequence[int], frames: Iterator[Frame]) -> None:
    """Adds a sum over each screen."""
    for count, frame in zip(counts, frames):
        head = f"{frame.width} {frame.height} {frame.kind} ".encode()
        trace.sums[count] = zlib.crc32(frame.pixels, zlib.crc32(head))


# ---- The moments


class Teller:
    """Makes the moments of a script, line after line."""

    def __init__(self, opening: Sequence[Line]):
        self.windows = Windows()
        for line in opening:
            self.windows.add(line)
        self.count = 0
        # How many events wait for each leaf.
        self.waiting = {name: 0 for name, it in self.windows.names.items() if it.is_leaf}

    def begin(self) -> Moment:
        """The moment of `begin`."""
        return Moment(self.windows.begin_line, 0)

    def report(self, line: Line, printed: Tuple[str, ...]) -> Moment:
        """The moment of a report."""
        return Moment(line.number, self.count, printed=printed)

    def step(self, line: Line, entry: Entry) -> Moment:
        """The moment of a step."""
        words = line.texts()
        self.count += 1
        says = meaning(entry, words, self.windows) or ""
        if entry.answer == "empty" and any(self.waiting.values()):
            says = f"empty: no event waits for {words[0][1:]}, but {', '.join(others(self.waiting))}"
        if is_edit(entry, words):
            self.windows.edit(words)
        count_events(self.waiting, entry, words)
        return Moment(line.number, self.count, entry.answer, says, entry.events)


def moments_of(body: Body, entries: Sequence[Entry], output: str) -> Iterator[Moment]:
    """`begin`, and each step and report."""
    teller, printed = Teller(body.opening), reports_of(output)
    yield teller.begin()
    for line in body.lines:
        if line.texts()[0] in REPORT_WORDS:
            yield teller.report(line, next(printed, ()))
        elif is_step(line):
            yield teller.step(line, entries[teller.count])


def count_events(waiting: Dict[str, int], entry: Entry, words: List[str]) -> None:
    """Counts the events that wait for each leaf after a step."""
    if entry.answer.startswith("took "):
        waiting[words[0][1:]] -= 1
    for event in entry.events:
        leaf, kind = event.split(" ")[:2]
        waiting[leaf] += kind != "dropped"


def others(waiting: Dict[str, int]) -> Iterator[str]:
    """The first leaves for which events wait."""
    found = [(name, count) for name, count in waiting.items() if count]
    yield from (f"{count} {'waits' if count == 1 else 'wait'} for {name}" for name, count in found[:MOST_OTHERS])
    if len(found) > MOST_OTHERS:
        yield "others for more leaves"


def is_edit(entry: Entry, words: List[str]) -> bool:
    """Whether a step is an edit of the tree that was made."""
    return entry.actor == "desk" and entry.answer == "ok" and words[0] not in ("mouse", "motion", "key")


def reports_of(output: str) -> Iterator[Tuple[str, ...]]:
    """What each report printed; a dump by its first line alone, since it is a picture."""
    parts = take_apart(output).parts
    at = 0
    while at < len(parts):
        part = parts[at]
        length = 1 if isinstance(part, Dump) else 1 + lines_below(part)
        report = parts[at : at + length]
        lines = tuple(it.header() if isinstance(it, Dump) else it for it in report)
        more = (f".. and {len(lines) - MOST_PRINTED} lines more",) if len(lines) > MOST_PRINTED else ()
        yield lines[:MOST_PRINTED] + more
        at += length


def lines_below(line: str) -> int:
    """How many lines of a report follow its first one."""
    words = line.split(" ")
    if words[0] == "inbox":
        return int(words[3])
    return int(words[1]) if words[0] == "journal" else 0


# ---- Where windows are


class Places:
    """Where the windows are, and the line that put each of them there."""

    def __init__(self, windows: Windows, there: Sequence[Placed] = ()):
        self.windows = windows
        self.rects = {it.name: it.rect for it in there}
        self.lines = {it.name: it.line for it in there}

    def find(self, line: int) -> None:
        """Finds the places anew behind the edit of a line."""
        layout = Layout(self.windows)
        self.lines.update({name: line for name in layout.rects if layout.at(name) != self.rects.get(name)})
        self.rects = layout.rects

    def placed(self) -> List[Placed]:
        """The windows below the root."""
        return [*placed(self.windows, self.rects, self.lines)]


def add_places(trace: Trace, body: Body, entries: Sequence[Entry]) -> None:
    """Adds the places of the windows at each picture, if they changed."""
    windows = Windows()
    for line in body.opening:
        windows.add(line)
    trace.windows = windows.names
    steps, pictured = body.steps(), trace.pictured()
    edits = [is_edit(entry, step.texts()) for entry, step in zip(entries, steps)]
    each = sum(edits) * len(windows.names) <= MOST_PLACES
    places = Places(windows)
    places.find(0)
    places.lines = first_lines(body)
    is_stale, by = False, 0
    for count in range(len(steps) + 1):
        if count and edits[count - 1]:
            windows.edit(steps[count - 1].texts())
            is_stale, by = True, steps[count - 1].number
        if is_stale and (each or count in pictured):
            places.find(by)
            is_stale = False
        if count in pictured:
            add_place(trace, count, places.placed())
    if not each:
        trace.notes.append("the script has very many edits: a window may have its place by any line since the last picture")


def add_place(trace: Trace, count: int, now: List[Placed]) -> None:
    """Adds the places of the windows, if they changed."""
    last = trace.places[max(trace.places)] if trace.places else None
    if now != last:
        trace.places[count] = now


def first_lines(body: Body) -> Dict[str, int]:
    """The line that put each window into the tree."""
    lines = {}
    for line in body.opening:
        words = line.texts()
        if words[0] in ("put", "root"):
            lines[words[1]] = line.number
    return lines


def placed(windows: Windows, rects: Dict[str, Rect], lines: Dict[str, int]) -> Iterator[Placed]:
    """The windows below the root."""
    def below(window: Window, depth: int) -> Iterator[Placed]:
        yield Placed(window.name, depth, rects[window.name], lines.get(window.name, window.line))
        for child in window.children:
            yield from below(child, depth + 1)

    return below(windows.root, 0) if windows.root else iter(())


# ---- How far the screen lags


def add_numbers(trace: Trace, body: Body, progress: Progress) -> None:
    """Adds the bad points, waiting commands and stale points after each unknown moment: by `check` if it accepts the
    script, and at each picture by `peek`."""
    places = [0]
    for line in body.lines:
        if line.text != "sync":
            places.append(places[-1] + (is_step(line) or line.text == "dump"))
    pictured, sizes = trace.pictured(), sizes_of(body)
    asked = {n for n, it in enumerate(trace.moments) if n not in trace.numbers and it.count in pictured}
    # A copy may have 64 dumps of the script beside the reports that are asked for.
    asked = {n for n in asked for count in [trace.moments[n].count] if has_room(body, sizes[count], count + 2 * REPORTS, REPORTS)}
    try:
        if len(asked) + len(trace.numbers) < len(trace.moments):
            progress("numbers: check")
            after = [(0, 0), *lags(body)]
            unknown = [n for n in range(1, len(places)) if n not in trace.numbers]
            trace.numbers.update({n: (after[places[n]][0], None, after[places[n]][1]) for n in unknown})
    except Trouble:
        trace.notes.append("numbers only at pictures: `check` refuses a script of this size")
    progress("numbers: peek")
    last = max((trace.moments[n].line for n in asked), default=0)
    try:
        found = peeks(Body(body.opening, [line for line in body.lines if line.number <= last]), {places[n] for n in asked})
    except Trouble as trouble:
        trace.notes.append(f"the number of waiting commands is unknown: {trouble}")
        return
    trace.numbers.update({n: tuple(found[places[n]]) for n in asked})


# ---- The whole


def quiet(_what: str) -> None:
    """Shows no progress."""


class Asked(NamedTuple):
    """How a script is traced: how many steps lie between two pictures (0: as few as a page has room for), whether to sum up
    the screens, whom to tell the progress, and the trace that the page shows beside it."""

    every: int = 0
    summed: bool = False
    progress: Progress = quiet
    beside: Optional[Trace] = None


def named(script: Packed) -> Trace:
    """A trace that has the lines of a script, and no moment yet."""
    labels = [line.at()[len("line ") :] for line in script.lines] if script.includes() else []
    return Trace(script.name, [line.text for line in script.lines], labels)


def going_on(known: Trace, script: Packed) -> Trace:
    """A trace that has the lines of a script, and the moments of another trace so far, which is of the script's front."""
    trace = named(script)
    trace.moments, trace.chunks, trace.notes = list(known.moments), list(known.chunks), known.notes
    trace.numbers, trace.places, trace.windows = dict(known.numbers), dict(known.places), known.windows
    return trace


def trace_of_script(script: Packed, asked: Asked, known: Optional[Trace] = None) -> Trace:
    """Traces a script that plays. What another trace knows of the same beginning is taken over."""
    asked.progress("the script")
    result = play(script.script)
    if result.status == REFUSED:
        raise Trouble(f"{script.name} is {result.text().strip()}; bin/why {script.name} says why")
    if result.status != PLAYED:
        raise Trouble(f"the program ended with status {result.status}: {result.text().strip() or 'nothing written'}")
    body = body_of(script.lines)
    trace = named(script)
    asked.progress("answers")
    entries = all_answers(body)
    if entries and not entries[-1].answer:
        trace.notes.append("no answers of the last steps: a copy with a journal would have too many lines or bytes")
    trace.moments = list(moments_of(body, entries, result.text()))
    take_known(trace, known)
    every = asked.every or stride(len(entries), greatest_screen(body.opening + body.lines))
    add_all_pictures(trace, body, every, asked)
    asked.progress("places")
    add_places(trace, body, entries)
    add_numbers(trace, body, asked.progress)
    return trace


def add_all_pictures(trace: Trace, body: Body, every: int, asked: Asked) -> None:
    """Adds the pictures of every so many steps; of fewer, where the page would get too large."""
    while True:
        wanted = wanted_counts(body, every)
        if asked.beside and asked.beside.is_thinned():
            wanted = sorted({*counts_beside(asked.beside, trace), wanted[-1]})
        add_pictures(trace, body, [count for count in wanted if count not in trace.pictured()], asked)
        if trace.has_room() or asked.every or asked.beside or every > len(body.steps()):
            break
        trace.chunks, every = [], 2 * every
    steps = len(body.steps())
    if trace.is_thinned() and asked.beside:
        trace.notes.append(f"{len(trace.pictured())} pictures of {steps} steps: those beside the other script's")
    elif every > 1:
        trace.notes.append(f"pictures after every {every} steps, and at each report")
    if steps not in trace.pictured():
        trace.notes.append(f"no picture after line {last_pictured(trace)}: the copy would have over {LINES} lines or 4 MiB")


def last_pictured(trace: Trace) -> int:
    """The last line after which there is a picture."""
    pictured = trace.pictured()
    return max(moment.line for moment in trace.moments if moment.count in pictured)


def shared(one: Trace, other: Trace) -> int:
    """How many equal moments two traces share at their start; 0 if their openings differ."""
    if not one.moments or not other.moments:
        return 0
    begin, begun = one.moments[0].line, other.moments[0].line
    if one.lines[:begin] != other.lines[:begun]:
        return 0
    count = 0
    for here, there in zip(one.moments, other.moments):
        if one.lines[here.line - 1] != other.lines[there.line - 1]:
            break
        count += 1
    return count


def take_known(trace: Trace, known: Optional[Trace]) -> None:
    """Takes over the pictures and numbers of the moments that another trace shares."""
    same = shared(trace, known) if known else 0
    if not known or not same:
        return
    last = trace.moments[same - 1].count
    for chunk in known.chunks:
        counts = tuple(count for count in chunk.counts if count <= last)
        if counts:
            trace.chunks.append(Chunk(counts, chunk.packed))
    trace.numbers = {n: it for n, it in known.numbers.items() if n < same}


# ---- Outputs


def trace_of_output(name: str, text: str) -> Trace:
    """Traces an output: its dumps are the pictures, and each of its parts is a moment."""
    output = take_apart(text)
    if output.faults:
        fault = output.faults[0]
        raise Trouble(f"{name}, line {fault.line}: {fault.what}")
    trace = Trace(name, [part.header() if isinstance(part, Dump) else part for part in output.parts])
    frames = [frame_of(part) for part in output.dumps()]
    count = 0
    for number, part in enumerate(output.parts, 1):
        count += isinstance(part, Dump)
        trace.moments.append(Moment(number, count))
    for at in range(0, len(frames), REPORTS):
        group = frames[at : at + REPORTS]
        counts = tuple(range(at + 1, at + len(group) + 1))
        trace.chunks.append(Chunk(counts, zlib.compress(stream_of(group), 9)))
        add_sums(trace, counts, iter(group))
    return trace


def is_script(data: bytes) -> bool:
    """Whether a file holds a script: its first line that means something says a version."""
    for line in data.split(b"\n"):
        if line and not line.startswith(b"#"):
            return line.startswith(b"trestle ")
    return False


# ---- Two side by side

# So many lines are compared one by one; of more the one is set beside the other by its number.
COMPARED = 4000


class Pair(NamedTuple):
    """A moment of each of two traces, or none (-1), and what differs that didn't so before: line, answer, report, picture."""

    first: int
    second: int
    differs: Tuple[str, ...]


def pairs_of(first: Trace, second: Trace) -> List[Pair]:
    """The moments of two traces side by side, with what differs."""
    pairs = []
    now: Tuple[int, int] = (-1, -1)
    before: Tuple[Optional[int], ...] = ()
    is_thinned = first.is_thinned() or second.is_thinned()
    for one, other in aligned(texts_of(first), texts_of(second)):
        now = (one if one >= 0 else now[0], other if other >= 0 else now[1])
        differs = list(differences(first, second, (one, other)))
        sums = (sum_at(first, now[0]), sum_at(second, now[1]))
        if None not in sums:
            if sums[0] != sums[1] and sums != before:
                differs.append("picture")
            before = sums
        # Long scripts: a pair without a picture that doesn't differ is no stop.
        if differs or not is_thinned or None not in sums:
            pairs.append(Pair(one, other, tuple(differs)))
    return pairs


def sum_at(trace: Trace, n: int) -> Optional[int]:
    """The sum over the screen after a moment, if it has a picture."""
    return trace.sums.get(trace.moments[n].count) if n >= 0 else None


def counts_beside(first: Trace, second: Trace) -> Set[int]:
    """The numbers of steps of a trace beside which another one has a picture."""
    pictured = first.pictured()
    pairs = aligned(texts_of(first), texts_of(second))
    return {second.moments[it].count for one, it in pairs if it >= 0 and one >= 0 and first.moments[one].count in pictured}


def texts_of(trace: Trace) -> List[str]:
    """The lines of the moments."""
    return [trace.lines[moment.line - 1] for moment in trace.moments]


def aligned(one: List[str], other: List[str]) -> Iterator[Tuple[int, int]]:
    """Places of two lists side by side: equal ones together, and else -1 where there is none."""
    front = equal_front(one, other)
    yield from ((n, n) for n in range(front))
    rest, there = one[front:], other[front:]
    end = equal_front(rest[::-1], there[::-1])
    rest, there = rest[: len(rest) - end], there[: len(there) - end]
    for begin, stop, begun, stopped in blocks(rest, there):
        for n in range(max(stop - begin, stopped - begun)):
            left, right = begin + n, begun + n
            yield (front + left if left < stop else -1), (front + right if right < stopped else -1)
    yield from ((len(one) - end + n, len(other) - end + n) for n in range(end))


def equal_front(one: List[str], other: List[str]) -> int:
    """How many equal texts two lists share at their start."""
    return next((n for n, (here, there) in enumerate(zip(one, other)) if here != there), min(len(one), len(other)))


def blocks(one: List[str], other: List[str]) -> Iterator[Tuple[int, int, int, int]]:
    """Ranges of two lists that belong together."""
    if max(len(one), len(other)) > COMPARED:
        yield 0, len(one), 0, len(other)
        return
    for _, begin, stop, begun, stopped in difflib.SequenceMatcher(None, one, other, False).get_opcodes():
        yield begin, stop, begun, stopped


def differences(first: Trace, second: Trace, pair: Tuple[int, int]) -> Iterator[str]:
    """What differs between a moment of each of two traces, but their pictures."""
    if -1 in pair:
        yield "line"
        return
    one, other = first.moments[pair[0]], second.moments[pair[1]]
    if first.lines[one.line - 1] != second.lines[other.line - 1]:
        yield "line"
    if (one.answer, one.events) != (other.answer, other.events):
        yield "answer"
    if one.printed != other.printed:
        yield "report"
