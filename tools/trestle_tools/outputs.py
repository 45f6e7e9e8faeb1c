"""Takes an output of the program apart: its dumps, the lines between them, and what is wrong with either."""

import re
from typing import Iterator, List, NamedTuple, Optional, Tuple, Union

HEADER = re.compile(r"dump ([1-9][0-9]*) ([1-9][0-9]*) (mono|map4|map8)")
HEX = re.compile(r"(?:[0-9a-f]{2})+")
REFUSAL = re.compile(r"refused: line ([0-9]+) (B[0-9]+)")
PEEK = re.compile(r"peek bad ([0-9]+) waiting ([0-9]+) stale ([0-9]+)")
STEP = re.compile(r"step ([0-9]+) bad ([0-9]+) stale ([0-9]+) outside ([0-9]+)")
ENTRY = re.compile(r"([0-9]+) (leaf:[a-z0-9_]+|desk|painter|player) ([a-z0-9_:,]+) (.*)")

# The greatest pixel of each kind.
GREATEST = {"mono": 1, "map4": 15, "map8": 255}


class Dump(NamedTuple):
    """A dump: where its first line stands in the output, counted from 1, and its pixels, a byte for each."""

    line: int
    width: int
    height: int
    kind: str
    rows: Tuple[bytes, ...]

    def header(self) -> str:
        """Its first line."""
        return f"dump {self.width} {self.height} {self.kind}"


class Fault(NamedTuple):
    """What is wrong with an output, and in which of its lines, counted from 1; 0 stands for the whole."""

    line: int
    what: str


# A part of an output: a dump, or a line that belongs to none.
Part = Union[Dump, str]


class Output(NamedTuple):
    """An output in its parts, in order."""

    parts: List[Part]
    faults: List[Fault]

    def dumps(self) -> List[Dump]:
        """Its dumps alone."""
        return [part for part in self.parts if isinstance(part, Dump)]


def take_apart(text: str) -> Output:
    """The parts of an output, and its faults: a text in place of an output, and dumps that aren't whole."""
    lines = text.split("\n")
    if lines[-1] == "":
        lines.pop()
    output = Output([], list(wrong_texts(lines)))
    at = 0
    while at < len(lines):
        part, length, fault = part_at(lines, at)
        output.parts.append(part)
        output.faults.extend([fault] if fault else [])
        at += length
    return output


def wrong_texts(lines: List[str]) -> Iterator[Fault]:
    """The fault of a text that isn't what a script prints, or what is shown of a stream."""
    first = lines[0] if lines else ""
    if not lines:
        yield Fault(0, "the input is empty: the script has no report, or the program could not write")
    elif first.startswith("refused: byte "):
        yield Fault(1, f"the stream was {first}; docs/SCRIPT.md says what the codes mean")
    elif first.startswith("refused: "):
        yield Fault(1, f"the script was {first}; bin/why FILE says why")
    elif first.startswith("usage: "):
        yield Fault(1, "the program was called with other words than its own; it takes serial, play, check or show")
    elif first == "read fault":
        yield Fault(1, "the program could not read its script")
    elif re.match(r"trestle [0-9]", first):
        yield Fault(1, "this is a script and no output: ./trestle serial < FILE | bin/look")


def part_at(lines: List[str], at: int) -> Tuple[Part, int, Optional[Fault]]:
    """The part that begins at a line, how many lines it has, and its fault. What is no dump is passed on."""
    line = lines[at]
    header = HEADER.fullmatch(line)
    if not header:
        wrong = line.startswith("dump ")
        return line, 1, Fault(at + 1, f"no dump begins with `{line}`") if wrong else None
    width, height, kind = int(header[1]), int(header[2]), header[3]
    rows: List[bytes] = []
    for number, row in enumerate(lines[at + 1 : at + 1 + height], at + 2):
        what = row_fault(row, width, kind)
        if what:
            return line, 1, Fault(number, f"{what}, in the dump of line {at + 1}")
        rows.append(bytes.fromhex(row))
    if len(rows) < height:
        return line, 1, Fault(at + 1, f"the dump is cut off: {len(rows)} of its {height} rows are there")
    return Dump(at + 1, width, height, kind, tuple(rows)), height + 1, None


def row_fault(row: str, width: int, kind: str) -> Optional[str]:
    """Why a line is no row of a dump."""
    if not HEX.fullmatch(row):
        return f"no row of hex digits: `{row[:40]}`"
    if len(row) != 2 * width:
        return f"a row of {len(row) // 2} pixels in place of {width}"
    greatest = max(bytes.fromhex(row))
    if greatest > GREATEST[kind]:
        return f"a pixel {greatest:02x}, and {kind} has 00 to {GREATEST[kind]:02x}"
    return None


class Entry(NamedTuple):
    """A line of a journal: the words of its step, its answer, and the events that it sent."""

    number: int
    actor: str
    step: str
    answer: str
    events: Tuple[str, ...]


def entries_of(lines: List[str]) -> Iterator[Entry]:
    """The entries of a journal's lines. A text may hold the marks of answers and events, so these are looked
    for where no text can stand: an event has none, and a text comes last in a step and in an answer."""
    for line in lines:
        matched = ENTRY.fullmatch(line)
        if not matched:
            raise ValueError(line)
        step, answer, events = split_entry(matched[4])
        yield Entry(int(matched[1]), matched[2], step, answer, events)


ANSWER = r"(?:ok|empty|took [a-z0-9 -]+|value(?: [\x20-\x7e]*)?|N[0-9]+(?: [0-9]+)*)"
EVENT = r"(?:; [a-z0-9_]+ (?:dropped )?(?:mouse|position|key|lost|reshape) [a-z0-9 -]+)"
READ = re.compile(rf"(read [a-z]+) = ({ANSWER})")
ANSWERED = re.compile(rf"(.*) = ({ANSWER}?)({EVENT}*)")


def split_entry(text: str) -> Tuple[str, str, Tuple[str, ...]]:
    """Step, answer and events of an entry. A `read` sends no event, and its value may be any text."""
    read = READ.fullmatch(text)
    if read:
        return read[1], read[2], ()
    matched = ANSWERED.fullmatch(text)
    if not matched:
        raise ValueError(text)
    return matched[1], matched[2], tuple(it for it in matched[3].split("; ") if it)
