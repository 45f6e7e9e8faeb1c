"""Whether what the program writes has the form that the script's reports give it."""

import re
from typing import Iterator, List, Optional

from trestle_tools.grammar import REPORTS
from trestle_tools.scripts import CHECK_POINTS, CHECK_STEPS

from .program import PLAYED, REFUSED
from .reader import Refusal, lines_of

PIXELS = {b"mono": rb"(?:0[01]){%d}", b"map4": rb"(?:0[0-9a-f]){%d}", b"map8": rb"(?:[0-9a-f]{2}){%d}"}
PEEK = re.compile(rb"peek bad \d+ waiting \d+ stale \d+")
SPOT = re.compile(rb"leaf [a-z][a-z0-9_]{0,15} \d+ \d+|frame [a-z][a-z0-9_]{0,15}|off")
INBOX = re.compile(rb" waiting (\d+) dropped \d+")
ENTRY = re.compile(rb"(?:leaf:[a-z][a-z0-9_]{0,15}|desk|painter|player) [a-z][a-z0-9_:,]* .* = .*")
STEP = re.compile(rb"step \d+ bad \d+ stale \d+ outside 0")
HEADER = re.compile(rb"dump (\d+) (\d+) (mono|map4|map8)")
FAULTY = re.compile(rb"refused: byte \d+ M[1-5]\n")


class Wrong(Exception):
    """What is wrong with an output."""


class Form:
    """Goes along an output beside its script."""

    def __init__(self, script: bytes, output: bytes):
        if output and not output.endswith(b"\n"):
            raise Wrong("the last line is not ended")
        self.lines = lines_of(output)
        self.at = 0
        self.wide = self.high = 0
        self.kind = b""
        self.entries = 0
        self.dumps: List[bytes] = []
        for line in lines_of(script):
            words = line.split(b" ")
            if line and not line.startswith(b"#"):
                self.follow(words[0].decode("ascii"), words)
        if self.at != len(self.lines):
            raise Wrong(f"line {self.at + 1} is one too many")

    def next(self) -> bytes:
        """The next line of the output."""
        if self.at == len(self.lines):
            raise Wrong("it ends too early")
        self.at += 1
        return self.lines[self.at - 1]

    def want(self, found: object) -> None:
        """Something that is to be so of the last line."""
        if not found:
            raise Wrong(f"line {self.at} is {self.lines[self.at - 1][:80]!r}")

    def follow(self, first: str, words: List[bytes]) -> None:
        """What a line of the script writes."""
        if first in ("screen", "resize"):
            self.wide, self.high = int(words[1]), int(words[2])
            self.kind = words[3] if first == "screen" else self.kind
        elif first == "rescreen":
            self.kind = words[1]
        elif first in REPORTS:
            getattr(self, first)(words)

    def dump(self, _words: List[bytes]) -> None:
        """The screen in its size, with pixels of its kind."""
        self.want(self.next() == b"dump %d %d %s" % (self.wide, self.high, self.kind))
        row = re.compile(PIXELS[self.kind] % self.wide)
        for _ in range(self.high):
            self.want(row.fullmatch(self.next()))
        self.dumps += self.lines[self.at - self.high - 1 : self.at]

    def peek(self, _words: List[bytes]) -> None:
        """Three numbers."""
        self.want(PEEK.fullmatch(self.next()))

    def where(self, words: List[bytes]) -> None:
        """Whose point it is."""
        begin = b" ".join(words) + b" "
        line = self.next()
        self.want(line.startswith(begin) and SPOT.fullmatch(line[len(begin) :]))

    def inbox(self, words: List[bytes]) -> None:
        """So many events as it says."""
        begin = b" ".join(words)
        line = self.next()
        found = line.startswith(begin) and INBOX.fullmatch(line[len(begin) :])
        self.want(found and int(found[1]) <= 64)
        for _ in range(int(found[1])):
            self.next()

    def journal(self, _words: List[bytes]) -> None:
        """So many entries as it says, and no fewer than the last time."""
        line = self.next()
        self.want(re.fullmatch(rb"journal \d+", line))
        count = int(line[8:])
        self.want(count >= self.entries)
        self.entries = count
        for number in range(1, count + 1):
            begin = b"%d " % number
            line = self.next()
            self.want(line.startswith(begin) and ENTRY.fullmatch(line[len(begin) :]))


def wrong_output(script: bytes, output: bytes) -> Optional[str]:
    """What is wrong with what `serial` wrote for a script, if anything."""
    try:
        Form(script, output)
    except Wrong as wrong:
        return str(wrong)
    return None


def dumps_of(script: bytes, output: bytes) -> bytes:
    """The dumps among what `serial` wrote in form."""
    return b"".join(line + b"\n" for line in Form(script, output).dumps)


def wrong_show(status: int, output: bytes) -> Optional[str]:
    """What is wrong with what `show` wrote for some bytes, if anything: dumps, or why they are no stream."""
    if status == REFUSED:
        return None if FAULTY.fullmatch(output) else f"it writes {output[:80]!r}"
    lines = lines_of(output)
    at = 0
    while at < len(lines):
        found = HEADER.fullmatch(lines[at])
        if found is None:
            return f"line {at + 1} is {lines[at][:80]!r}"
        row = re.compile(PIXELS[found[3]] % int(found[1]))
        at += 1 + int(found[2])
        if at > len(lines) or not all(row.fullmatch(line) for line in lines[at - int(found[2]) : at]):
            return f"the dump before line {at + 1} is not in form"
    return None if status == PLAYED else f"status {status}"


def steps_of(script: bytes) -> Iterator[List[bytes]]:
    """The words of each step of a client or of the desk."""
    began = False
    for line in lines_of(script):
        words = line.split(b" ")
        if line and not line.startswith(b"#"):
            if began and words[0].decode("ascii") not in (*REPORTS, "sync", "end"):
                yield words
            began = began or words[0] == b"begin"


def check_refusal(script: bytes) -> Optional[Refusal]:
    """Why a script that plays is not checked, if it isn't."""
    steps = list(steps_of(script))
    screens = [words for line in lines_of(script) for words in [line.split(b" ")] if words[0] in (b"screen", b"resize")]
    is_large = any(int(words[1]) * int(words[2]) > CHECK_POINTS for words in screens)
    return Refusal(0, 7) if is_large or len(steps) > CHECK_STEPS else None


def wrong_check(serial: bytes, output: bytes) -> Optional[str]:
    """What is wrong with what `check` wrote, if anything: without its own lines it is what `serial` wrote."""
    lines = output.split(b"\n")
    steps = [line for line in lines if line.startswith(b"step ")]
    if any(not STEP.fullmatch(line) for line in steps):
        return "a line of a step is not in form, or something is outside"
    if b"\n".join(line for line in lines if not line.startswith(b"step ")) != serial:
        return "check writes other reports than serial"
    return None
