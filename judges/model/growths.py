#!/usr/bin/env python3
"""Plays scripts again and again, each time with another growth of the memory refused.

    judges/model/growths.py PROGRAM LIBRARY [WORD..]

PROGRAM is a linked trestle, and LIBRARY bench/nth_allocation.c, compiled for LD_PRELOAD. Each run ends with status 6 and
nothing written, or it writes all that is written where nothing is refused, with the same status. WORD is the first word
of calls that are to be tried, or what they read; all are, where there is none. Of each call it is told how many growths
there were."""

import multiprocessing
import re
import sys
from pathlib import Path
from typing import Iterator, List, NamedTuple, Tuple

TOP = Path(__file__).resolve().parents[2]
sys.path[:0] = [str(TOP / "judges"), str(TOP / "tools")]

from model.desktop import script as desktop  # noqa: E402
from model.program import NO_MEMORY, Limits, Ran, Runner  # noqa: E402

ALLOCATIONS = re.compile(rb"allocations (\d+)\n")
LIMITS = Limits(seconds=20)

# Lines that wait to be shown.
LINES = """trestle 1
screen 16 16 map8
glyph 41 ffffffffffffffff
leaf a 0 16 16 0 16 16 lines
root a
begin
@a force
@a line A
@a line B
@a line
sync
peek
dump
end
"""

# More steps of one client than `play` makes by a session: one thread makes them in order.
ALONE = "\n".join(["trestle 1", "screen 1 1 map8", "leaf a 1 1 1 1 1 1 solid 7", "root a", "begin", *["@a tint 8"] * 1001, "sync", "dump", "end", ""])


def demos() -> Iterator[str]:
    """The demos, by their names."""
    return (file.stem for file in sorted((TOP / "demos").glob("*.txt")))


# What is called: the words, and what is read, which is a demo, `LINES`, `ALONE`, `DESKTOP` of model.desktop, what `mirror`
# writes of a demo, or nothing. What `play` plays here doesn't hang on the order of its threads.
CALLS: List[Tuple[str, str]] = [
    ("serial", "LINES"),
    *(("serial", demo) for demo in demos()),
    ("check", "lag"),
    ("play", "desktop"),
    ("play", "pages"),
    ("play", "DESKTOP"),
    ("play", "ALONE"),
    ("mirror", "first"),
    ("show", "mirror first"),
    ("gen 1", ""),
]


# What isn't a demo.
GIVEN = {"": b"", "LINES": LINES.encode("ascii"), "ALONE": ALONE.encode("ascii"), "DESKTOP": desktop()}


class Call(NamedTuple):
    """A call of the program, under the library."""

    program: str
    library: str
    words: str
    given: str

    def script(self) -> bytes:
        """What is read."""
        if self.given in GIVEN:
            return GIVEN[self.given]
        demo = (TOP / "demos" / f"{self.given.split()[-1]}.txt").read_bytes()
        return Runner(self.program).run(["mirror"], demo, LIMITS).output if " " in self.given else demo

    def title(self) -> str:
        """The call as it is told."""
        return f"{self.words} {self.given}".strip()


class Tried(NamedTuple):
    """What became of a call: how many growths there were, how many ended it, and what went wrong."""

    call: Call
    growths: int
    ended: int
    problems: List[str]


class Trial:
    """The runs of a call."""

    def __init__(self, call: Call):
        self.call = call
        self.runner = Runner(call.program)
        self.script = call.script()
        self.whole = self.run(0)

    def run(self, refused: int) -> Ran:
        """A run in which this growth is refused; none where it is 0."""
        environment = {"LD_PRELOAD": self.call.library, "REFUSED": str(refused)}
        return self.runner.run(self.call.words.split(), self.script, LIMITS, environment)

    def problem(self, ran: Ran) -> str:
        """What is wrong with a run, if anything."""
        if ALLOCATIONS.sub(b"", ran.errors):
            return f"standard error has {ran.errors[:200]!r}"
        if (ran.status, ran.output) in ((NO_MEMORY, b""), (self.whole.status, self.whole.output)):
            return ""
        return f"status {ran.status} and {len(ran.output)} bytes written"

    def all(self) -> Tried:
        """All runs. How many growths there are can hang on the order of threads, so each run tells its own number."""
        problems, ended, refused = [], 0, 0
        while True:
            ran = self.run(refused + 1)
            told = ALLOCATIONS.search(ran.errors)
            if told and int(told[1]) <= refused:
                return Tried(self.call, refused, ended, problems)
            refused += 1
            ended += ran.status == NO_MEMORY
            problem = self.problem(ran)
            if problem or not told:
                problems.append(f"growth {refused}: {problem or 'the library tells no number'}")
            if len(problems) > 9:
                return Tried(self.call, refused, ended, problems)


def try_call(call: Call) -> Tried:
    """Tries one call."""
    return Trial(call).all()


def main(words: List[str]) -> int:
    """Tries all calls."""
    if len(words) < 2:
        print(__doc__, file=sys.stderr)
        return 2
    program, library, *only = words
    calls = [Call(program, library, *call) for call in CALLS if not only or {call[0].split()[0], call[1]} & set(only)]
    growths = wrong = 0
    with multiprocessing.Pool(2) as pool:
        for tried in pool.imap(try_call, calls):
            kept = tried.growths - tried.ended
            print(f"{tried.call.title()}: of {tried.growths} growths {tried.ended} end it, {kept} are done without", flush=True)
            for problem in tried.problems:
                print(f"{tried.call.title()}: {problem}", flush=True)
            growths += tried.growths
            wrong += len(tried.problems)
    print(f"growths: {growths} tried in {len(calls)} calls, {wrong} wrong")
    return 1 if wrong else 0


if __name__ == "__main__":
    sys.exit(main(sys.argv[1:]))
