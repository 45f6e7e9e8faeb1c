#!/usr/bin/env python3
"""Plays scripts that are drawn at random, cut, joined and bent, and compares what comes with what a second reader says.

    judges/model/fuzz.py PROGRAM [COUNT] [SEED] [--workers N] [--seconds N] [--megabytes N] [--checked N]
                           [--mirrored N] [--threaded N] [--modelled N] [--from N] [--show]

PROGRAM is a linked trestle. Of each script are compared: the status, 0 or 3; the text of a refusal, exactly; the form of
what is printed, by the script's reports; and standard error, which is empty. Of one among so many scripts, a number that
may be set and is 0 for none, also: what `check` writes, which without its own lines is the same (4); that `show` of what
`mirror` writes is its dumps, and that a stream that is bent is shown or refused in form (4); that `play` ends, refuses the
same, and writes what `serial` writes in the order that its journal has (4); all that is printed, with what a plain model
prints, where the screen is small (10). A run has one second of the processor, and 64 MB beside what it reads and writes; by
`play` four seconds, and a minute by the clock.

A script that differs is shown by its number: the same call with `--from NUMBER --show` prints it. At the end stand the
number of the scripts that were played and refused, and the slowest, each by its number and the seed. The status is 1 where
any differed."""

import argparse
import multiprocessing
import random
import sys
from collections import Counter
from itertools import zip_longest
from pathlib import Path
from typing import Iterator, List, NamedTuple, Optional, Tuple

TOP = Path(__file__).resolve().parents[2]
sys.path[:0] = [str(TOP / "judges"), str(TOP / "tools")]

from model.drawing import bend_byte, draw  # noqa: E402
from model.outputs import check_refusal, dumps_of, wrong_check, wrong_output, wrong_show  # noqa: E402
from model.printing import output_of  # noqa: E402
from model.program import PLAYED, REFUSED, Limits, Ran, Runner  # noqa: E402
from model.reader import Refusal, refusal_of  # noqa: E402
from model.threads import Ended, judge  # noqa: E402

MEGABYTE = 1 << 20
CHUNK = 250
# So many seconds of the clock a run by threads may take.
PATIENCE = 60


class Tried(NamedTuple):
    """What became of a script: its fault's code, or 0; what differs, if anything; how long it took, and how much; and whether
    threads played it, and in another order than the script's."""

    number: int
    bytes: int
    code: int
    problem: Optional[str]
    seconds: float
    spare: int
    by_threads: bool = False
    is_other: bool = False


def others() -> List[bytes]:
    """The scripts of the repository."""
    return [file.read_bytes() for folder in ("demos", "docs/examples") for file in sorted((TOP / folder).glob("*.txt"))]


def wrong_end(ran: Ran, refusal: Optional[Refusal]) -> Optional[str]:
    """What is wrong with the end of a run, whatever it prints."""
    if ran.errors:
        return f"standard error has {ran.errors[:200]!r}"
    if refusal is None:
        return None if ran.status == PLAYED else f"status {ran.status} and {ran.output[:60]!r} where it is a script"
    if ran.status != REFUSED or ran.output != refusal.text():
        return f"status {ran.status} and {ran.output[:60]!r} where it is {refusal.text()!r}"
    return None


def spare_bytes(script: bytes, ran: Ran) -> int:
    """The memory beside what was read, and what was kept of the output, whose room grows to twice its size."""
    return 1024 * ran.kilobytes - len(script) - 3 * len(ran.output)


def other_output(script: bytes, word: str, output: bytes) -> Optional[str]:
    """Where an output differs from that of the model, if it does."""
    try:
        want = output_of(script, word)
    except (ArithmeticError, AssertionError, LookupError, RecursionError, TypeError, ValueError) as error:
        return f"the model fails: {error!r}"
    if want is None or want == output:
        return None
    lines = zip_longest(output.split(b"\n"), want.split(b"\n"))
    number, found, wanted = next((at, a, b) for at, (a, b) in enumerate(lines, 1) if a != b)
    return f"{word}: line {number} is {found!r} where the model has {wanted!r}"


class Work(NamedTuple):
    """What a worker is told: the call's words, and the numbers from one up to another."""

    given: argparse.Namespace
    begin: int
    end: int

    def is_one(self, number: int, way: str) -> bool:
        """Whether a script is one of those that are tried in some way."""
        every = getattr(self.given, way)
        return every > 0 and number % every == 0

    def limits(self, word: str) -> Limits:
        """What a run may take."""
        if word == "play":
            return Limits(seconds=4 * self.given.seconds, patience=PATIENCE)
        return Limits(seconds=self.given.seconds)


class Trial:
    """Tries scripts, and each of some of them in more ways."""

    def __init__(self, work: Work):
        self.work = work
        self.runner = Runner(work.given.program)

    def run(self, word: str, script: bytes) -> Ran:
        """A run."""
        return self.runner.run([word], script, self.work.limits(word))

    def script(self, number: int, script: bytes) -> Tried:
        """Tries a script."""
        refusal = refusal_of(script)
        ran = self.run("serial", script)
        problem = wrong_end(ran, refusal)
        if refusal is None:
            problem = problem or wrong_output(script, ran.output) or self.more(number, script, ran.output)
        code = refusal.code if refusal else 0
        tried = Tried(number, len(script), code, problem, ran.seconds, spare_bytes(script, ran))
        is_threaded = problem is None and self.work.is_one(number + 2, "threaded")
        return self.threaded(tried, script, refusal) if is_threaded else tried

    def threaded(self, tried: Tried, script: bytes, refusal: Optional[Refusal]) -> Tried:
        """Plays it by threads: it is refused as by serial, or judged."""
        if refusal is not None:
            problem = wrong_end(self.run("play", script), refusal)
            return tried._replace(problem=f"play: {problem}" if problem else None)
        errors: List[bytes] = []

        def ended(word: str, given: bytes) -> Ended:
            ran = self.run(word, given)
            errors.extend([ran.errors] if ran.errors else [])
            return Ended(ran.status, ran.output)

        judged = judge(ended, script)
        problem = judged.problem or (f"standard error has {errors[0][:200]!r}" if errors else None)
        problem = f"play: {problem}" if problem else None
        return tried._replace(problem=problem, by_threads=judged.by_threads, is_other=judged.is_other)

    def more(self, number: int, script: bytes, output: bytes) -> Optional[str]:
        """Tries in more ways a script that plays."""
        is_modelled = self.work.is_one(number, "modelled")
        problem = other_output(script, "serial", output) if is_modelled else None
        if self.work.is_one(number + 1, "mirrored"):
            problem = problem or self.mirrored(number, script, output)
        if problem is None and self.work.is_one(number, "checked"):
            problem = self.checked(script, output, is_modelled)
        return problem

    def checked(self, script: bytes, output: bytes, is_modelled: bool) -> Optional[str]:
        """Checks it."""
        refused = check_refusal(script)
        ran = self.run("check", script)
        problem = wrong_end(ran, refused)
        if problem is not None or refused is not None:
            return problem
        problem = wrong_check(output, ran.output)
        return problem or (other_output(script, "check", ran.output) if is_modelled else None)

    def mirrored(self, number: int, script: bytes, output: bytes) -> Optional[str]:
        """Shows what a mirror of it writes, and that again with some bytes bent."""
        mirror = self.run("mirror", script)
        shown = self.run("show", mirror.output)
        if (mirror.status, mirror.errors, shown.status, shown.errors) != (PLAYED, b"", PLAYED, b""):
            return f"mirror ends with {mirror.status}, and show with {shown.status}"
        if shown.output != dumps_of(script, output):
            return "show writes other dumps than serial"
        chance = random.Random(f"{self.work.given.seed} {number} stream")
        stream = mirror.output
        for _ in range(chance.randint(1, 3)):
            stream = bend_byte(chance, stream)
        bent = self.run("show", stream)
        problem = wrong_show(bent.status, bent.output)
        return f"show of a bent stream: {problem or bent.errors!r}" if problem or bent.errors else None


def try_chunk(work: Work) -> List[Tried]:
    """Tries the scripts of some numbers."""
    trial = Trial(work)
    scripts = others()
    try:
        return [trial.script(it, draw(work.given.seed, it, scripts)) for it in range(work.begin, work.end)]
    finally:
        trial.runner.close()


class Summary:
    """What all runs came to."""

    def __init__(self, seed: str, most_spare: int) -> None:
        self.seed = seed
        self.codes: Counter = Counter()
        self.problems = 0
        self.by_threads = 0
        self.others = 0
        self.slowest: List[Tuple[float, int, int]] = []
        self.greatest: Tuple[int, int] = (0, 0)
        self.seconds = 0.0
        self.most_spare = most_spare

    def add(self, tried: Tried) -> None:
        """Adds a script."""
        self.codes[tried.code] += 1
        self.by_threads += tried.by_threads
        self.others += tried.is_other
        self.seconds += tried.seconds
        self.slowest = sorted([*self.slowest, (tried.seconds, tried.number, tried.bytes)], reverse=True)[:5]
        self.greatest = max(self.greatest, (tried.spare, tried.number))
        problem = tried.problem
        if problem is None and tried.spare > self.most_spare:
            problem = f"it takes {tried.spare // MEGABYTE} MB"
        if problem is not None:
            self.problems += 1
            print(f"fuzz: script {tried.number}: {problem}", flush=True)

    def lines(self) -> Iterator[str]:
        """What is told in the end."""
        count = sum(self.codes.values())
        refused = ", ".join(f"B{code} {self.codes[code]}" for code in sorted(self.codes) if code)
        yield f"fuzz: {count} scripts, {self.codes[0]} played, {count - self.codes[0]} refused ({refused})"
        yield f"fuzz: {self.by_threads} of them played by threads too, {self.others} in another order than the script's"
        yield f"fuzz: {self.problems} differ; {self.seconds:.0f} processor seconds"
        for seconds, number, size in self.slowest:
            yield f"fuzz: among the slowest of seed {self.seed}: script {number} of {size} bytes takes {1000 * seconds:.0f} ms"
        yield f"fuzz: the most memory beside script and output: {self.greatest[0] // 1024} KB, script {self.greatest[1]}"


def words() -> argparse.Namespace:
    """The words of the call."""
    parser = argparse.ArgumentParser(usage=__doc__, add_help=False)
    parser.add_argument("program")
    parser.add_argument("count", nargs="?", type=int, default=2000)
    parser.add_argument("seed", nargs="?", default="1")
    parser.add_argument("--workers", type=int, default=2)
    parser.add_argument("--seconds", type=int, default=1)
    parser.add_argument("--megabytes", type=int, default=64)
    parser.add_argument("--checked", type=int, default=4)
    parser.add_argument("--mirrored", type=int, default=4)
    parser.add_argument("--threaded", type=int, default=4)
    parser.add_argument("--modelled", type=int, default=10)
    parser.add_argument("--from", dest="begin", type=int, default=0)
    parser.add_argument("--show", action="store_true")
    return parser.parse_args()


def main() -> int:
    """Tries all scripts, in chunks, by some workers."""
    given = words()
    if given.show:
        sys.stdout.buffer.write(draw(given.seed, given.begin, others()))
        return 0
    summary = Summary(given.seed, given.megabytes * MEGABYTE)
    end = given.begin + given.count
    chunks = [Work(given, at, min(at + CHUNK, end)) for at in range(given.begin, end, CHUNK)]
    with multiprocessing.Pool(given.workers) as pool:
        for done, chunk in enumerate(pool.imap(try_chunk, chunks), 1):
            for tried in chunk:
                summary.add(tried)
            if done % 80 == 0:
                print(f"fuzz: {done * CHUNK} scripts, {summary.problems} differ", flush=True)
    for line in summary.lines():
        print(line)
    return 1 if summary.problems else 0


if __name__ == "__main__":
    sys.exit(main())
