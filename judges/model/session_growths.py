#!/usr/bin/env python3
"""Plays sessions again and again, each time with another growth of the memory refused.

    judges/model/session_growths.py SESSION LIBRARY [DEMO..]

SESSION is a linked trestle-session, and LIBRARY bench/nth_allocation.c, compiled for LD_PRELOAD. The lines of each demo are
sent one by one, with every second sync left out and requests and reports before the end. A line is answered as where no
growth is refused; or it is refused for want of memory, and then it is sent again and answered so. Only before the first
answer a session may end with status 6. Of each demo it is told how many lines were refused, and of which words."""

import os
import re
import subprocess
import sys
from collections import Counter
from pathlib import Path
from typing import List, Optional, Tuple

TOP = Path(__file__).resolve().parents[2]
REQUESTS = ["!cut", "!save", "dump", "journal", "!cut", "!save"]
NO_MEMORY = 6


def lines_of(demo: str) -> List[str]:
    """The lines that are sent for a demo."""
    lines: List[str] = []
    syncs = 0
    for line in (TOP / "demos" / f"{demo}.txt").read_text("latin-1").splitlines():
        syncs += line == "sync"
        if line != "sync" or syncs % 2 == 0:
            lines += [*REQUESTS, line] if line == "end" else [line]
    return [*lines, "!save", "!quit"]


def word_of(line: str) -> str:
    """The first word of a line, and of a step of a leaf the second."""
    words = line.split(" ")
    return " ".join(words[:2]) if line.startswith("@") else words[0]


class Run:
    """A session whose growth of this number is refused."""

    def __init__(self, program: str, library: str, number: int):
        environment = {**os.environ, "LD_PRELOAD": library, "REFUSED": str(number)}
        self.process = subprocess.Popen(
            [program], stdin=subprocess.PIPE, stdout=subprocess.PIPE, stderr=subprocess.PIPE, bufsize=0, env=environment
        )
        self.output = os.fdopen(os.dup(self.process.stdout.fileno()), "rb")

    def ask(self, line: str) -> Optional[bytes]:
        """The answer to a line, or None where the session has ended."""
        try:
            self.process.stdin.write(line.encode("latin-1") + b"\n")
        except BrokenPipeError:
            return None
        first = self.output.readline()
        words = first.split()
        if not words:
            return None
        if words[0] == b"bytes":
            return first + self.output.read(int(words[1]))
        count = int(words[1]) if words[0] == b"ok" else 0
        return first + b"".join(self.output.readline() for _ in range(count))

    def end(self) -> Tuple[int, int]:
        """The status, and how many growths there were."""
        self.process.stdin.close()
        told = re.search(rb"allocations (\d+)\n", self.process.stderr.read())
        for file in (self.output, self.process.stdout, self.process.stderr):
            file.close()
        return self.process.wait(), int(told[1]) if told else 0


def tried(program: str, library: str, demo: str) -> int:
    """Refuses each growth of a demo, and gives the number of wrong runs."""
    lines = lines_of(demo)
    plain = Run(program, library, 0)
    wanted = [plain.ask(line) for line in lines]
    growths = plain.end()[1]
    refused: Counter = Counter()
    ended = 0
    wrong = 0
    for number in range(1, growths + 1):
        run = Run(program, library, number)
        last = None
        answered = 0
        for line, due in zip(lines, wanted):
            answer = run.ask(line)
            if answer == b"refused memory\n":
                refused[word_of(line)] += 1
                answer = run.ask(line)
            if answer != due:
                last = (line, answer)
                break
            answered += 1
        status = run.end()[0]
        if last and last[1] is None and not answered and status == NO_MEMORY:
            ended += 1
        elif last or status:
            wrong += 1
            print(f"{demo}, growth {number}: status {status}, {last}")
    told = ", ".join(f"{count} at {word}" for word, count in refused.most_common())
    print(f"{demo}: {growths} growths, {ended} sessions ended at the start, {sum(refused.values())} lines refused ({told})", flush=True)
    return wrong


def main(words: List[str]) -> int:
    """Tries demos."""
    program, library, *demos = words
    wrong = sum(tried(program, library, demo) for demo in demos or [file.stem for file in sorted((TOP / "demos").glob("*.txt"))])
    print(f"sessions: {wrong} wrong")
    return int(wrong > 0)


if __name__ == "__main__":
    sys.exit(main(sys.argv[1:]))
