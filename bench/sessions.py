#!/usr/bin/env python3
"""Measures a session beside `serial`.

    bench/sessions.py [ROUNDS]

The first table has the script `events 90000` of bench/workloads.sh: by `serial`; by a session that gets its lines at once; and
by one that gets each line after the answer to the one before it. Each time is the least of ROUNDS (5 if left out) in turn, of
the program's own processor time and of the clock. The second has the answer to the line that repaints a window of 100 by 100
points, at the beginning and after 100,000 lines: the median and the 99th of 100 times, by the clock, with what Python adds.
TRESTLE and TRESTLE_SESSION name the programs."""

import os
import subprocess
import sys
import threading
import time
from pathlib import Path
from typing import Callable, Dict, List, Tuple

TOP = Path(__file__).resolve().parents[1]
sys.path.insert(0, str(TOP / "tools"))

from trestle_tools.program import program, session_program  # noqa: E402
from trestle_tools.session import Session  # noqa: E402

OPENING = """trestle 1
screen 256 192 map8
node z z 3
leaf k 10 100 128 10 100 128 canvas
put k z 10 60
root z
begin""".splitlines()


def measured(words: List[str], given: Callable[[subprocess.Popen], None]) -> Tuple[float, float]:
    """The milliseconds of the processor and of the clock that a program takes."""
    start = time.perf_counter()
    ran = subprocess.Popen(words, stdin=subprocess.PIPE, stdout=subprocess.PIPE)
    given(ran)
    _, status, used = os.wait4(ran.pid, 0)
    seconds = time.perf_counter() - start
    ran.returncode = status
    if status:
        raise SystemExit(f"sessions: {words[0]} ended with {status}")
    return 1000 * (used.ru_utime + used.ru_stime), 1000 * seconds


def at_once(script: bytes) -> Callable[[subprocess.Popen], None]:
    """Gives all lines at once, from a thread."""

    def send(ran: subprocess.Popen) -> None:
        writer = threading.Thread(target=lambda: (ran.stdin.write(script), ran.stdin.close()))
        writer.start()
        while ran.stdout.read(1 << 16):
            pass
        writer.join()

    return send


def one_by_one(script: bytes) -> Callable[[subprocess.Popen], None]:
    """Gives each line after the answer to the one before it."""

    def send(ran: subprocess.Popen) -> None:
        for line in script.splitlines(keepends=True):
            ran.stdin.write(line)
            ran.stdin.flush()
            first = ran.stdout.readline()
            if not first.startswith(b"ok "):
                raise SystemExit(f"sessions: {line!r} has the answer {first!r}")
            for _ in range(int(first[3:])):
                ran.stdout.readline()
        ran.stdin.close()

    return send


def click(session: Session, number: int) -> float:
    """The microseconds until the answer to the line that repaints the window."""
    session.send(f"@k rect 0 100 0 100 {number % 256}")
    start = time.perf_counter()
    session.send("@k force")
    return 1e6 * (time.perf_counter() - start)


def clicks() -> List[List[float]]:
    """Those times at the beginning, and after 100,000 lines."""
    with Session() as session:
        for line in OPENING:
            session.send(line)
        first = sorted(click(session, number) for number in range(100))
        for number in range(100_000):
            session.send(f"motion {number + 1} {number % 256} {number % 192}")
        return [first, sorted(click(session, number) for number in range(100))]


def main() -> None:
    """Prints both tables."""
    rounds = int(sys.argv[1]) if len(sys.argv) > 1 else 5
    script = subprocess.run([str(TOP / "bench/workloads.sh"), "--write", "events", "90000"], stdout=subprocess.PIPE, check=True).stdout
    rows = {
        "serial": ([program(), "serial"], at_once(script)),
        "session, lines at once": ([session_program()], at_once(script)),
        "session, line by line": ([session_program()], one_by_one(script)),
    }
    times: Dict[str, List[Tuple[float, float]]] = {name: [] for name in rows}
    for _ in range(rounds):
        for name, (words, given) in rows.items():
            times[name].append(measured(words, given))
    least = min(own for own, _ in times["serial"])
    print("| events, 90,000 | processor, ms | of `serial` | clock, ms |\n|---|---|---|---|")
    for name, taken in times.items():
        own, clock = (min(column) for column in zip(*taken))
        print(f"| {name} | {own:.0f} | {own / least:.1f} | {clock:.0f} |", flush=True)
    print("\n| repaint of 100 by 100 points | median, us | 99th of 100, us |\n|---|---|---|")
    for name, ordered in zip(("at the beginning", "after 100,000 lines"), clicks()):
        print(f"| {name} | {ordered[50]:.0f} | {ordered[98]:.0f} |")


if __name__ == "__main__":
    main()
