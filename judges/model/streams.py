#!/usr/bin/env python3
"""Runs the program as a shell would that treats it badly: its streams are slow, cut, full, or closed; it is stopped and
goes on; memory is scarce; and many run at once. What is written is right or a prefix of it, and the status says which.

    judges/model/streams.py PROGRAM [TRIAL..]

PROGRAM is a linked trestle; TRIAL is the name of one of the trials below, as given_by_bytes, and all are made where there
is none."""

import fcntl
import os
import re
import resource
import shutil
import signal
import subprocess
import sys
import tempfile
import time
from concurrent.futures import ThreadPoolExecutor
from pathlib import Path
from typing import Callable, Iterator, List, Optional, Tuple

TOP = Path(__file__).resolve().parents[2]
sys.path[:0] = [str(TOP / "judges"), str(TOP / "tools")]

from model.program import NO_MEMORY, PLAYED, READ_FAULT, REFUSED, WRITE_FAULT  # noqa: E402
from model.reader import refusal_of  # noqa: E402
from model.threads import LAST  # noqa: E402

HERE = Path(__file__).resolve().parent
MEGABYTE = 1 << 20
PIPE = subprocess.PIPE
# The least room that a pipe can have, and the call that sets it (fcntl.F_SETPIPE_SZ, which older Pythons don't name).
PAGE, SET_ROOM = 4096, 1031

SMALL = b"trestle 1\nscreen 1 1 map8\nleaf a 1 1 1 1 1 1 solid 7\nroot a\nbegin\ndump\nend\n"
WRITTEN = b"dump 1 1 map8\n07\n"
# What nth_thread.c tells: how many threads were asked for.
ASKED = re.compile(rb"threads (\d+)\n")


def dumps(side: int, count: int) -> Tuple[bytes, bytes]:
    """A script that dumps a screen again and again, and what it writes."""
    head = b"trestle 1\nscreen %d %d map8\nleaf a 1 %d %d 1 %d %d solid 171\nroot a\nbegin\n" % (side, side, *[side] * 4)
    dump = b"dump %d %d map8\n" % (side, side) + (b"ab" * side + b"\n") * side
    return head + b"dump\n" * count + b"end\n", dump * count


def clients(count: int, rounds: int = 1) -> Tuple[bytes, bytes]:
    """A script in which so many clients have ten lines each, or more, in two parts, and what `play` writes of it."""
    head = b"trestle 1\nscreen %d 1 map8\nnode r h 0\n" % count
    leaves = b"".join(b"leaf l%d 1 1 1 1 1 1 solid 0\nput l%d r\n" % (it, it) for it in range(count))
    tints = b"".join(b"@l%d tint %d\n" % (it, tint) for tint in range(7, 17) for it in range(count))
    dump = b"dump %d 1 map8\n%s\n" % (count, b"10" * count)
    return head + leaves + b"root r\nbegin\n" + 2 * (rounds * tints + b"sync\ndump\n") + b"end\n", 2 * dump + LAST


def threads_of(number: int) -> int:
    """How many threads a process has; none, where it has ended."""
    try:
        return len(os.listdir(f"/proc/{number}/task"))
    except FileNotFoundError:
        return 0


class Trials:
    """All trials of a program. Each answers what is wrong, if anything."""

    def __init__(self, program: str):
        self.program = program

    def start(self, words: List[str] = ["serial"], **streams: object) -> subprocess.Popen:
        """Starts the program. A stream that isn't named is a pipe."""
        for name in ("stdin", "stdout", "stderr"):
            streams.setdefault(name, PIPE)
        child = subprocess.Popen([self.program, *words], **streams)
        for stream in (child.stdin, child.stdout):
            if stream is not None:
                fcntl.fcntl(stream, SET_ROOM, PAGE)
        return child

    def finish(self, child: subprocess.Popen, status: int, output: bytes, want: bytes) -> Optional[str]:
        """What is wrong with a run that has written all that it will."""
        errors = child.stderr.read()
        child.stderr.close()
        ended = child.wait()
        if ended != status or errors:
            return f"status {ended} in place of {status}; standard error has {errors[:100]!r}"
        return None if output == want else f"{len(output)} bytes are not the {len(want)} that are due"

    # ---- Reading

    def given_by_bytes(self) -> Optional[str]:
        """A script that comes byte by byte."""
        child = self.start(bufsize=0)
        for at in range(len(SMALL)):
            child.stdin.write(SMALL[at : at + 1])
            time.sleep(0.002)
        child.stdin.close()
        return self.finish(child, PLAYED, child.stdout.read(), WRITTEN)

    def given_late(self) -> Optional[str]:
        """A script whose second half comes late, while the program is stopped and goes on."""
        child = self.start(bufsize=0)
        child.stdin.write(SMALL[:40])
        for name in (signal.SIGSTOP, signal.SIGCONT, signal.SIGSTOP, signal.SIGCONT):
            time.sleep(0.05)
            child.send_signal(name)
        child.stdin.write(SMALL[40:])
        child.stdin.close()
        return self.finish(child, PLAYED, child.stdout.read(), WRITTEN)

    def given_in_part(self) -> Optional[str]:
        """A script whose writer goes away after some bytes, mostly within a line, and not at once."""
        for count in (0, 1, 9, 10, 30, 59, 62, 66, 69, 71, 74):
            refusal = refusal_of(SMALL[:count])
            child = self.start(bufsize=0)
            child.stdin.write(SMALL[:count])
            time.sleep(0.05)
            if child.poll() is not None:
                return f"after {count} bytes: it has ended before its input has"
            child.stdin.close()
            due = (REFUSED, refusal.text()) if refusal else (PLAYED, WRITTEN)
            found = self.finish(child, due[0], child.stdout.read(), due[1])
            if found:
                return f"after {count} bytes: {found}"
        return None

    def given_a_folder(self) -> Optional[str]:
        """A folder in place of a script."""
        folder = os.open("/", os.O_RDONLY)
        child = self.start(stdin=folder)
        os.close(folder)
        return self.finish(child, READ_FAULT, child.stdout.read(), b"read fault\n")

    def given_a_writer(self) -> Optional[str]:
        """A standard input that can be written only."""
        with open(os.devnull, "wb") as writer:
            child = self.start(stdin=writer)
        return self.finish(child, REFUSED, child.stdout.read(), b"refused: line 1 B8\n")

    def given_too_much(self) -> Optional[str]:
        """A text without an end: it is read as far as 4 MiB and one byte, and no further."""
        with open("/dev/zero", "rb") as zeros:
            child = self.start(stdin=zeros)
        return self.finish(child, REFUSED, child.stdout.read(), b"refused: line 0 B7\n")

    def without_streams(self) -> Optional[str]:
        """No stream at all."""
        shell = 'exec "$0" serial <&- >&- 2>&-'
        ended = subprocess.run(["sh", "-c", shell, self.program], check=False).returncode
        return None if ended == WRITE_FAULT else f"status {ended} in place of {WRITE_FAULT}"

    # ---- Writing

    def read_by_bytes(self) -> Optional[str]:
        """A reader who takes a byte at a time, and is slow."""
        script, want = dumps(48, 2)
        child = self.start(bufsize=0)
        child.stdin.write(script)
        child.stdin.close()
        output = b""
        for count in range(len(want) + 1):
            byte = child.stdout.read(1)
            output += byte
            if count % 50 == 0:
                time.sleep(0.005)
        return self.finish(child, PLAYED, output, want)

    def read_slowly(self) -> Optional[str]:
        """A reader who takes a byte a second, twenty of them, while the program waits for room in the pipe; and then the rest."""
        script, want = dumps(64, 1)
        child = self.start(bufsize=0)
        child.stdin.write(script)
        child.stdin.close()
        output = b""
        for _ in range(20):
            output += child.stdout.read(1)
            time.sleep(1)
        has_waited = child.poll() is None
        found = self.finish(child, PLAYED, output + child.stdout.read(), want)
        return found or (None if has_waited else "it has not waited for its reader")

    def read_in_part(self) -> Optional[str]:
        """A reader who goes away after some bytes."""
        script, want = dumps(256, 1)
        for count in (0, 1, 14, 15, 16, 4096, 5000, 100_000):
            child = self.start(bufsize=0)
            child.stdin.write(script)
            child.stdin.close()
            output = b""
            while len(output) < count:
                output += child.stdout.read(count - len(output))
            child.stdout.close()
            found = self.finish(child, WRITE_FAULT, output, want[:count])
            if found:
                return f"after {count} bytes: {found}"
        return None

    def stopped_while_writing(self) -> Optional[str]:
        """It is stopped while it writes, and goes on."""
        script, want = dumps(512, 2)
        child = self.start(bufsize=0)
        child.stdin.write(script)
        child.stdin.close()
        output = b""
        for _ in range(20):
            output += child.stdout.read(1000)
            child.send_signal(signal.SIGSTOP)
            time.sleep(0.01)
            child.send_signal(signal.SIGCONT)
        output += child.stdout.read()
        return self.finish(child, PLAYED, output, want)

    def full_disk(self) -> Optional[str]:
        """A device that takes nothing."""
        with open("/dev/full", "wb") as full:
            child = self.start(stdout=full)
        child.stdin.write(SMALL)
        child.stdin.close()
        return self.finish(child, WRITE_FAULT, b"", b"")

    def small_disk(self) -> Optional[str]:
        """A disk that gets full on the way. It wants the right to mount one."""
        script, want = dumps(512, 1)
        with tempfile.TemporaryDirectory() as folder:
            mounted = subprocess.run(["mount", "-t", "tmpfs", "-o", "size=64k", "none", folder], stderr=subprocess.DEVNULL)
            if mounted.returncode != 0:
                print("streams: no disk can be mounted here, so that one that gets full was not tried")
                return None
            try:
                with open(f"{folder}/out", "wb") as file:
                    child = self.start(stdout=file)
                child.stdin.write(script)
                child.stdin.close()
                child.wait()
                output = Path(f"{folder}/out").read_bytes()
                return self.finish(child, WRITE_FAULT, output, want[: len(output)])
            finally:
                subprocess.run(["umount", folder], check=False)

    def not_waiting(self) -> Optional[str]:
        """A pipe that doesn't wait for its reader: a full one is a fault."""
        script, want = dumps(256, 1)
        inside, outside = os.pipe()
        fcntl.fcntl(outside, fcntl.F_SETFL, os.O_NONBLOCK)
        child = self.start(stdout=outside)
        os.close(outside)
        child.stdin.write(script)
        child.stdin.close()
        child.wait()
        with os.fdopen(inside, "rb") as reader:
            output = reader.read()
        return self.finish(child, WRITE_FAULT, output, want[: len(output)])

    def much_output(self) -> Optional[str]:
        """126 MB into a pipe."""
        script, _ = dumps(1024, 60)
        _, dump = dumps(1024, 1)
        child = subprocess.Popen([self.program, "serial"], stdin=PIPE, stdout=PIPE, stderr=PIPE)
        child.stdin.write(script)
        child.stdin.close()
        same = sum(child.stdout.read(len(dump)) == dump for _ in range(60))
        return self.finish(child, PLAYED, child.stdout.read(), b"") or (None if same == 60 else f"{60 - same} dumps differ")

    # ---- Memory, and company

    def scarce_memory(self) -> Optional[str]:
        """An address space from 20 MB upwards: want of memory, or all that is due."""
        return self._scarce("serial", *dumps(1024, 12), [*range(20, 60, 2), *range(60, 160, 10)])

    def scarce_memory_for_threads(self) -> Optional[str]:
        """The same for threads, which want room for their stacks, too."""
        return self._scarce("play", *clients(16), [*range(20, 60, 4), *range(60, 400, 20)])

    def _scarce(self, word: str, script: bytes, want: bytes, sizes: List[int]) -> Optional[str]:
        """Runs in address spaces of so many MB, of which the first is too small, and the last one isn't."""
        answers: List[int] = []
        for megabytes in sizes:
            limit = megabytes * MEGABYTE
            child = self.start([word], preexec_fn=lambda: resource.setrlimit(resource.RLIMIT_AS, (limit, limit)))
            output = child.communicate(script)
            status = child.returncode
            if (status, *output) not in ((NO_MEMORY, b"", b""), (PLAYED, want, b"")):
                return f"at {megabytes} MB: status {status}, {len(output[0])} bytes, {output[1][:100]!r}"
            answers.append(status)
        print(f"streams: scarce memory, by {word}: {answers.count(NO_MEMORY)} of {len(answers)} sizes want more")
        is_right = answers[-1] == PLAYED and (word == "play" or answers[0] == NO_MEMORY)
        return None if is_right else f"the answers are {answers}"

    def without_threads(self) -> Optional[str]:
        """The system starts no thread, so one does the work of all. It wants the right to be another user."""
        return self._with_threads([1], *clients(8))

    def with_few_threads(self) -> Optional[str]:
        """The system lets some threads be there at once, and starts no other then. The first one can always be started. A part
        of 32 clients halves its work again and again, each time with another thread for the one half, down to one actor: where
        each could be started, six would be there at once, each waiting for the next. So at least one is refused. Which ones,
        and how many, hangs on when the others end."""
        return self._with_threads([2, 3, 4, 5], *clients(32, 20))

    def _with_threads(self, numbers: List[int], script: bytes, want: bytes) -> Optional[str]:
        """Plays a script where so many threads may be there at once, the first one among them, for each of some numbers."""
        if os.geteuid() != 0:
            print("streams: nobody can be another user here, so that a system with few threads was not tried")
            return None
        for number in numbers:
            try:
                child = self._limited(number)
            except (OSError, subprocess.SubprocessError) as error:
                print(f"streams: another user can't run the program ({error}), so that a system with few threads was not tried")
                return None
            found = self._watched(child, number, script, want)
            if found:
                return f"with {number} at once: {found}"
        return None

    def _limited(self, allowed: int) -> subprocess.Popen:
        """Starts the program, for another user, where so many threads may be there at once."""

        def limited() -> None:
            resource.setrlimit(resource.RLIMIT_NPROC, (allowed, allowed))
            os.setuid(54321)

        return self.start(["play"], preexec_fn=limited)

    def _watched(self, child: subprocess.Popen, allowed: int, script: bytes, want: bytes) -> Optional[str]:
        """Has it play a script, and looks that so many threads are there at once."""
        child.stdin.write(script)
        child.stdin.close()
        most = 1
        while child.poll() is None:
            most = max(most, threads_of(child.pid))
            time.sleep(0.0002)
        found = self.finish(child, PLAYED, child.stdout.read(), want)
        if most > allowed:
            print(f"streams: this system does not keep to a limit of {allowed}, so that it was not tried with few threads")
        return found or (None if most >= allowed else f"no more than {most} were seen at once")

    def with_one_thread_less(self) -> Optional[str]:
        """One of the threads that are asked for can't be started: the first, the second, and so on. It wants cc."""
        if shutil.which("cc") is None:
            print("streams: there is no cc, so that a thread that can't be started by itself was not tried")
            return None
        script, want = clients(8)
        with tempfile.TemporaryDirectory() as folder:
            library = f"{folder}/nth.so"
            subprocess.run(["cc", "-O2", "-shared", "-fPIC", "-o", library, str(HERE / "nth_thread.c"), "-ldl"], check=True)
            refused = 0
            while True:
                environment = {"LD_PRELOAD": library, "REFUSED": str(refused + 1)}
                ran = subprocess.run([self.program, "play"], input=script, env=environment, capture_output=True, check=False)
                told = ASKED.fullmatch(ran.stderr)
                if not told or (ran.returncode, ran.stdout) != (PLAYED, want):
                    return f"without the thread of number {refused + 1}: status {ran.returncode}, {ran.stderr[:100]!r}"
                if int(told[1]) <= refused:
                    break
                refused += 1
        print(f"streams: one thread less: {refused} threads, of which each was refused once")
        # (ten actors want nine more in each of the two parts)
        return None if refused >= 18 else f"only {refused} threads were asked for"

    def many_at_once(self) -> Optional[str]:
        """64 programs at once."""
        return self._at_once("serial", [dumps(8 + number, 1 + number % 5) for number in range(64)])

    def many_at_once_by_threads(self) -> Optional[str]:
        """64 programs at once, each with up to 34 threads."""
        return self._at_once("play", [clients(1 + number % 32) for number in range(64)])

    def _at_once(self, word: str, jobs: List[Tuple[bytes, bytes]]) -> Optional[str]:
        """Plays scripts at once, and compares what each writes."""

        def one(job: Tuple[bytes, bytes]) -> bool:
            ran = subprocess.run([self.program, word], input=job[0], stdout=PIPE, stderr=PIPE, timeout=120, check=False)
            return (ran.returncode, ran.stdout, ran.stderr) == (PLAYED, job[1], b"")

        with ThreadPoolExecutor(64) as pool:
            wrong = [number for number, is_right in enumerate(pool.map(one, jobs)) if not is_right]
        return f"the programs {wrong} went wrong" if wrong else None

    def all(self) -> Iterator[Tuple[str, Callable[[], Optional[str]]]]:
        """All trials, by their names."""
        for name, trial in vars(Trials).items():
            if name not in ("start", "finish", "all") and not name.startswith("_"):
                yield name, getattr(self, trial.__name__)


def main(words: List[str]) -> int:
    """Makes all trials."""
    if not words:
        print(__doc__, file=sys.stderr)
        return 2
    made = wrong = 0
    for name, trial in Trials(words[0]).all():
        if name in words[1:] or len(words) == 1:
            found = trial()
            made += 1
            wrong += found is not None
            print(f"streams: {name.replace('_', ' ')}: {found or 'ok'}", flush=True)
    print(f"streams: {made - wrong} of {made} are as they should be")
    return 1 if wrong or made < len(words) - 1 else 0


if __name__ == "__main__":
    sys.exit(main(sys.argv[1:]))
