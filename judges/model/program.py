"""Runs the program, and measures it, over files in memory, so that many runs are made in a second.

What a process is told to have taken at most begins with what its parent had when it was started, by `fork` and by `spawn`
alike. So a shell starts the program, which has nearly nothing, and ends; the program is then a child of this process."""

import ctypes
import fcntl
import os
import resource
import signal
import threading
from shlex import quote
from typing import Dict, List, NamedTuple, Optional

# The statuses of docs/SCRIPT.md.
PLAYED, USAGE, REFUSED, READ_FAULT, WRITE_FAULT, NO_MEMORY, NO_ARGUMENTS = 0, 2, 3, 4, 5, 6, 7


class Ran(NamedTuple):
    """What a run came to. A signal that ended it is a negative status."""

    status: int
    output: bytes
    errors: bytes
    seconds: float
    kilobytes: int


class Limits(NamedTuple):
    """What a run may take: processor seconds, and where these are limited bytes of address space, and seconds of the clock, since
    threads that wait for one another take none of the processor's."""

    seconds: int = 1
    space: Optional[int] = None
    patience: Optional[int] = None


# Starts the words once a line comes, and tells the number of their process. Before that line the shell has ended, and nobody
# else hears of the program's end. (What a shell starts beside itself has no standard input, unless it is given one.)
START = 'exec 3<&0; { read line <&5 && %s exec "$@" <&3 3<&- 4>&- 5<&-; } & echo $! >&4'
# The call by which this process becomes the parent of whatever its children leave (prctl.PR_SET_CHILD_SUBREAPER).
TAKE_ORPHANS = 36


class Runner:
    """Runs one program again and again. The streams of all runs are the same files."""

    def __init__(self, program: str):
        self.program = os.path.abspath(program)
        if not os.access(self.program, os.X_OK):
            raise FileNotFoundError(f"{program} is no program")
        if ctypes.CDLL(None).prctl(TAKE_ORPHANS, 1, 0, 0, 0) != 0:
            raise OSError("this process can't take the program from the shell that starts it")
        names = ("given", "output", "errors", "number")
        self.files = self.given, self.output, self.errors, self.number = [high(os.memfd_create(name)) for name in names]
        self.line, self.go = map(high, os.pipe())

    def close(self) -> None:
        """Closes the files."""
        for file in (*self.files, self.line, self.go):
            os.close(file)

    def start(self, words: List[str], environment: Dict[str, str]) -> int:
        """Makes the process in which the program starts once a line comes, and tells its number."""
        start = START % "".join(f"export {name}={quote(value)} && " for name, value in environment.items())
        files = [(os.POSIX_SPAWN_DUP2, file, at) for file, at in zip((*self.files, self.line), (0, 1, 2, 4, 5))]
        shell = os.posix_spawn("/bin/sh", ["sh", "-c", start, "sh", self.program, *words], {}, file_actions=files)
        os.waitpid(shell, 0)
        return int(contents(self.number))

    def run(
        self, words: List[str], script: bytes, limits: Limits = Limits(), environment: Optional[Dict[str, str]] = None
    ) -> Ran:
        """One run."""
        for file in self.files:
            os.ftruncate(file, 0)
            os.lseek(file, 0, os.SEEK_SET)
        os.pwrite(self.given, script, 0)
        child = self.start(words, environment or {})
        resource.prlimit(child, resource.RLIMIT_CPU, (limits.seconds, limits.seconds + 1))
        if limits.space is not None:
            resource.prlimit(child, resource.RLIMIT_AS, (limits.space, limits.space))
        os.write(self.go, b"\n")
        patience = threading.Timer(limits.patience or 0, os.kill, (child, signal.SIGKILL))
        if limits.patience is not None:
            patience.start()
        try:
            _, ended, used = os.wait4(child, 0)
        except BaseException:
            os.kill(child, signal.SIGKILL)
            os.waitpid(child, 0)
            raise
        finally:
            patience.cancel()
        status = -os.WTERMSIG(ended) if os.WIFSIGNALED(ended) else os.WEXITSTATUS(ended)
        seconds = used.ru_utime + used.ru_stime
        return Ran(status, contents(self.output), contents(self.errors), seconds, used.ru_maxrss)


def high(file: int) -> int:
    """The same file under a number that no redirection of the shell has."""
    moved = fcntl.fcntl(file, fcntl.F_DUPFD_CLOEXEC, 10)
    os.close(file)
    return moved


def contents(file: int) -> bytes:
    """All bytes of a file."""
    size = os.fstat(file).st_size
    return os.pread(file, size, 0) if size else b""
