"""A session with the core: sends the lines of a script one by one, reads the answer to each, and has the screen.
docs/SESSION.md explains the lines and their answers."""

import subprocess
from contextlib import suppress
from typing import List, Optional

from .program import Trouble, session_program
from .stream_reader import MOST_CUTS, Frame, Reader


class Refused(Exception):
    """The refusal of a line: a code such as B4, or `memory`. Nothing changed."""

    def __init__(self, code: str, line: str):
        super().__init__(f"{code}: {line}")
        self.code = code


class Session:
    """A program that answers line by line."""

    def __init__(self, path: Optional[str] = None):
        path = path or session_program()
        try:
            self.process = subprocess.Popen([path], stdin=subprocess.PIPE, stdout=subprocess.PIPE)
        except OSError as error:
            raise Trouble(f"{path} does not start: {error.strerror}")
        self.stream = Reader()

    def __enter__(self) -> "Session":
        return self

    def __exit__(self, *_problem) -> None:
        self.close()

    def ask(self, line: str) -> bytes:
        """Sends a line, and gives its answer without the first line."""
        if "\n" in line:
            raise ValueError("a line has no line feed")
        try:
            self.process.stdin.write(line.encode("latin-1") + b"\n")
            self.process.stdin.flush()
        except BrokenPipeError:
            raise Trouble(f"the session has ended with {self.process.wait()}")
        sort, _, rest = self.process.stdout.readline().decode("latin-1").rstrip("\n").partition(" ")
        if sort == "refused":
            raise Refused(rest, line)
        if sort == "bytes":
            return self.process.stdout.read(int(rest))
        if sort != "ok":
            raise Trouble(f"the session has ended with {self.process.wait()}")
        return b"".join(self.process.stdout.readline() for _ in range(int(rest.split()[0])))

    def send(self, line: str) -> List[str]:
        """Sends a line, and gives the lines of its answer."""
        return self.ask(line).decode("latin-1").splitlines()

    def screen(self) -> Frame:
        """The screen as it is now."""
        if self.stream.cuts == MOST_CUTS:
            self.stream = Reader()
        return list(self.stream.frames([self.ask("!cut")]))[-1]

    def save(self) -> str:
        """The script so far."""
        return self.ask("!save").decode("latin-1")

    def close(self) -> int:
        """Ends the session, and gives its status."""
        with suppress(BrokenPipeError):
            self.process.stdin.close()
        self.process.stdout.close()
        return self.process.wait()
