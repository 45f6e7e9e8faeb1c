"""The commands. Each module has `main`, which takes the words behind the command's name and gives its status:
0 where nothing is wrong, 1 where something was found, 2 where the command could not do its work."""

import argparse
import os
import sys
from pathlib import Path
from typing import Callable, List, NoReturn

from ..program import Trouble

FINE, FOUND, TROUBLE = range(3)


class Parser(argparse.ArgumentParser):
    """A reader of a command's words. Its help ends with an example; a wrong word is told in one line, with 2."""

    def __init__(self, name: str, what: str, example: str):
        super().__init__(
            prog=name,
            description=what,
            epilog="for example:\n" + "".join(f"  {line}\n" for line in example.strip().split("\n")),
            formatter_class=argparse.RawDescriptionHelpFormatter,
            allow_abbrev=False,
        )

    def error(self, message: str) -> NoReturn:
        stop(f"{self.prog}: {message}; {self.prog} --help")


def stop(message: str) -> NoReturn:
    """Ends the command, since its words are wrong."""
    print(message, file=sys.stderr)
    sys.exit(TROUBLE)


def write(line: str) -> None:
    """Writes a line as UTF-8, whatever the terminal says that it takes."""
    sys.stdout.buffer.write(line.encode("utf-8", "surrogateescape") + b"\n")


def write_file(name: str, data: bytes) -> None:
    """Writes a file."""
    try:
        Path(name).write_bytes(data)
    except OSError as error:
        raise Trouble(f"{name} cannot be written: {error.strerror}")


def run(name: str, main: Callable[[List[str]], int]) -> None:
    """Runs a command to its status. A reader that goes away, as `head` does, is nothing wrong."""
    try:
        status = main(sys.argv[1:])
        sys.stdout.flush()
    except Trouble as trouble:
        sys.stdout.flush()
        stop(f"{name}: {trouble}")
    except BrokenPipeError:
        os.dup2(os.open(os.devnull, os.O_WRONLY), 1)
        status = FINE
    except KeyboardInterrupt:
        status = 130
    sys.exit(status)
