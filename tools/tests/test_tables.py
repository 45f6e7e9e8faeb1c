"""Tables of inputs and outputs in files. In the folder of a command is NAME.txt its input, NAME.out what it says,
standard error last, and NAME.status its status, where that isn't 0. It is called with the input's name, or with
the words of NAME.args, one a line. look is called with colours, which a pipe has only where they are asked for.

    python3 tools/tests/test_tables.py --store     writes .out and .status anew: read what `git diff` shows"""

import sys
import unittest
from pathlib import Path
from typing import Iterator

from commands_under_test import HERE, Ended, call

COMMANDS = ("look", "why", "lint")
MORE = {"look": ["--color", "always"]}


def cases() -> Iterator[Path]:
    """The inputs of all cases."""
    for command in COMMANDS:
        yield from sorted((HERE / command).glob("*.txt"))


def ended(case: Path) -> Ended:
    """Calls the command of a case."""
    arguments = case.with_suffix(".args")
    words = arguments.read_text().splitlines() if arguments.exists() else [case.name]
    return call(case.parent.name, [*MORE.get(case.parent.name, []), *words], case.parent)


def stored(case: Path) -> Ended:
    """What is stored of a case."""
    status = case.with_suffix(".status")
    return Ended(int(status.read_text()) if status.exists() else 0, case.with_suffix(".out").read_text("utf-8"))


def store(case: Path) -> None:
    """Stores what a command says of a case."""
    now = ended(case)
    case.with_suffix(".out").write_text(now.text, "utf-8")
    status = case.with_suffix(".status")
    if now.status:
        status.write_text(f"{now.status}\n")
    elif status.exists():
        status.unlink()


class Tables(unittest.TestCase):
    """Each case of the tables."""

    maxDiff = None

    def test_each_case(self) -> None:
        for case in cases():
            with self.subTest(f"{case.parent.name}/{case.stem}"):
                self.assertEqual(stored(case), ended(case))


if __name__ == "__main__":
    if sys.argv[1:] == ["--store"]:
        for one in cases():
            store(one)
    else:
        unittest.main()
