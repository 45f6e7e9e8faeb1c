#!/usr/bin/env python3
"""A slow model of a session: for each line it plays the whole saved script by `serial`. A test compares its answers with
those of trestle-session. As a program it answers the lines of standard input."""

import sys
from pathlib import Path
from typing import List, Optional, Tuple

sys.path.insert(0, str(Path(__file__).resolve().parents[1]))

from trestle_tools.outputs import entries_of  # noqa: E402
from trestle_tools.program import REFUSED, play  # noqa: E402

REPORTS = ("dump", "peek", "journal", "where", "inbox")


class Model:
    """The lines so far, and the place of the next one."""

    def __init__(self):
        self.lines: List[str] = []
        self.has_begun = self.has_ended = self.is_behind_step = False
        self.cuts = 0

    def answer(self, line: str) -> str:
        """The answer to a line, as text; of a cut only its first word."""
        if line == "!quit":
            return "ok 0\n"
        if line in ("!save", "!cut"):
            if not self.has_begun:
                return "refused B5\n"
            return "bytes\n" if line == "!cut" else told("".join(text + "\n" for text in self.saved()))
        more = [line]
        if self.is_behind_step and line.split(" ")[0] in REPORTS + ("end",):
            more = ["sync", line]
        code, output = self.tried(more)
        if code:
            return f"refused {code}\n"
        before, self.lines = self.lines, self.lines + more
        return told(self.text_of(line, output, before))

    def saved(self) -> List[str]:
        """The script so far."""
        if self.has_ended:
            return self.lines
        return self.lines + (["sync"] if self.is_behind_step else []) + ["end"]

    def tried(self, more: List[str]) -> Tuple[Optional[str], str]:
        """The first fault of these lines after those so far, if there is one, and the text of `serial`."""
        script = self.lines + more
        if self.has_begun and not self.has_ended and more[-1] != "end":
            word = more[-1].split(" ")[0]
            script = script + (["end"] if word in REPORTS else ["journal", "end"] if word == "sync" else ["sync", "journal", "end"])
        played = play("".join(text + "\n" for text in script).encode("latin-1"))
        if played.status != REFUSED:
            return None, played.text()
        _, _, number, code = played.text().split()
        return (code if int(number) <= len(self.lines) + len(more) else None), ""

    def text_of(self, line: str, output: str, before: List[str]) -> str:
        """The answer to a line that was taken, without its first line."""
        word = line.split(" ")[0]
        if not self.has_begun:
            self.has_begun = word == "begin"
            return ""
        if line[:1] in ("", "#") or self.has_ended:
            return ""
        if word == "end":
            self.has_ended = True
            return ""
        self.is_behind_step = word not in REPORTS + ("sync",)
        if word in REPORTS:
            earlier = play("".join(text + "\n" for text in before + ["sync", "end"]).encode("latin-1"))
            return output[len(earlier.text()) :]
        [entry] = entries_of([output.splitlines()[-1 if word == "sync" else -2]])
        return "".join(part + "\n" for part in (entry.answer, *entry.events))


def told(text: str) -> str:
    """An answer of lines."""
    return f"ok {text.count(chr(10))}\n{text}"


def main() -> None:
    """Answers line by line."""
    model = Model()
    for line in sys.stdin:
        sys.stdout.write(model.answer(line.rstrip("\n")))
        sys.stdout.flush()
        if line == "!quit\n":
            break


if __name__ == "__main__":
    main()
