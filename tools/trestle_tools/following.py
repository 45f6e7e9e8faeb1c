"""Follows a script as it grows: sessions have played its lines so far, and play each new one (docs/SESSION.md).

Three sessions play each step. The first has the script's lines alone, so that its answers and its journal are those of the
script. The second has a `peek` behind each line, for how far the screen lags. The third has a `dump` and a cut behind each
step, for the pictures: a dump has the painter bring the screen up to date, which would change what a `peek` says."""

import zlib
from typing import List

from .grammar import REPORTS
from .instruments import is_step
from .outputs import PEEK, Entry
from .scripts import Line
from .session import Session
from .streams import stream_of
from .traces import Chunk, Moment, Places, Teller, Trace, add_place, is_edit, reports_of


class Follower:
    """What has played the lines of a trace, and plays the next ones."""

    def __init__(self, trace: Trace, lines: List[Line]):
        self.script, self.peeking, self.painting = self.sessions = [Session(), Session(), Session()]
        begin = trace.moments[0].line
        self.teller = Teller(lines[:begin])
        self.places = Places(self.teller.windows, trace.places[max(trace.places)])
        for session in self.sessions:
            for line in lines[:begin]:
                session.send(line.text)
        for line in lines[begin:]:
            said = self.play(line)
            if is_made(line):
                self.teller.step(line, entry_of(line, said))

    def close(self) -> None:
        """Ends the sessions."""
        for session in self.sessions:
            session.close()

    def play(self, line: Line) -> str:
        """Has the sessions play a line, and returns its answer. If the first one refuses it, the others don't get it."""
        said = self.script.ask(line.text).decode("latin-1")
        if is_made(line) or line.text == "dump":
            self.peeking.ask(line.text)
        if is_made(line):
            self.painting.ask(line.text)
        return said

    def add(self, trace: Trace, line: Line) -> None:
        """Has a line played, and adds to the trace what it shows."""
        said = self.play(line)
        if is_made(line):
            moment = self.step(trace, line, said)
        elif line.texts()[0] in REPORTS:
            moment = self.teller.report(line, next(reports_of(said)))
        else:
            return
        trace.numbers[len(trace.moments)] = tuple(map(int, PEEK.fullmatch(self.peeking.send("peek")[0]).groups()))
        trace.moments.append(moment)

    def step(self, trace: Trace, line: Line, said: str) -> Moment:
        """Adds the picture and the places after a step."""
        entry = entry_of(line, said)
        moment = self.teller.step(line, entry)
        self.painting.ask("dump")
        picture = stream_of([self.painting.screen()])
        trace.chunks.append(Chunk((moment.count,), zlib.compress(picture, 9)))
        if is_edit(entry, line.texts()):
            self.places.find(line.number)
            add_place(trace, moment.count, self.places.placed())
        return moment


def is_made(line: Line) -> bool:
    """Whether a line behind `begin` is a step."""
    return not line.is_empty() and is_step(line)


def entry_of(line: Line, said: str) -> Entry:
    """A step's entry in the journal, but its number, from the answer of a session."""
    actor = line.texts()[0]
    answer, *events = said.splitlines()
    return Entry(0, f"leaf:{actor[1:]}" if actor.startswith("@") else "desk", line.text, answer, tuple(events))
