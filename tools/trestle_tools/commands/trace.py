"""trace: writes a page on which a script is seen step by step."""

import sys
import time
from pathlib import Path
from typing import List

from . import FINE, FOUND, Parser, write
from ..comparison import plural
from ..include import pack
from ..pages import page
from ..program import Trouble
from ..traces import Asked, Trace, is_script, pairs_of, trace_of_output, trace_of_script

WHAT = """\
Plays a script and writes one self-contained page of HTML. The page shows each step with its answer, the events that
it sent, the screen after it with the changed points marked, the inboxes, and how many points are bad or stale and how
many commands wait. Arrow keys and a slider move from step to step. A click on the picture names the window, the point
within it, and the line that put the window there.

Two scripts or two outputs appear side by side, from the first difference on; if they differ the status is 1. If a
script is too long for a page, only every k-th step has a picture, and the command says so."""

EXAMPLE = """\
bin/trace button.txt -o button.html
bin/trace before.txt after.txt -o both.html
bin/trace button.serial today.serial -o both.html"""


def words() -> Parser:
    """The words that trace takes."""
    taken = Parser("trace", WHAT, EXAMPLE)
    taken.add_argument("files", nargs="+", metavar="FILE", help="a script or an output, or two of them")
    taken.add_argument("-o", dest="into", metavar="PAGE", required=True, help="the page to write, NAME.html")
    taken.add_argument("--every", type=int, default=0, metavar="K", help="a picture after each K-th step")
    return taken


def main(arguments: List[str]) -> int:
    """Writes the page."""
    taken = words()
    asked = taken.parse_args(arguments)
    if len(asked.files) > 2:
        taken.error("one FILE or two are shown")
    if asked.every < 0:
        taken.error("K is 1 or more")
    if Path(asked.into).suffix not in (".html", ".htm"):
        taken.error(f"-o takes NAME.html, and not {asked.into}")
    progress = Progress()
    how = Asked(asked.every, len(asked.files) > 1, progress.tell)
    traces: List[Trace] = []
    for name in asked.files:
        traces.append(trace_of(name, how._replace(beside=traces[0] if traces else None)))
    pairs = pairs_of(*traces) if len(traces) == 2 else []
    progress.tell("the page")
    write_page(asked.into, page(traces, pairs))
    progress.end()
    for trace in traces:
        for note in trace.notes:
            write(f"{trace.name}: {note}")
    differing = sum(bool(pair.differs) for pair in pairs)
    if pairs:
        write(f"{asked.into}: {plural(differing, 'difference')}" if differing else f"{asked.into}: nothing differs")
    return FOUND if differing else FINE


def trace_of(name: str, how: Asked) -> Trace:
    """The trace of a script or an output."""
    packed = pack(name)
    if is_script(packed.script):
        return trace_of_script(packed, how)
    return trace_of_output(name, packed.script.decode("latin-1"))


def write_page(name: str, text: str) -> None:
    """Writes the page."""
    try:
        Path(name).write_text(text, "utf-8")
    except OSError as error:
        raise Trouble(f"{name} cannot be written: {error.strerror}")


class Progress:
    """Tells the progress on standard error: in one line of a terminal, otherwise every five seconds."""

    def __init__(self) -> None:
        self.is_terminal = sys.stderr.isatty()
        self.told = time.monotonic()

    def tell(self, what: str) -> None:
        """Tells the present piece of work."""
        if self.is_terminal:
            sys.stderr.write(f"\r\033[Ktrace: {what}")
        elif time.monotonic() > self.told + 5:
            sys.stderr.write(f"trace: {what}\n")
            self.told = time.monotonic()
        sys.stderr.flush()

    def end(self) -> None:
        """Takes the line away."""
        if self.is_terminal:
            sys.stderr.write("\r\033[K")
            sys.stderr.flush()
