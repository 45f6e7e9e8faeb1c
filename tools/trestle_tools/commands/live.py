"""live: records a script in a browser."""

import sys
from pathlib import Path
from typing import List

from . import FINE, Parser, write
from ..program import Trouble
from ..recordings import Recording, Refusal
from ..serving import Server

WHAT = """\
Shows a script in a browser on this machine, step by step as bin/trace does, and records your clicks, moves and keys on
the picture as lines of the script. You can type other lines. Sessions with trestle-session play each line; where that
program isn't there, and after Undo or a line of the opening, the whole script is played again. Save writes FILE, the
only file that is ever written; bin/snap --update FILE stores its output.

If FILE doesn't exist, the script begins with a desk and a canvas. The server listens on 127.0.0.1 alone, and its
address has a random token. Ctrl-C ends it."""

EXAMPLE = """\
bin/live button.txt
bin/live button.txt --port 8000"""


def words() -> Parser:
    """The words that live takes."""
    taken = Parser("live", WHAT, EXAMPLE)
    taken.add_argument("file", metavar="FILE", help="a script; it need not exist yet")
    taken.add_argument("--port", type=int, default=0, metavar="N", help="the port; without it a free one")
    return taken


def main(arguments: List[str]) -> int:
    """Serves the page until it is ended."""
    taken = words()
    asked = taken.parse_args(arguments)
    if not 0 <= asked.port < 65536:
        taken.error("N is 0 to 65535")
    if asked.file == "-":
        taken.error("FILE is the name of a file: live writes it")
    recording = begun(Path(asked.file))
    try:
        server = Server(recording, asked.port)
    except OSError as error:
        raise Trouble(f"port {asked.port} cannot be used: {error.strerror}")
    write(f"live: {asked.file} at {server.address()}")
    if recording.is_new:
        write(f"live: {asked.file} does not exist yet: the script begins with a desk and a canvas, and Save writes it")
    sys.stdout.flush()
    try:
        server.serve_forever()
    except KeyboardInterrupt:
        pass
    server.server_close()
    recording.close()
    if not recording.is_stored() and recording.before:
        print(f"live: the lines after the last Save are not in {asked.file}", file=sys.stderr)
    return FINE


def begun(path: Path) -> Recording:
    """The recording of a file."""
    try:
        return Recording(path)
    except Refusal as refusal:
        raise Trouble("\n".join(refusal.says))
