"""vnc: shows the cuts of a stream to VNC viewers."""

import argparse
import re
import sys
from typing import List

from . import FINE, Parser, write
from ..program import Trouble, read_bytes
from ..rfb import Server, Show, Timing
from ..stream_reader import Frame, Refused
from ..streams import frames_of

WHAT = """\
Shows the cuts of a stream, as `trestle mirror` writes it, to VNC viewers on this machine: by RFB 3.8 on 127.0.0.1,
without a password. Each viewer begins at the first cut. The next one follows after a second, or after --seconds; with
--keys only a key brings it. Space, Return, Right and Page Down go on; Backspace, Left and Page Up go back; Home and End
go to the first and the last cut. These keys always work. Ctrl-C ends the server."""

EXAMPLE = """\
./trestle --unproved mirror < demos/desktop.txt > desktop.stream
bin/vnc desktop.stream                          # and in another terminal: xtigervncviewer 127.0.0.1::5900
./trestle --unproved mirror < demos/desktop.txt | bin/vnc - --keys --port 5901
bin/vnc button.mirror                           # a stream that bin/snap has stored"""

GREATEST_SCALE = 32
# A window of about so many points is large enough to be seen.
WIDE = 640


def words() -> Parser:
    """The words that vnc takes."""
    taken = Parser("vnc", WHAT, EXAMPLE)
    taken.add_argument("file", metavar="STREAM", help="a stream; - is standard input")
    taken.add_argument("--port", type=int, default=5900, metavar="N", help="the port; 0 is a free one")
    taken.add_argument("--seconds", type=seconds, default=1.0, metavar="S", help="how long each cut is shown")
    taken.add_argument("--keys", action="store_true", help="only a key brings the next cut")
    taken.add_argument("--loop", action="store_true", help="the first cut follows the last one")
    taken.add_argument(
        "--scale",
        type=int,
        default=0,
        metavar="N",
        help=f"N by N points for each pixel, 1 to {GREATEST_SCALE}; without it a size that is easy to see",
    )
    return taken


def seconds(word: str) -> float:
    """The number behind --seconds."""
    if not re.fullmatch(r"[0-9]{1,6}(\.[0-9]{1,6})?", word) or not float(word):
        raise argparse.ArgumentTypeError(f"S is a number of seconds above 0, and not {word}")
    return float(word)


def main(arguments: List[str]) -> int:
    """Serves the stream until it is ended."""
    taken = words()
    asked = taken.parse_args(arguments)
    if not 0 <= asked.port < 65536:
        taken.error("--port is 0 to 65535")
    if not 0 <= asked.scale <= GREATEST_SCALE:
        taken.error(f"--scale is 1 to {GREATEST_SCALE}")
    frames = read_frames(asked.file)
    greatest = max(frame.width for frame in frames)
    scale = asked.scale or max(1, min(GREATEST_SCALE, WIDE // greatest))
    show = Show(f"{asked.file}, {len(frames)} cuts", frames, scale)
    try:
        server = Server(show, Timing(None if asked.keys else asked.seconds, asked.loop), asked.port)
    except OSError as error:
        raise Trouble(f"port {asked.port} cannot be used: {error.strerror}; --port names another one")
    write(f"vnc: {len(frames)} cuts at 127.0.0.1::{server.server_address[1]}")
    sys.stdout.flush()
    try:
        server.serve_forever()
    except KeyboardInterrupt:
        pass
    server.server_close()
    return FINE


def read_frames(name: str) -> List[Frame]:
    """The screens of a stream."""
    try:
        frames = list(frames_of(stream_in(read_bytes(name))))
    except Refused as refused:
        raise Trouble(f"{name} is refused: {refused}; docs/SCRIPT.md says what the codes mean")
    if not frames:
        raise Trouble(f"{name} has no cut: its script has no dump")
    return frames


def stream_in(data: bytes) -> bytes:
    """The stream in a file: its bytes, or those that `xxd` has printed, as bin/snap stores them."""
    lines = data.decode("latin-1").split("\n")
    if not all(re.fullmatch(r"[0-9a-f]{8}: [0-9a-f ]{39}  .{1,16}", line) for line in lines[:-1]) or lines[-1] or not data:
        return data
    return bytes.fromhex("".join(line[10:49] for line in lines[:-1]))
