"""Serves the cuts of a stream to VNC viewers on the same machine, by RFB 3.8 (RFC 6143), and 3.7 and 3.3.

Each viewer sees the cuts from the first one on. What it sends can end its own connection, and nothing else."""

import re
import select
import socket
import socketserver
import struct
import threading
import time
from typing import Any, Callable, Dict, Iterator, List, NamedTuple, Optional, Tuple

from .outputs import Dump
from .pictures import UNMARKED, palette, picture_of
from .stream_reader import Frame
from .streams import dump_of, span_of

# So many seconds the rest of a message may take, so many bytes a text may have, and so many viewers there may be.
PATIENCE = 20.0
MOST_TEXT = 1 << 20
AT_ONCE = 16
NONE, FAILED = 1, 1

SPACE, BACKSPACE, RETURN, HOME, LEFT, RIGHT, PAGE_UP, PAGE_DOWN, END = (
    0x20, 0xFF08, 0xFF0D, 0xFF50, 0xFF51, 0xFF53, 0xFF55, 0xFF56, 0xFF57,
)  # fmt: skip
STEPS = {SPACE: 1, RETURN: 1, RIGHT: 1, PAGE_DOWN: 1, BACKSPACE: -1, LEFT: -1, PAGE_UP: -1}


class Broken(Exception):
    """Why a connection is ended."""


class Area(NamedTuple):
    """A rectangle of the viewer's screen."""

    west: int
    north: int
    width: int
    height: int


class Format(NamedTuple):
    """How a viewer wants its pixels."""

    bits: int
    depth: int
    is_big: int
    is_true: int
    maxima: Tuple[int, int, int]
    shifts: Tuple[int, int, int]

    def data(self) -> bytes:
        """The sixteen bytes of a message."""
        return struct.pack(">BBBBHHHBBB3x", self.bits, self.depth, self.is_big, self.is_true, *self.maxima, *self.shifts)

    def planes(self) -> List[bytes]:
        """For each byte of a pixel a table of what it is, by the 256 colours."""
        size = self.bits // 8
        pixels = [self.pixel(number, colour) for number, colour in enumerate(palette())]
        made = [pixel.to_bytes(size, "big" if self.is_big else "little") for pixel in pixels]
        return [bytes(pixel[place] for pixel in made) for place in range(size)]

    def pixel(self, number: int, colour: bytes) -> int:
        """A colour as a pixel: by its parts, or by its number in a colour map."""
        if not self.is_true:
            return number
        parts = (
            (part * most + 127) // 255 << shift for part, most, shift in zip(colour, self.maxima, self.shifts)
        )
        return sum(parts) & ((1 << self.bits) - 1)


def both(one: Area, other: Area) -> Area:
    """The least area that has two others."""
    west, north = min(one.west, other.west), min(one.north, other.north)
    east = max(one.west + one.width, other.west + other.width)
    south = max(one.north + one.height, other.north + other.height)
    return Area(west, north, east - west, south - north)


OURS = Format(32, 24, 0, 1, (255, 255, 255), (16, 8, 0))


def format_of(data: bytes) -> Format:
    """The format of a message."""
    bits, depth, is_big, is_true, *rest = struct.unpack(">BBBBHHHBBB3x", data)
    wanted = Format(bits, depth, is_big, is_true, tuple(rest[:3]), tuple(rest[3:]))
    if bits not in (8, 16, 32):
        raise Broken(f"pixels of {bits} bits")
    if is_true and (max(wanted.shifts) >= bits or sum(wanted.maxima) == 0):
        raise Broken("colours outside of a pixel")
    if not is_true and bits != 8:
        raise Broken("a colour map for pixels that aren't of 8 bits")
    return wanted


# ---- The cuts


class Show:
    """The cuts of a stream in 256 colours. All have the greatest size; smaller ones lie on ground."""

    def __init__(self, name: str, frames: List[Frame], scale: int):
        self.name = name
        self.scale = scale
        self.width = max(frame.width for frame in frames)
        self.height = max(frame.height for frame in frames)
        self.cuts = [self.rows(dump_of(frame)) for frame in frames]

    def rows(self, dump: Dump) -> List[bytes]:
        """The rows of a cut."""
        ground = bytes([UNMARKED])
        rows = [row + ground * (self.width - dump.width) for row in picture_of(dump).rows]
        return rows + [ground * self.width] * (self.height - dump.height)

    def whole(self) -> Area:
        """The viewer's screen."""
        return Area(0, 0, self.width * self.scale, self.height * self.scale)


class Timing(NamedTuple):
    """When the next cut is shown: after so many seconds, or by a key alone; behind the last one the first, or none."""

    seconds: Optional[float]
    is_loop: bool = False


# ---- A viewer


class Viewer:
    """One connection."""

    def __init__(self, connection: socket.socket, show: Show, timing: Timing):
        self.connection = connection
        self.show = show
        self.timing = timing
        self.cut = 0
        self.format = OURS
        self.planes = OURS.planes()
        # The colours that the viewer has; -1 before it has any.
        self.has: List[List[int]] = [[-1] * show.width for _ in range(show.height)]
        # The area of the waiting requests for changes.
        self.asked: Optional[Area] = None
        self.next = time.monotonic()

    def run(self) -> None:
        """Greets, and then shows the cuts until the viewer goes."""
        self.connection.settimeout(PATIENCE)
        self.greet()
        self.next = time.monotonic() + (self.timing.seconds or 0)
        while True:
            if select.select([self.connection], [], [], self.rest())[0]:
                if not self.take():
                    return
            if self.timing.seconds is not None and time.monotonic() >= self.next:
                self.step(1)
            self.update()

    def rest(self) -> Optional[float]:
        """How long nothing is to be done, if nothing comes."""
        if self.timing.seconds is None or (self.cut == len(self.show.cuts) - 1 and not self.timing.is_loop):
            return None
        return max(0.0, self.next - time.monotonic())

    def step(self, by: int) -> None:
        """Goes some cuts on or back."""
        cut, count = self.cut + by, len(self.show.cuts)
        self.cut = cut % count if self.timing.is_loop else min(count - 1, max(0, cut))
        self.next = time.monotonic() + (self.timing.seconds or 0)

    def read(self, count: int) -> bytes:
        """Reads so many bytes."""
        data = b""
        while len(data) < count:
            piece = self.connection.recv(count - len(data))
            if not piece:
                raise Broken("the viewer went")
            data += piece
        return data

    # ---- The greeting

    def greet(self) -> None:
        """Agrees on a version, needs no password, and says what the screen is."""
        self.connection.sendall(b"RFB 003.008\n")
        version = re.fullmatch(rb"RFB 003\.([0-9]{3})\n", self.read(12))
        if not version:
            raise Broken("no version of RFB 3")
        minor = int(version[1])
        if minor < 7:
            self.connection.sendall(struct.pack(">I", NONE))
        else:
            self.connection.sendall(bytes([1, NONE]))
            self.agree(self.read(1)[0], minor)
        self.read(1)
        whole, name = self.show.whole(), self.show.name.encode("utf-8", "replace")
        head = struct.pack(">HH", whole.width, whole.height) + OURS.data() + struct.pack(">I", len(name))
        self.connection.sendall(head + name)

    def agree(self, chosen: int, minor: int) -> None:
        """Tells whether the chosen security is ours; before version 3.8 nothing is told."""
        if chosen != NONE:
            reason = b"there is no such security"
            if minor >= 8:
                self.connection.sendall(struct.pack(">II", FAILED, len(reason)) + reason)
            raise Broken(reason.decode())
        if minor >= 8:
            self.connection.sendall(struct.pack(">I", 0))

    # ---- Messages

    def take(self) -> bool:
        """Takes a message; False where the viewer went instead."""
        first = self.connection.recv(1)
        if not first:
            return False
        takers: Dict[int, Callable[[], None]] = {
            0: self.take_format, 2: self.take_encodings, 3: self.take_request, 4: self.take_key, 5: self.take_pointer, 6: self.take_text,
        }  # fmt: skip
        if first[0] not in takers:
            raise Broken(f"a message {first[0]}")
        takers[first[0]]()
        return True

    def take_format(self) -> None:
        """Another format of pixels. For a colour map the colours are sent."""
        self.format = format_of(self.read(19)[3:])
        self.planes = self.format.planes()
        if not self.format.is_true:
            entries = b"".join(struct.pack(">HHH", *(257 * part for part in colour)) for colour in palette())
            self.connection.sendall(struct.pack(">BxHH", 1, 0, 256) + entries)

    def take_encodings(self) -> None:
        """The encodings that the viewer knows: all know Raw, which is the one that is sent."""
        self.read(4 * struct.unpack(">xH", self.read(3))[0])

    def take_request(self) -> None:
        """A request for an area, or for the changes in it."""
        is_changed, west, north, width, height = struct.unpack(">BHHHH", self.read(9))
        whole = self.show.whole()
        west, north = min(west, whole.width), min(north, whole.height)
        area = Area(west, north, min(width, whole.width - west), min(height, whole.height - north))
        if not is_changed:
            self.send([area] if area.width and area.height else [])
        elif area.width and area.height:
            self.asked = both(self.asked, area) if self.asked else area

    def take_key(self) -> None:
        """A key goes to another cut."""
        is_down, key = struct.unpack(">BxxI", self.read(7))
        if is_down and key in STEPS:
            self.step(STEPS[key])
        elif is_down and key in (HOME, END):
            self.step((0 if key == HOME else len(self.show.cuts) - 1) - self.cut)

    def take_pointer(self) -> None:
        """The mouse does nothing."""
        self.read(5)

    def take_text(self) -> None:
        """A text that was cut does nothing."""
        length = struct.unpack(">xxxI", self.read(7))[0]
        if length > MOST_TEXT:
            raise Broken(f"a text of {length} bytes")
        self.read(length)

    # ---- Updates

    def update(self) -> None:
        """Answers the waiting requests for changes, once there are any."""
        areas = list(self.changed(self.asked)) if self.asked else []
        if areas:
            self.asked = None
            self.send(areas)

    def send(self, areas: List[Area]) -> None:
        """Sends the present pixels of some areas."""
        self.connection.sendall(struct.pack(">BxH", 0, len(areas)))
        for one in areas:
            self.connection.sendall(struct.pack(">HHHHi", *one, 0) + self.pixels(one))
            self.note(one)

    def cells(self, area: Area) -> Tuple[range, range]:
        """The columns and rows of points that an area touches."""
        scale = self.show.scale
        return (
            range(area.west // scale, -(-(area.west + area.width) // scale)),
            range(area.north // scale, -(-(area.north + area.height) // scale)),
        )

    def changed(self, area: Area) -> Iterator[Area]:
        """Rectangles that hold all points of an area that changed."""
        columns, rows = self.cells(area)
        now = self.show.cuts[self.cut]
        found: List[List[int]] = []
        for v in rows:
            span = span_of(self.has[v][columns.start : columns.stop], list(now[v][columns.start : columns.stop]))
            if not span:
                continue
            west, east = columns.start + span[0], columns.start + span[1]
            last = found[-1] if found else None
            if last and last[3] == v and west <= last[1] and last[0] <= east:
                last[:] = [min(last[0], west), max(last[1], east), last[2], v + 1]
            else:
                found.append([west, east, v, v + 1])
        for west, east, north, south in found:
            yield self.clipped(area, west, east, north, south)

    def clipped(self, area: Area, west: int, east: int, north: int, south: int) -> Area:
        """The part of an area that these points have."""
        scale = self.show.scale
        left, top = max(area.west, west * scale), max(area.north, north * scale)
        right, bottom = min(area.west + area.width, east * scale), min(area.north + area.height, south * scale)
        return Area(left, top, right - left, bottom - top)

    def pixels(self, area: Area) -> bytes:
        """The pixels of an area, row after row, as the viewer wants them."""
        columns, rows = self.cells(area)
        scale = self.show.scale
        begin, pieces = area.west - columns.start * scale, []
        for v in rows:
            row = spread(self.show.cuts[self.cut][v][columns.start : columns.stop], scale)[begin : begin + area.width]
            times = min((v + 1) * scale, area.north + area.height) - max(v * scale, area.north)
            pieces.append(encoded(row, self.planes) * times)
        return b"".join(pieces)

    def note(self, area: Area) -> None:
        """Notes that the viewer has an area. Points that it has in part are sent again."""
        scale = self.show.scale
        first, last = -(-area.west // scale), (area.west + area.width) // scale
        for v in range(-(-area.north // scale), (area.north + area.height) // scale):
            if first < last:
                self.has[v][first:last] = self.show.cuts[self.cut][v][first:last]


def spread(row: bytes, scale: int) -> bytes:
    """A row with so many points in place of each."""
    if scale == 1:
        return row
    wide = bytearray(len(row) * scale)
    for place in range(scale):
        wide[place::scale] = row
    return bytes(wide)


def encoded(row: bytes, planes: List[bytes]) -> bytes:
    """A row of colours as pixels. Each byte of a pixel has a table."""
    made = bytearray(len(row) * len(planes))
    for place, plane in enumerate(planes):
        made[place :: len(planes)] = row.translate(plane)
    return bytes(made)


# ---- The server


class Server(socketserver.ThreadingTCPServer):
    """Serves viewers on the loopback alone."""

    daemon_threads = True
    allow_reuse_address = True

    def __init__(self, show: Show, timing: Timing, port: int):
        super().__init__(("127.0.0.1", port), Handler)
        self.show = show
        self.timing = timing
        self.room = threading.BoundedSemaphore(AT_ONCE)

    def process_request(self, request: Any, client_address: Any) -> None:
        """Serves a viewer in a thread of its own, as long as there are few."""
        if not self.room.acquire(blocking=False):
            self.shutdown_request(request)
            return
        super().process_request(request, client_address)

    def process_request_thread(self, request: Any, client_address: Any) -> None:
        """Serves a viewer."""
        try:
            super().process_request_thread(request, client_address)
        finally:
            self.room.release()


class Handler(socketserver.BaseRequestHandler):
    """Serves one viewer to its end."""

    server: Server

    def handle(self) -> None:
        """Whatever goes wrong ends this connection alone."""
        try:
            Viewer(self.request, self.server.show, self.server.timing).run()
        except (Broken, OSError, struct.error):
            pass
