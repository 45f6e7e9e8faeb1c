"""Writes streams, and turns their screens into dumps and back; stream_reader.py reads them."""

import struct
from typing import Iterator, List, Optional, Sequence, Tuple

from .outputs import Dump
from .stream_reader import CUT, FILL, KINDS, RUN, SCREEN, Frame, Reader

KIND_NAMES = [name for name, _ in KINDS]


def dump_of(frame: Frame) -> Dump:
    """The dump that has a screen."""
    return Dump(0, frame.width, frame.height, frame.kind, tuple(frame.row(v) for v in range(frame.height)))


def frame_of(dump: Dump) -> Frame:
    """The screen of a dump."""
    return Frame(dump.width, dump.height, dump.kind, b"".join(dump.rows))


def frames_of(stream: bytes) -> Iterator[Frame]:
    """The screen of each cut of a stream."""
    return Reader().frames([stream])


def stream_of(frames: List[Frame]) -> bytes:
    """A stream with a cut for each screen."""
    pieces: List[bytes] = []
    before: Optional[Frame] = None
    for number, frame in enumerate(frames, 1):
        if not before or before[:3] != frame[:3]:
            pieces.append(struct.pack(">BHHB", SCREEN, frame.width, frame.height, KIND_NAMES.index(frame.kind)))
            before = frame._replace(pixels=bytes(frame.width * frame.height))
        pieces.extend(changed_rows(before, frame))
        pieces.append(struct.pack(">BI", CUT, number))
        before = frame
    return b"".join(pieces)


def changed_rows(before: Frame, frame: Frame) -> Iterator[bytes]:
    """A record for each row in which two screens of one size differ."""
    for v in range(frame.height):
        old, new = before.row(v), frame.row(v)
        span = span_of(old, new)
        if not span:
            continue
        pixels = new[span[0] : span[1]]
        is_fill = pixels.count(pixels[0]) == len(pixels)
        head = struct.pack(">BHHH", FILL if is_fill else RUN, span[0], v, len(pixels))
        yield head + (pixels[:1] if is_fill else pixels)


def span_of(old: Sequence[int], new: Sequence[int]) -> Optional[Tuple[int, int]]:
    """The least span that has all places in which two rows of one length differ."""
    if old == new:
        return None
    places = [h for h in range(len(new)) if old[h] != new[h]]
    return places[0], places[-1] + 1
