#!/usr/bin/env python3
"""Reads a stream of `trestle mirror` as it arrives. A viewer in another language can begin with a copy of this file, which
needs no other one. docs/SCRIPT.md (Streams) explains the records and the codes of faults. As a program it prints what `show`
prints, each cut when it arrives, and so also the cuts before a fault:

    ./trestle --unproved mirror < demos/desktop.txt | tools/trestle_tools/stream_reader.py
"""

import sys
from typing import Iterable, Iterator, List, NamedTuple, Optional

SCREEN, RUN, FILL, CUT = 1, 2, 3, 4
HEADS = {SCREEN: 6, RUN: 7, FILL: 7, CUT: 5}  # the bytes of a record before its pixels
KINDS = (("mono", 1), ("map8", 255), ("map4", 15))  # by the byte K of a Screen; the greatest pixel of each
MOST_CUTS, MOST_SIDE, MOST_BYTES = 64, 1024, 75_497_472


class Refused(Exception):
    """The first fault of a stream: the place of its record, and the code."""

    def __init__(self, place: int, code: str):
        super().__init__(f"byte {place} {code}")


class Frame(NamedTuple):
    """The screen at a cut: its pixels row after row, a byte for each."""

    width: int
    height: int
    kind: str
    pixels: bytes

    def row(self, v: int) -> bytes:
        """A row."""
        return self.pixels[v * self.width : (v + 1) * self.width]

    def text(self) -> str:
        """What `show` prints for it: a line with its size and kind, then a line of hex digits for each row."""
        rows = [self.row(v).hex() + "\n" for v in range(self.height)]
        return f"dump {self.width} {self.height} {self.kind}\n" + "".join(rows)


def numbers_of(record: bytes) -> List[int]:
    """The numbers of two bytes each behind the first byte: W and H, or WEST, V and N."""
    return [int.from_bytes(record[at : at + 2], "big") for at in (1, 3, 5)]


class Reader:
    """What was read so far."""

    def __init__(self) -> None:
        self.rest = bytearray()  # the front of a record that isn't whole yet,
        self.place = 0  # and where that record begins
        self.width = self.height = self.kind = 0
        self.pixels = bytearray()  # empty until the first Screen
        self.cuts = 0
        self.is_between = True  # whether no group has begun that has no Cut yet
        self.least_row = 0  # the least row that may come next in this group

    def frames(self, pieces: Iterable[bytes]) -> Iterator[Frame]:
        """The screen of each cut, as soon as its last byte is there. The pieces together are the whole stream. A fault raises
        Refused, after the cuts before it."""
        for piece in pieces:
            if self.place + len(self.rest) + len(piece) > MOST_BYTES:
                raise Refused(0, "M5")
            self.rest += piece
            while self.rest:
                record = self.next_record()
                if not record:
                    break
                self.put(record)
                if record[0] == CUT:
                    yield Frame(self.width, self.height, KINDS[self.kind][0], bytes(self.pixels))
        if self.rest or not self.is_between:
            raise Refused(self.place, "M4")

    def next_record(self) -> Optional[bytes]:
        """The next record, if it is whole. A fault is raised as soon as it shows."""
        length = HEADS.get(self.rest[0])
        if not length:
            raise Refused(self.place, "M1")
        if len(self.rest) < length:
            return None
        code = self.fault_of(bytes(self.rest[:length]))
        if code:
            raise Refused(self.place, code)
        count = {RUN: int.from_bytes(self.rest[5:7], "big"), FILL: 1}.get(self.rest[0], 0)
        record = bytes(self.rest[: length + count])
        if len(record) < length + count:
            return None
        if count and max(record[length:]) > KINDS[self.kind][1]:
            raise Refused(self.place, "M2")
        return record

    def fault_of(self, head: bytes) -> Optional[str]:
        """The code of the fault that a whole header shows: first M5, then M3, then M2."""
        first, second, third = numbers_of(head)
        if self.cuts == MOST_CUTS:
            return "M5"
        if head[0] == SCREEN:
            is_placed = self.is_between
            is_in_range = 1 <= first <= MOST_SIDE and 1 <= second <= MOST_SIDE and head[5] < len(KINDS)
        elif head[0] == CUT:
            is_placed = bool(self.pixels) and int.from_bytes(head[1:5], "big") == self.cuts + 1
            is_in_range = True
        else:
            is_placed = bool(self.pixels) and second >= self.least_row
            is_in_range = second < self.height and third > 0 and first + third <= self.width
        return "M3" if not is_placed else None if is_in_range else "M2"

    def put(self, record: bytes) -> None:
        """Does what a record says, and goes on to the next one."""
        first, second, third = numbers_of(record)
        if record[0] == SCREEN:
            self.width, self.height, self.kind, self.pixels = first, second, record[5], bytearray(first * second)
        elif record[0] == CUT:
            self.cuts += 1
        else:
            begin = second * self.width + first
            self.pixels[begin : begin + third] = record[7:] if record[0] == RUN else record[7:] * third
        self.is_between = record[0] == CUT
        self.least_row = second + 1 if record[0] in (RUN, FILL) else 0
        self.place += len(record)
        del self.rest[: len(record)]


def main() -> int:
    """Prints each cut of standard input when it arrives."""
    try:
        for frame in Reader().frames(iter(lambda: sys.stdin.buffer.read1(65536), b"")):
            print(frame.text(), end="", flush=True)
    except Refused as refused:
        print(f"refused: {refused}", flush=True)
        return 3
    return 0


if __name__ == "__main__":
    sys.exit(main())
