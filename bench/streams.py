#!/usr/bin/env python3
"""Tries `show` on streams that are drawn at random, cut, changed and joined, and on streams at their limits, against
the plain reader of tools/trestle_tools/stream_reader.py, and compares what is written, and the status. The reader gets
each stream whole, and once more in pieces of 1 to 1,000 bytes.

    bench/streams.py [COUNT] [PROGRAM]

COUNT is 20,000 if left out. PROGRAM is a built trestle; where it is left out, it is .build/trestle."""

import random
import subprocess
import sys
from pathlib import Path
from typing import Iterable, Iterator, List, Tuple

TOP = Path(__file__).resolve().parents[1]
sys.path.insert(0, str(TOP / "tools"))

from trestle_tools.stream_reader import KINDS, MOST_BYTES, MOST_CUTS, Reader, Refused  # noqa: E402


def plain(pieces: Iterable[bytes]) -> Tuple[int, bytes]:
    """The status and the text of `show` for a stream, by the plain reader."""
    try:
        return 0, b"".join(frame.text().encode() for frame in Reader().frames(pieces))
    except Refused as refused:
        return 3, f"refused: {refused}\n".encode()


def pieces_of(numbers: random.Random, stream: bytes) -> Iterator[bytes]:
    """A stream in pieces of at least 1 and at most 1,000 bytes. All of those of one stream are long, or all are short."""
    most, at = numbers.choice((1, 2, 8, 60, 1000)), 0
    while at < len(stream):
        size = numbers.randint(1, most)
        yield stream[at : at + size]
        at += size


def drawn(numbers: random.Random) -> List[bytes]:
    """The records of a stream without a fault."""
    out, kind, wide, high = [], 0, 0, 0
    for number in range(1, numbers.randint(1, 5) + 1):
        if number == 1 or numbers.random() < 0.3:
            wide, high, kind = numbers.randint(1, 9), numbers.randint(1, 6), numbers.randrange(3)
            out.append(b"\1" + wide.to_bytes(2, "big") + high.to_bytes(2, "big") + bytes([kind]))
        out += [row(numbers, v, wide, KINDS[kind][1]) for v in range(high) if numbers.random() < 0.5]
        out.append(b"\4" + number.to_bytes(4, "big"))
    return out


def row(numbers: random.Random, v: int, wide: int, greatest: int) -> bytes:
    """A Run or a Fill."""
    west = numbers.randrange(wide)
    count = numbers.randint(1, wide - west)
    head = b"".join(it.to_bytes(2, "big") for it in (west, v, count))
    if numbers.random() < 0.5:
        return b"\3" + head + bytes([numbers.randint(0, greatest)])
    return b"\2" + head + bytes(numbers.randint(0, greatest) for _ in range(count))


def spoiled(numbers: random.Random, records: List[bytes]) -> bytes:
    """A stream that is cut, changed, joined to another one, or lacks a record or has one twice, or is left as it is."""
    way, which = numbers.randrange(7), numbers.randrange(len(records))
    if way == 0:
        return b"".join(records[:which] + records[which + 1 :])
    if way == 1:
        return b"".join(records[: which + 1] + records[which:])
    stream = b"".join(records)
    at = numbers.randrange(len(stream))
    if way == 2:
        return stream[:at]
    if way == 3:
        byte = numbers.choice((0, 1, 2, 3, 4, 5, 16, 255, numbers.randrange(256)))
        return stream[:at] + bytes([byte]) + stream[at + 1 :]
    if way == 4:
        return stream[:at] + stream[at + 1 :]
    if way == 5:
        return stream + b"".join(drawn(numbers))
    return stream


def limits() -> List[bytes]:
    """64 cuts and 65; the longest sides of a screen, and longer ones; at last as many bytes as a stream may have, and one more."""
    pixel = b"\1\0\1\0\1\0"
    sizes = [it.to_bytes(2, "big") + b"\0\1" for it in (1024, 1025)] + [b"\0\1" + it.to_bytes(2, "big") for it in (1024, 1025)]
    cuts = [b"\4" + number.to_bytes(4, "big") for number in range(1, MOST_CUTS + 2)]
    groups = [pixel + b"".join(cuts[:MOST_CUTS]), pixel + b"".join(cuts)]
    sides = [b"\1" + size + b"\1" + cuts[0] for size in sizes]
    return [*groups, *sides, groups[0] + bytes([1]) * (MOST_BYTES - len(groups[0])), bytes([1]) * (MOST_BYTES + 1)]


def differs(program: str, stream: bytes, numbers: random.Random) -> bool:
    """Whether the program, or the plain reader by pieces, reads something else than the plain reader of the whole."""
    want = plain([stream])
    ran = subprocess.run([program, "show"], input=stream, stdout=subprocess.PIPE, check=False)
    is_long = len(stream) > MOST_BYTES  # (by pieces a fault, or a cut, comes before the limit)
    return (ran.returncode, ran.stdout) != want or not is_long and plain(pieces_of(numbers, stream)) != want


def main() -> int:
    """Tries them all."""
    count = int(sys.argv[1]) if len(sys.argv) > 1 else 20_000
    program = sys.argv[2] if len(sys.argv) > 2 else str(TOP / ".build/trestle")
    numbers, sizes, wrong = random.Random(1), random.Random(2), 0
    codes = dict.fromkeys(("fine", "M1", "M2", "M3", "M4", "M5"), 0)
    for stream in [*limits(), *(spoiled(numbers, drawn(numbers)) for _ in range(count))]:
        status, text = plain([stream])
        codes[text.decode().split()[-1] if status else "fine"] += 1
        if differs(program, stream, sizes):
            wrong += 1
            print(f"another answer for {stream[:80].hex()}, {len(stream)} bytes")
    told = ", ".join(f"{number} {code}" for code, number in codes.items())
    print(f"streams: {sum(codes.values())} tried ({told}), {wrong} with another answer")
    return 1 if wrong else 0


if __name__ == "__main__":
    sys.exit(main())
