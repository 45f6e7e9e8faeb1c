"""Dumps in colours: in the terminal, and as .png and .ppm files, with the palette of docs/SCRIPT.md.

A picture has for each point one of the 256 colours of a terminal by its number. Black is 16 and not 0, whose
colour hangs on the terminal; so 0 is free to stand for the ground between pictures that share a file.
"""

import struct
import zlib
from typing import Iterator, List, NamedTuple, Sequence, Tuple

from .outputs import Dump
from .places import Rect

GROUND, BLACK, WHITE = 0, 16, 231
MARKED, UNMARKED = 201, 236
STALE, UNKNOWN = 226, 51
GAP = 4

SIXTEEN = (
    "000000 cd0000 00cd00 cdcd00 0000ee cd00cd 00cdcd e5e5e5 "
    "7f7f7f ff0000 00ff00 ffff00 5c5cff ff00ff 00ffff ffffff"
)
CUBE = (0, 95, 135, 175, 215, 255)


def palette() -> List[bytes]:
    """Red, green and blue of each colour: sixteen, a cube of 6 by 6 by 6, and 24 greys."""
    sixteen = [bytes.fromhex(colour) for colour in SIXTEEN.split()]
    cube = [bytes((red, green, blue)) for red in CUBE for green in CUBE for blue in CUBE]
    greys = [bytes([8 + 10 * step] * 3) for step in range(24)]
    return sixteen + cube + greys


class Picture(NamedTuple):
    """Rows of colours, from north to south, a byte for each point."""

    width: int
    height: int
    rows: Tuple[bytes, ...]

    def part(self, west: int, east: int, north: int, south: int) -> "Picture":
        """The points of a rectangle that lies in the picture."""
        rows = tuple(row[west:east] for row in self.rows[north:south])
        return Picture(east - west, south - north, rows)

    def flags(self, west: int, east: int, north: int, south: int) -> List[List[bool]]:
        """Which points of a rectangle are marked."""
        return [[colour == MARKED for colour in row[west:east]] for row in self.rows[north:south]]


def picture_of(dump: Dump) -> Picture:
    """A dump in colours: black and white where it is mono, else the colour of each pixel's number."""
    colours = bytes([BLACK, *range(1, 256)])
    if dump.kind == "mono":
        colours = bytes([BLACK, *[WHITE] * 255])
    return Picture(dump.width, dump.height, tuple(row.translate(colours) for row in dump.rows))


def marks(first: Dump, second: Dump) -> Picture:
    """Which points differ, also those that one of the dumps alone has."""
    width, height = max(first.width, second.width), max(first.height, second.height)
    rows = [bytearray([UNMARKED] * width) for _ in range(height)]
    for h, v in different_points(first, second):
        rows[v][h] = MARKED
    return Picture(width, height, tuple(bytes(row) for row in rows))


def marked_in(dump: Dump, marked: Sequence[Tuple[int, Sequence[Rect]]]) -> Picture:
    """A dump in colours, with the points of some rectangles in a colour of their own."""
    rows = [bytearray(row) for row in picture_of(dump).rows]
    for colour, rects in marked:
        for west, east, north, south in rects:
            for row in rows[north:south]:
                row[west:east] = bytes([colour]) * (east - west)
    return Picture(dump.width, dump.height, tuple(bytes(row) for row in rows))


def digits_of(dump: Dump, marked: Sequence[Tuple[str, Sequence[Rect]]]) -> List[str]:
    """A dump in hex digits, with a sign in place of the digits at the points of some rectangles."""
    rows = [[f"{pixel:02x}" for pixel in row] for row in dump.rows]
    for sign, rects in marked:
        for west, east, north, south in rects:
            for row in rows[north:south]:
                row[west:east] = [sign] * (east - west)
    return ["".join(row) for row in rows]


def different_points(first: Dump, second: Dump) -> Iterator[Tuple[int, int]]:
    """The points at which two dumps differ, row after row, as (h, v)."""
    width, height = max(first.width, second.width), max(first.height, second.height)
    for v in range(height):
        one = first.rows[v] if v < first.height else b""
        other = second.rows[v] if v < second.height else b""
        if one == other and len(one) == width:
            continue
        for h in range(width):
            if one[h : h + 1] != other[h : h + 1] or h >= len(one):
                yield h, v


# ---- In the terminal


def terminal_lines(picture: Picture) -> List[str]:
    """Two rows of points in each line: the upper one is a half block, the lower one what lies behind it."""
    return [
        terminal_line(picture.rows[v], picture.rows[v + 1] if v + 1 < picture.height else b"")
        for v in range(0, picture.height, 2)
    ]


def terminal_line(upper: bytes, lower: bytes) -> str:
    """A line of half blocks. A colour is named where it is another one than that of the point before."""
    line, front, back = [], -1, -1
    for h, colour in enumerate(upper):
        if colour != front:
            line.append(f"\033[38;5;{colour}m")
            front = colour
        if lower and lower[h] != back:
            back = lower[h]
            line.append(f"\033[48;5;{back}m")
        line.append("\N{UPPER HALF BLOCK}")
    return "".join(line) + "\033[0m"


def cleared(lines: int) -> str:
    """What takes so many lines above the cursor away, and puts it where the first of them stood."""
    return f"\033[{lines}A\033[J" if lines else ""


def lines_beside(pictures: Sequence[Picture], titles: Sequence[str]) -> List[str]:
    """Pictures side by side in the terminal, each below its title."""
    widths = [max(picture.width, len(title)) for picture, title in zip(pictures, titles)]
    columns = [terminal_lines(picture) for picture in pictures]
    lines = ["  ".join(title.ljust(width) for title, width in zip(titles, widths)).rstrip()]
    for row in range(max(len(column) for column in columns)):
        cells = []
        for picture, column, width in zip(pictures, columns, widths):
            there = row < len(column)
            cells.append((column[row] if there else "") + " " * (width - (picture.width if there else 0)))
        lines.append("  ".join(cells).rstrip())
    return lines


def beside_in_columns(columns: Sequence[Sequence[str]], titles: Sequence[str]) -> List[str]:
    """Columns of texts side by side, each below its title."""
    widths = [max(len(line) for line in (title, *column)) for title, column in zip(titles, columns)]
    lines = ["  ".join(title.ljust(width) for title, width in zip(titles, widths)).rstrip()]
    for row in range(max(len(column) for column in columns)):
        cells = [column[row] if row < len(column) else "" for column in columns]
        lines.append("  ".join(cell.ljust(width) for cell, width in zip(cells, widths)).rstrip())
    return lines


def scaled(picture: Picture, scale: int) -> Picture:
    """A picture with SCALE by SCALE points in place of each."""
    return Picture(picture.width * scale, picture.height * scale, tuple(scaled_rows(picture, scale)))


# ---- In files


def beside(pictures: Sequence[Picture]) -> Picture:
    """Pictures side by side in one, with ground between and below them."""
    height = max(picture.height for picture in pictures)
    rows = []
    for v in range(height):
        parts = [it.rows[v] if v < it.height else bytes(it.width) for it in pictures]
        rows.append(bytes(GAP).join(parts))
    return Picture(len(rows[0]), height, tuple(rows))


def scaled_rows(picture: Picture, scale: int) -> Iterator[bytes]:
    """The rows of a picture with SCALE by SCALE points in place of each."""
    for row in picture.rows:
        wide = row if scale == 1 else b"".join(row[h : h + 1] * scale for h in range(picture.width))
        for _ in range(scale):
            yield wide


def png(picture: Picture, scale: int) -> bytes:
    """A .png file, by colours of a palette, in which the ground lets everything through."""
    packer = zlib.compressobj(9)
    packed = b"".join(packer.compress(b"\0" + row) for row in scaled_rows(picture, scale))
    head = struct.pack(">IIBBBBB", picture.width * scale, picture.height * scale, 8, 3, 0, 0, 0)
    chunks = (
        (b"IHDR", head),
        (b"PLTE", b"".join(palette())),
        (b"tRNS", bytes([0])),
        (b"IDAT", packed + packer.flush()),
        (b"IEND", b""),
    )
    return b"\x89PNG\r\n\x1a\n" + b"".join(png_chunk(name, data) for name, data in chunks)


def png_chunk(name: bytes, data: bytes) -> bytes:
    """A chunk of a .png file: its length, its name, its data and their sum."""
    return struct.pack(">I", len(data)) + name + data + struct.pack(">I", zlib.crc32(name + data))


def ppm(picture: Picture, scale: int) -> bytes:
    """A .ppm file (P6). It knows no colour that lets anything through, so the ground is white."""
    colours = palette()
    colours[GROUND] = colours[WHITE]
    head = f"P6\n{picture.width * scale} {picture.height * scale}\n255\n".encode()
    return head + b"".join(b"".join(colours[it] for it in row) for row in scaled_rows(picture, scale))


FORMATS = {".png": png, ".ppm": ppm}
