"""What bytes are that are no text of trestle's: pictures, archives, streams."""

import re
from typing import Optional

STRANGE = re.compile(rb"[^\n\x20-\x7e]")

KINDS = (
    (b"\x89PNG", "a picture (PNG)"),
    (b"\xff\xd8\xff", "a picture (JPEG)"),
    (b"GIF8", "a picture (GIF)"),
    (b"BM", "a picture (BMP)"),
    (b"P6\n", "a picture (PPM)"),
    (b"%PDF", "a document (PDF)"),
    (b"PK\x03\x04", "an archive (zip), or a document of an office program"),
    (b"\x1f\x8b", "a packed file (gzip)"),
    (b"\x7fELF", "a program"),
    (b"\xff\xfe", "a text in UTF-16"),
    (b"\xfe\xff", "a text in UTF-16"),
)


def kind_of(data: bytes) -> Optional[str]:
    """What bytes seem to be that have others than printable ones and line feeds; None for those of a text."""
    if strange_byte(data) is None:
        return None
    known = next((kind for begin, kind in KINDS if data.startswith(begin)), None)
    return known or ("a stream of `trestle mirror`" if is_stream(data) else None)


def is_stream(data: bytes) -> bool:
    """Whether bytes begin as a stream does: with a screen of at most 1024 by 1024, and one of three kinds."""
    width, height = int.from_bytes(data[1:3], "big"), int.from_bytes(data[3:5], "big")
    return len(data) > 5 and data[0] == 1 and 1 <= width <= 1024 and 1 <= height <= 1024 and data[5] <= 2


def strange_byte(data: bytes) -> Optional[int]:
    """The place of the first byte that no text of trestle's has, if there is one."""
    found = STRANGE.search(data)
    return found.start() if found else None
