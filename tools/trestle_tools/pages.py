"""Writes traces as one page of HTML, which needs nothing else."""

import base64
import json
import zlib
from pathlib import Path
from typing import Any, Dict, List, Optional, Sequence, Tuple

from .pictures import palette
from .traces import Moment, Pair, Placed, Trace

# A page in a file may load nothing. The server sends a live page its own policy.
POLICY = """
<meta http-equiv="Content-Security-Policy" content="default-src 'none'; script-src 'unsafe-inline'; style-src 'unsafe-inline'">"""

TEMPLATE = Path(__file__).with_name("page.html")


def packed(data: bytes) -> str:
    """Bytes as a text in base 64."""
    return base64.b64encode(data).decode("ascii")


def moment_data(moment: Moment) -> List[Any]:
    """A moment as a list, without empty values at its end."""
    data: List[Any] = [moment.line, moment.count, moment.answer, moment.says, moment.events, moment.printed]
    while not data[-1] and len(data) > 2:
        data.pop()
    return data


def placed_data(placed: Placed) -> List[Any]:
    """Where a window is."""
    return [placed.name, placed.depth, *placed.rect, placed.line]


def trace_data(trace: Trace, begin: int = 0) -> Dict[str, Any]:
    """A trace without its pictures, and without its moments before a number."""
    return {
        "name": trace.name,
        "lines": trace.lines,
        "labels": trace.labels,
        "from": begin,
        "moments": [moment_data(it) for it in trace.moments[begin:]],
        "numbers": [trace.numbers.get(n) for n in range(begin, len(trace.moments))],
        "places": [[count, [placed_data(it) for it in there]] for count, there in sorted(trace.places.items())],
        "windows": {name: {"kind": it.kind, "leaf": it.is_leaf} for name, it in trace.windows.items()},
        "leaves": [name for name, it in trace.windows.items() if it.is_leaf],
        "notes": trace.notes,
        "isOutput": not trace.windows,
        "chunks": [chunk.counts for chunk in trace.chunks],
    }


def page(traces: Sequence[Trace], pairs: Sequence[Pair] = (), live: Optional[Dict[str, Any]] = None, nonce: str = "") -> str:
    """The page of one trace, or of two with their moments side by side. `live` tells a live page its server."""
    data = {
        "traces": [trace_data(trace) for trace in traces],
        "pairs": [list(pair) for pair in pairs],
        "palette": [colour.hex() for colour in palette()],
        "live": live,
    }
    chunks = [packed(chunk.packed) for trace in traces for chunk in trace.chunks]
    # A text of the script is a byte for each character; JSON writes the bytes beyond ASCII as escapes.
    text = packed(zlib.compress(json.dumps(data, separators=(",", ":")).encode("ascii"), 9))
    return filled(
        TEMPLATE.read_text("utf-8"),
        ("@DATA@", text),
        ("@CHUNKS@", "\n".join(f'<script class="chunk" type="text/plain">{it}</script>' for it in chunks)),
        ("@POLICY@", "" if live else POLICY),
        ("@NONCE@", f' nonce="{nonce}"' if nonce else ""),
    )


def filled(template: str, *values: Tuple[str, str]) -> str:
    """A template with values in the places of their names."""
    for name, value in values:
        template = template.replace(name, value, 1)
    return template
