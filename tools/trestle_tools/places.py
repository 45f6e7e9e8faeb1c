"""Where each window is, by the rules of docs/SCRIPT.md for layouts, and whose point of the screen a point is."""

from typing import Dict, Iterator, List, NamedTuple, Optional, Tuple

from .windows import Window, Windows

# No length and no sum is greater.
MOST = 4096


class Rect(NamedTuple):
    """A rectangle by its edges: the points from west to east - 1 and from north to south - 1."""

    west: int
    east: int
    north: int
    south: int

    def has(self, h: int, v: int) -> bool:
        """Whether a point is in it."""
        return self.west <= h < self.east and self.north <= v < self.south

    def meet(self, other: "Rect") -> "Rect":
        """The points that both have."""
        west, east = max(self.west, other.west), min(self.east, other.east)
        return rect(west, east, max(self.north, other.north), min(self.south, other.south))


EMPTY = Rect(0, 0, 0, 0)

# The least, the preferred and the greatest length across, and the same down.
Shape = Tuple[int, ...]


def rect(west: int, east: int, north: int, south: int) -> Rect:
    """A rectangle; all that have no point are one."""
    return Rect(west, east, north, south) if west < east and north < south else EMPTY


class Layout:
    """The places of all windows below the root, at one moment."""

    def __init__(self, windows: Windows):
        self.root = windows.root
        self.screen = rect(0, int(windows.screen[0]), 0, int(windows.screen[1]))
        self.shapes: Dict[str, Shape] = {}
        self.rects: Dict[str, Rect] = {}
        if self.root:
            self.place(self.root, self.screen)

    def shape(self, window: Window) -> Shape:
        """What a window wants."""
        if window.name not in self.shapes:
            wanted = wanted_by(window, [self.shape(child) for child in window.children])
            self.shapes[window.name] = tuple(min(MOST, length) for length in wanted)
        return self.shapes[window.name]

    def place(self, window: Window, room: Rect) -> None:
        """Places a window, and all that is in it."""
        self.rects[window.name] = room
        shapes = [self.shape(child) for child in window.children]
        rooms = rooms_in(window, room, shapes) if room != EMPTY else [EMPTY] * len(shapes)
        for child, there in zip(window.children, rooms):
            self.place(child, there)

    def at(self, name: str) -> Rect:
        """The rectangle of a window; the empty one where it has no place."""
        return self.rects.get(name, EMPTY)

    def owner(self, h: int, v: int) -> Optional[Window]:
        """The window whose point of the screen that is, a leaf or a node of whose frame it is."""
        return owner_below(self.root, self.rects, h, v) if self.root and self.screen.has(h, v) else None

    def where(self, h: int, v: int) -> str:
        """The line that the report `where H V` prints."""
        window = self.owner(h, v)
        if not window:
            return f"where {h} {v} off"
        if not window.is_leaf:
            return f"where {h} {v} frame {window.name}"
        corner = self.rects[window.name]
        return f"where {h} {v} leaf {window.name} {h - corner.west} {v - corner.north}"


def owner_below(window: Window, rects: Dict[str, Rect], h: int, v: int) -> Window:
    """The owner of a point that a window has: its first child there, by the same rule, or the window itself."""
    for child in window.children:
        if rects[child.name].has(h, v):
            return owner_below(child, rects, h, v)
    return window


# ---- What a window wants


def wanted_by(window: Window, shapes: List[Shape]) -> Shape:
    """What a window wants whose children want these shapes, before it is cut to the greatest length."""
    if window.is_leaf:
        return tuple(int(length) for length in window.settings["shapes"])
    sums = [sum(shape[place] for shape in shapes) for place in range(6)]
    most = [max((shape[place] for shape in shapes), default=0) for place in range(6)]
    if window.kind == "h":
        return tuple(sums[:3] + most[3:])
    if window.kind == "v":
        return tuple(most[:3] + sums[3:])
    if window.kind == "page":
        return tuple(most[:3] + [int(window.initial[1]) * length for length in most[3:]])
    if window.kind == "border":
        return tuple(length + 2 * int(window.settings["border"][0]) for length in most)
    if window.kind == "rigid":
        across, down = window.settings["fix"]
        return (int(across),) * 3 + (int(down),) * 3
    if window.kind == "translate":
        return 0, most[1], MOST, 0, most[4], MOST
    return wanted_by_pack(window, sums, most) if window.kind == "pack" else tuple(most)


def wanted_by_pack(window: Window, sums: List[int], most: List[int]) -> Shape:
    """What a pack wants."""
    if not window.children:
        return (0,) * 6
    gaps = int(window.initial[2]) * (len(window.children) - 1)
    if window.initial[1] == "across":
        return most[0], sums[1] + gaps, MOST, most[3], most[4], MOST
    return most[0], most[1], MOST, most[3], sums[4] + gaps, MOST


# ---- Where the children of a window are


def rooms_in(window: Window, room: Rect, shapes: List[Shape]) -> List[Rect]:
    """The places of the children of a window that has a place."""
    west, east, north, south = room
    if window.kind == "h":
        return [rect(a, b, north, south) for a, b in dealt(west, east - west, [it[:3] for it in shapes])]
    if window.kind == "v":
        return [rect(west, east, a, b) for a, b in dealt(north, south - north, [it[3:] for it in shapes])]
    if window.kind == "z":
        moves = [[int(it) for it in child.settings["move"]] for child in window.children]
        return [sized(west + h, north + v, shape) for (h, v), shape in zip(moves, shapes)]
    if window.kind == "t":
        return [room if child.name == window.shown() else EMPTY for child in window.children]
    if window.kind == "page":
        return list(strips(room, int(window.initial[1]), int(window.settings["turn"][0]), len(shapes)))
    if window.kind == "border":
        width = int(window.settings["border"][0])
        return [rect(west + width, east - width, north + width, south - width)] * len(shapes)
    if window.kind == "translate":
        h, v = (int(it) for it in window.settings["offset"])
        return [sized(west + h, north + v, shape) for shape in shapes]
    return rooms_in_pack(window, room, shapes) if window.kind == "pack" else [room] * len(shapes)


def sized(west: int, north: int, shape: Shape) -> Rect:
    """A rectangle of the preferred size."""
    return rect(west, west + shape[1], north, north + shape[4])


def dealt(begin: int, left: int, wanted: List[Shape]) -> List[Tuple[int, int]]:
    """Lengths that are dealt out in three rounds, one behind another."""
    lengths = [0] * len(wanted)
    for place in range(3):
        for child, lengths_wanted in enumerate(wanted):
            more = max(0, min(left, lengths_wanted[place] - lengths[child]))
            lengths[child] += more
            left -= more
    ends = []
    for length in lengths:
        ends.append((begin, begin + length))
        begin += length
    return ends


def strips(room: Rect, per: int, page: int, count: int) -> Iterator[Rect]:
    """The children of a page, in strips; those of other pages have no place."""
    high = (room.south - room.north) // per
    for child in range(count):
        strip = child - page * per
        north = room.north + strip * high
        yield rect(room.west, room.east, north, north + high) if 0 <= strip < per else EMPTY


def rooms_in_pack(window: Window, room: Rect, shapes: List[Shape]) -> List[Rect]:
    """The children of a pack: columns are rows with the directions exchanged."""
    gap = int(window.initial[2])
    if window.initial[1] == "across":
        return list(rows(room, [(shape[1], shape[4]) for shape in shapes], gap))
    turned = Rect(room.north, room.south, room.west, room.east)
    found = rows(turned, [(shape[4], shape[1]) for shape in shapes], gap)
    return [Rect(there.north, there.south, there.west, there.east) for there in found]


def rows(room: Rect, sizes: List[Tuple[int, int]], gap: int) -> Iterator[Rect]:
    """Children in rows, as words in a paragraph."""
    h, v, highest = room.west, room.north, 0
    is_first = True
    for wide, high in sizes:
        wide = min(wide, room.east - room.west)
        if not is_first and h + gap + wide > room.east:
            h, v, highest, is_first = room.west, min(v + highest + gap, room.south), 0, True
        h += 0 if is_first else gap
        yield rect(h, h + wide, v, v + high).meet(room)
        h, highest, is_first = h + wide, max(highest, high), False
