"""What is seen of the windows: which parts of them, why nothing of one is seen, and which window is near a point."""

from typing import List, NamedTuple, Optional, Tuple

from .places import EMPTY, Layout, Rect, rect
from .windows import Window


def clip(layout: Layout, window: Window) -> Rect:
    """The part of a window's rectangle that its parent, that one's parent and so on leave of it."""
    found = layout.at(window.name)
    for above in window.above():
        found = found.meet(layout.at(above.name))
    return found.meet(layout.screen) if layout.root in window.above() else EMPTY


def covers(layout: Layout, window: Window) -> List[Window]:
    """The windows in front of a window that have points of it: of two children of one window the first is in front."""
    there, found = clip(layout, window), []
    for above in window.above():
        siblings = above.parent.children if above.parent else []
        found += [it for it in siblings[: siblings.index(above)] if clip(layout, it).meet(there) != EMPTY] if siblings else []
    return found


def visible(layout: Layout, window: Window) -> List[Rect]:
    """The points of a leaf, or of the frame of a node, that are seen, as rectangles without a point in common."""
    found = [clip(layout, window)]
    for other in [*covers(layout, window), *window.children]:
        found = [part for one in found for part in without(one, clip(layout, other))]
    return [it for it in found if it != EMPTY]


def without(one: Rect, other: Rect) -> List[Rect]:
    """The points that a rectangle has and another one has not, as up to four rectangles."""
    cut = one.meet(other)
    if cut == EMPTY:
        return [one]
    parts = (
        rect(one.west, one.east, one.north, cut.north),
        rect(one.west, one.east, cut.south, one.south),
        rect(one.west, cut.west, cut.north, cut.south),
        rect(cut.east, one.east, cut.north, cut.south),
    )
    return [it for it in parts if it != EMPTY]


def area(rects: List[Rect]) -> int:
    """How many points rectangles have that have none in common."""
    return sum((it.east - it.west) * (it.south - it.north) for it in rects)


def shown(there: Rect) -> str:
    """A rectangle as a person reads it: from its west to its east, by from its north to its south."""
    return f"{there.west}..{there.east} by {there.north}..{there.south}"


# ---- Why nothing of a window is seen


class Hidden(NamedTuple):
    """Why nothing of a window is seen: in a word, and in a sentence."""

    cause: str
    says: str


OFF, NO_ROOM, COVERED, NOT_SHOWN, NOT_PUT = "off", "no room", "covered", "not shown", "not put"


def hidden(layout: Layout, window: Window) -> Optional[Hidden]:
    """Why nothing of a window is seen; None where something is."""
    if layout.root not in window.above():
        top = list(window.above())[-1]
        return Hidden(NOT_PUT, f"{top.name} is in no window")
    for above in reversed(list(window.above())):
        why = no_place(layout, above)
        if why:
            return why
    if clip(layout, window) == EMPTY:
        return off(layout, window)
    if not visible(layout, window):
        return covered(layout, window)
    return None


def no_place(layout: Layout, window: Window) -> Optional[Hidden]:
    """Why a window has an empty place in its parent."""
    parent = window.parent
    if layout.at(window.name) != EMPTY or not parent:
        return None
    if parent.kind == "t":
        return Hidden(NOT_SHOWN, f"{parent.name} shows {parent.shown()}, and not {window.name}")
    if parent.kind == "page":
        page, per = int(parent.settings["turn"][0]), int(parent.initial[1])
        its = parent.children.index(window) // per
        if its != page:
            return Hidden(NOT_SHOWN, f"{window.name} is on page {its} of {parent.name}, which is at page {page}")
    wide, high = layout.shape(window)[1], layout.shape(window)[4]
    if parent.kind in ("z", "translate", "pack") and not (wide and high):
        return Hidden(NO_ROOM, f"{window.name} has no point in {parent.name}, since it prefers {wide} by {high}")
    there = layout.at(parent.name)
    across, down = there.east - there.west, there.south - there.north
    return Hidden(NO_ROOM, f"no room is left for {window.name} in {parent.name}, which has {across} by {down} points")


def off(layout: Layout, window: Window) -> Hidden:
    """That a window lies outside of a window that it is in, or of the screen."""
    there = layout.at(window.name)
    for above in list(window.above())[1:]:
        place = layout.at(above.name)
        if there.meet(place) == EMPTY and above is not layout.root:
            return Hidden(OFF, f"{window.name} is at {shown(there)}, outside of {above.name} ({shown(place)})")
        there = there.meet(place) if there.meet(place) != EMPTY else there
    screen = f"{layout.screen.east} by {layout.screen.south}"
    return Hidden(OFF, f"{window.name} is at {shown(layout.at(window.name))}, off the screen ({screen})")


def covered(layout: Layout, window: Window) -> Hidden:
    """That other windows are in front of a window everywhere."""
    there = clip(layout, window)
    fronts = covers(layout, window)
    whole = [it for it in fronts if not without(there, clip(layout, it))]
    names = [it.name for it in whole[:1] or fronts]
    by = " and ".join([", ".join(names[:-1]), names[-1]] if len(names) > 1 else names)
    return Hidden(COVERED, f"{window.name} ({shown(layout.at(window.name))}) is wholly covered by {by}")


# ---- What is near a point


def beside(there: Rect, h: int, v: int) -> Tuple[int, int]:
    """How far a point is from a rectangle, eastwards and southwards; negative in the west and in the north."""
    across = h - there.east + 1 if h >= there.east else min(0, h - there.west)
    down = v - there.south + 1 if v >= there.south else min(0, v - there.north)
    return across, down


def way(across: int, down: int) -> str:
    """A distance in words."""
    parts = [(abs(across), "east" if across > 0 else "west"), (abs(down), "south" if down > 0 else "north")]
    first, *rest = [(count, where) for count, where in parts if count]
    return f"{first[0]} point{'s' * (first[0] > 1)} {first[1]}" + "".join(f" and {count} {where}" for count, where in rest)


def distance(layout: Layout, leaf: Window, h: int, v: int) -> Optional[Tuple[int, int]]:
    """How far a point is from the nearest part of a leaf that is seen, if there is one."""
    ways = [beside(it, h, v) for it in visible(layout, leaf)]
    return min(ways, key=lambda it: (max(abs(it[0]), abs(it[1])), abs(it[0]) + abs(it[1]))) if ways else None


def from_leaf(layout: Layout, leaf: Window, h: int, v: int) -> Optional[str]:
    """Where a point is beside a leaf."""
    found = distance(layout, leaf, h, v)
    return f"{way(*found)} of `{leaf.name}` ({shown(layout.at(leaf.name))})" if found and any(found) else None


def nearest(layout: Layout, leaves: List[Window], h: int, v: int) -> Optional[str]:
    """Where a point is beside the nearest leaf."""
    near = [(max(abs(it) for it in found), leaf.line, leaf) for leaf in leaves if (found := distance(layout, leaf, h, v))]
    return from_leaf(layout, min(near)[2], h, v) if near else None


def point_of(layout: Layout, h: int, v: int) -> str:
    """Whose point of the screen that is."""
    owner = layout.owner(h, v)
    if not owner:
        return f"({h}, {v}) is off the screen ({layout.screen.east} by {layout.screen.south})"
    return f"at ({h}, {v}) is " + (f"`{owner.name}`" if owner.is_leaf else f"the frame of `{owner.name}`")
