"""The widgets of `model`: what each holds, shows, answers and keeps, and which paint commands a change of it makes."""

from typing import Callable, Dict, List, Optional, Tuple

Point = Tuple[int, int]
Rect = Tuple[int, int, int, int]
# A paint command: its sort and its area, and the way of a scroll, or the operation of a tint. A text and a tile have no
# operation here: they are opaque.
Paint = Tuple
Font = Dict[int, List[int]]
Op = Tuple

EMPTY: Rect = (0, 0, 0, 0)
BOX = [0xFF, 0x81, 0x81, 0x81, 0x81, 0x81, 0x81, 0xFF]
GREATEST = {"mono": 1, "map4": 15, "map8": 255}
BG: Op = ("bg",)
TURNED: Op = ("exchange", 0, 1)
LINES, FIGURES, TEXT = 200, 64, 80


def rect_of(words: List[str]) -> Rect:
    """A rectangle by four words; all without a point are one."""
    west, east, north, south = map(int, words)
    return (west, east, north, south) if west < east and north < south else EMPTY


def rect(west: int, east: int, north: int, south: int) -> Rect:
    """A rectangle by its edges."""
    return (west, east, north, south) if west < east and north < south else EMPTY


def meet(a: Rect, b: Rect) -> Rect:
    """What two rectangles have in common."""
    return rect(max(a[0], b[0]), min(a[1], b[1]), max(a[2], b[2]), min(a[3], b[3]))


def has(it: Rect, p: Point) -> bool:
    """Whether a rectangle has a point."""
    return it[0] <= p[0] < it[1] and it[2] <= p[1] < it[3]


def whole(size: Point) -> Rect:
    """All points of a size."""
    return rect(0, size[0], 0, size[1])


def effect(kind: str, op: Op, old: int) -> int:
    """What an operation makes of a pixel."""
    if op[0] == "bg":
        return 0
    if op[0] == "set":
        return min(op[1], GREATEST[kind])
    first, second = (min(it, GREATEST[kind]) for it in op[1:])
    return second if old == first else first if old == second else old


def is_opaque(paint: Paint) -> bool:
    """Whether a command that is no scroll and no spoil gives its points a colour, whatever they had."""
    return paint[0] != "tint" or paint[2][0] != "exchange"


def tint(area: Rect, op: Op) -> Paint:
    """A tint."""
    return ("tint", area, op)


def written(clip: Rect, at: Point, text: str) -> Paint:
    """A text, whose area is that of its cells."""
    return ("text", meet(clip, rect(at[0], at[0] + 8 * len(text), at[1], at[1] + 8)))


def bit(font: Font, text: str, q: Point) -> int:
    """A point of a text that begins at the corner."""
    column = q[0] // 8
    if column >= len(text):
        return 0
    return font.get(ord(text[column]), BOX)[q[1] % 8] >> (7 - q[0] % 8) & 1


def rest(text: str) -> str:
    """What stands behind the first word."""
    return text.split(" ", 1)[1] if " " in text else ""


class Widget:
    """A content. None is changed in place: a command makes another one."""

    def printed(self, text: str) -> str:
        """A command as the journal has it."""
        return text[:-1] if text.endswith(" ") and text.count(" ") == 1 else text

    def changed(self, text: str) -> "Widget":
        """The content after a command."""
        raise NotImplementedError

    def patch(self, text: str, changed: "Widget", size: Point) -> List[Paint]:
        """What paints the change, where the window has points."""
        raise NotImplementedError

    def answer(self, event: List[str]) -> Optional[str]:
        """The command that an event asks for."""
        return self.key(int(event[2])) if event[0] == "key" else None

    def key(self, code: int) -> Optional[str]:
        """The command that a key asks for."""
        return None

    def value(self) -> str:
        """What others read."""
        raise NotImplementedError

    def picture(self, kind: str, font: Font, size: Point, q: Point) -> int:
        """The colour of a point."""
        raise NotImplementedError

    def keeps(self, before: Point, after: Point) -> Rect:
        """What is kept from one size to another."""
        return meet(whole(before), whole(after))


class Solid(Widget):
    """One colour."""

    def __init__(self, words: List[str]):
        self.tint = int(words[0])

    def changed(self, text: str) -> Widget:
        return Solid([rest(text)])

    def patch(self, text: str, changed: Widget, size: Point) -> List[Paint]:
        return [tint(whole(size), ("set", 0))]

    def key(self, code: int) -> Optional[str]:
        return f"tint {code}"

    def value(self) -> str:
        return str(self.tint)

    def picture(self, kind: str, font: Font, size: Point, q: Point) -> int:
        return effect(kind, ("set", self.tint), 0)


class Board(Widget):
    """A tile, repeated."""

    def __init__(self, words: List[str]):
        tile, self.h, self.v = words[0].split(" ")[0], *map(int, words[0].split(" ")[1:])
        self.rows = list(bytes.fromhex(tile))

    def printed(self, text: str) -> str:
        return text.lower()

    def changed(self, text: str) -> Widget:
        words = text.split(" ")
        tile, shift = bytes(self.rows).hex(), f"{self.h} {self.v}"
        return Board([f"{words[1]} {shift}" if words[0] == "tile" else f"{tile} {words[1]} {words[2]}"])

    def patch(self, text: str, changed: Widget, size: Point) -> List[Paint]:
        return [("tile", whole(size))]

    def value(self) -> str:
        return bytes(self.rows).hex()

    def picture(self, kind: str, font: Font, size: Point, q: Point) -> int:
        return self.rows[(q[1] - self.v) % 8] >> (7 - (q[0] - self.h) % 8) & 1


class Label(Widget):
    """A text."""

    def __init__(self, words: List[str]):
        self.text = words[0] if words else ""

    def changed(self, text: str) -> Widget:
        return Label([rest(text)])

    def patch(self, text: str, changed: Widget, size: Point) -> List[Paint]:
        return [tint(whole(size), BG), written(whole(size), (0, 0), changed.text)]

    def key(self, code: int) -> Optional[str]:
        return f"text {self.text}{chr(code)}" if 32 <= code <= 126 and len(self.text) < TEXT else None

    def value(self) -> str:
        return self.text

    def picture(self, kind: str, font: Font, size: Point, q: Point) -> int:
        return bit(font, self.text, q) if q[1] < 8 else 0


class Lines(Widget):
    """A typescript."""

    def __init__(self, words: List[str], lines: Tuple[str, ...] = ()):
        self.lines = lines

    def changed(self, text: str) -> Widget:
        return Lines([], () if text == "clear" else (*self.lines, rest(text))[-LINES:])

    def patch(self, text: str, changed: Widget, size: Point) -> List[Paint]:
        everything, rows, count = whole(size), size[1] // 8, len(self.lines)
        if text == "clear":
            return [tint(everything, BG)]
        if rows == 0:
            return []
        if count < rows and count < LINES:
            return [written(everything, (0, 8 * count), rest(text))]
        last = min(rows, LINES)
        return [
            ("scroll", rect(0, size[0], 0, 8 * (last - 1)), (0, -8)),
            tint(rect(0, size[0], 8 * (last - 1), 8 * last), BG),
            written(everything, (0, 8 * (last - 1)), rest(text)),
        ]

    def key(self, code: int) -> Optional[str]:
        return f"line {chr(code)}" if 32 <= code <= 126 else None

    def value(self) -> str:
        return self.lines[-1] if self.lines else ""

    def picture(self, kind: str, font: Font, size: Point, q: Point) -> int:
        shown = self.lines[-(size[1] // 8) :] if size[1] // 8 else ()
        return bit(font, shown[q[1] // 8], (q[0], q[1] % 8)) if q[1] // 8 < len(shown) else 0

    def keeps(self, before: Point, after: Point) -> Rect:
        is_same = min(len(self.lines), before[1] // 8) == min(len(self.lines), after[1] // 8)
        return meet(whole(before), whole(after)) if is_same else EMPTY


class Canvas(Widget):
    """Figures, each a rectangle with an operation."""

    def __init__(self, words: List[str], figures: Tuple[Tuple[Rect, Op], ...] = ()):
        self.figures = figures

    def printed(self, text: str) -> str:
        words = text.split(" ")
        if words[0] == "undo":
            return text
        values = words[5:]
        if words[0] == "exchange" and values == ["0", "1"]:
            words[0], values = "swap", []
        return " ".join([words[0], *map(str, rect_of(words[1:5])), *values])

    def figure(self, text: str) -> Tuple[Rect, Op]:
        """The figure that a command draws."""
        words = text.split(" ")
        ops = {"rect": ("set", *map(int, words[5:])), "swap": TURNED, "exchange": ("exchange", *map(int, words[5:]))}
        return rect_of(words[1:5]), ops[words[0]]

    def changed(self, text: str) -> Widget:
        if text == "undo":
            return Canvas([], self.figures[:-1]) if self.figures else self
        return Canvas([], (*self.figures, self.figure(text))) if len(self.figures) < FIGURES else self

    def patch(self, text: str, changed: Widget, size: Point) -> List[Paint]:
        if changed is self:
            return []
        if text != "undo":
            area, op = self.figure(text)
            return [tint(meet(area, whole(size)), op)]
        gone = meet(self.figures[-1][0], whole(size))
        return [tint(gone, BG), *(tint(meet(gone, area), op) for area, op in self.figures[:-1])]

    def answer(self, event: List[str]) -> Optional[str]:
        if event[0] == "mouse" and event[2] == "firstdown":
            h, v = int(event[4]), int(event[5])
            return f"rect {h} {h + 2} {v} {v + 2} 1" if 0 <= h <= 4095 and 0 <= v <= 4095 else None
        return "undo" if event[0] == "key" and event[2] == "8" else None

    def value(self) -> str:
        return str(len(self.figures))

    def picture(self, kind: str, font: Font, size: Point, q: Point) -> int:
        colour = 0
        for area, op in self.figures:
            if has(area, q):
                colour = effect(kind, op, colour)
        return colour


class Meter(Widget):
    """Bars."""

    def __init__(self, words: List[str], heights: Optional[Tuple[int, ...]] = None):
        self.heights = heights if heights is not None else (0,) * int(words[0])

    def changed(self, text: str) -> Widget:
        number, height = map(int, text.split(" ")[1:])
        if number >= len(self.heights):
            return self
        return Meter([], (*self.heights[:number], height, *self.heights[number + 1 :]))

    def patch(self, text: str, changed: Widget, size: Point) -> List[Paint]:
        if changed is self:
            return []
        number, height = map(int, text.split(" ")[1:])
        seam = max(size[1] - height, 0)
        west, east = 8 * number, 8 * number + 8
        upper, lower = rect(west, east, 0, seam), rect(west, east, seam, size[1])
        return [tint(meet(upper, whole(size)), BG), tint(meet(lower, whole(size)), ("set", 1))]

    def key(self, code: int) -> Optional[str]:
        return f"bar 0 {code}"

    def value(self) -> str:
        return str(self.heights[0])

    def picture(self, kind: str, font: Font, size: Point, q: Point) -> int:
        number = q[0] // 8
        return int(number < len(self.heights) and q[1] >= size[1] - self.heights[number])

    def keeps(self, before: Point, after: Point) -> Rect:
        return EMPTY


class Editor(Widget):
    """A text of lines with a caret, and a clip."""

    def __init__(self, words: List[str], lines: Tuple[str, ...] = ("",), caret: Point = (0, 0), clip: str = ""):
        self.lines, self.caret, self.clip = lines, caret, clip

    def changed(self, text: str) -> Widget:
        word, words = text.split(" ")[0], text.split(" ")
        row, column = self.caret
        line = self.lines[row]
        if word in ("insert", "paste"):
            more = rest(text) if word == "insert" else self.clip
            if not more or len(line) + len(more) > TEXT:
                return self
            return self.with_lines(row, 1, [line[:column] + more + line[column:]], (row, column + len(more)))
        if word == "split":
            parts = [line[:column], line[column:]]
            return self if len(self.lines) == LINES else self.with_lines(row, 1, parts, (row + 1, 0))
        if word == "erase":
            return self.erased(row, column, line)
        if word == "copy":
            first, last = map(int, words[1:])
            clip = line[first:last]
            return self if clip == self.clip else Editor([], self.lines, self.caret, clip)
        row = min(int(words[1]), len(self.lines) - 1)
        caret = (row, min(int(words[2]), len(self.lines[row])))
        return self if caret == self.caret else Editor([], self.lines, caret, self.clip)

    def erased(self, row: int, column: int, line: str) -> Widget:
        """Without the byte before the caret."""
        if column > 0:
            return self.with_lines(row, 1, [line[: column - 1] + line[column:]], (row, column - 1))
        if row == 0 or len(self.lines[row - 1]) + len(line) > TEXT:
            return self
        above = self.lines[row - 1]
        return self.with_lines(row - 1, 2, [above + line], (row - 1, len(above)))

    def with_lines(self, row: int, count: int, lines: List[str], caret: Point) -> "Editor":
        """With other lines in the place of some."""
        return Editor([], (*self.lines[:row], *lines, *self.lines[row + count :]), caret, self.clip)

    def top(self, rows: int) -> int:
        """The first line that is shown, where there are rows."""
        return max(0, self.caret[0] - rows + 1)

    def cell(self, rows: int) -> Rect:
        """The caret's cell."""
        row, column = self.caret[0] - self.top(rows), self.caret[1]
        return rect(8 * column, 8 * column + 8, 8 * row, 8 * row + 8)

    def put(self, size: Point, row: int, is_cleared: bool = True) -> List[Paint]:
        """Paints a row anew."""
        strip = rect(0, size[0], 8 * row, 8 * row + 8)
        number = self.top(size[1] // 8) + row
        line = [written(strip, (0, 8 * row), self.lines[number])] if number < len(self.lines) else []
        return ([tint(strip, BG)] if is_cleared else []) + line

    def patch(self, text: str, changed: Widget, size: Point) -> List[Paint]:
        rows, word = size[1] // 8, text.split(" ")[0]
        if changed is self or word == "copy" or rows == 0:
            return []
        mark = tint(meet(changed.cell(rows), whole(size)), TURNED)
        return [*self.before_mark(word, changed, size, rows), mark]

    def before_mark(self, word: str, new: "Editor", size: Point, rows: int) -> List[Paint]:
        """What paints a change but for the new caret."""
        wide, top, to = size[0], self.top(rows), new.top(rows)
        is_joined = len(new.lines) < len(self.lines)
        if word in ("insert", "paste") or (word == "erase" and not is_joined):
            return new.put(size, self.caret[0] - top)
        unmark = [tint(meet(self.cell(rows), whole(size)), TURNED)]
        up, down = ("scroll", rect(0, wide, 0, 8 * (rows - 1)), (0, -8)), ("scroll", rect(0, wide, 8, 8 * rows), (0, 8))
        if word == "goto" and to == top:
            return unmark
        if word == "goto" and to == top + 1:
            return [*unmark, up, *new.put(size, rows - 1)]
        if word == "goto" and to == top - 1:
            return [*unmark, down, *new.put(size, 0)]
        at = new.caret[0] - top
        if word == "split" and to == top:
            moved = ("scroll", rect(0, wide, 8 * (at + 1), 8 * rows), (0, 8))
            return [moved, *new.put(size, at - 1), *new.put(size, at)]
        if word == "erase" and to == top:
            moved = ("scroll", rect(0, wide, 8 * (at + 1), 8 * (rows - 1)), (0, -8))
            return [moved, *new.put(size, rows - 1), *new.put(size, at)]
        lines = [paint for row in range(min(rows, len(new.lines) - to)) for paint in new.put(size, row, False)]
        return [tint(whole(size), BG), *lines]

    def key(self, code: int) -> Optional[str]:
        return {8: "erase", 13: "split"}.get(code) or (f"insert {chr(code)}" if 32 <= code <= 126 else None)

    def value(self) -> str:
        return self.clip

    def picture(self, kind: str, font: Font, size: Point, q: Point) -> int:
        rows = size[1] // 8
        row = q[1] // 8
        if row >= rows:
            return 0
        number = self.top(rows) + row
        colour = bit(font, self.lines[number], (q[0], q[1] % 8)) if number < len(self.lines) else 0
        return 1 - colour if has(self.cell(rows), q) else colour

    def keeps(self, before: Point, after: Point) -> Rect:
        return meet(whole(before), whole(after)) if self.rows_shown(before) == self.rows_shown(after) else EMPTY

    def rows_shown(self, size: Point) -> Point:
        """The first line that is shown at a size, and how many."""
        rows = size[1] // 8
        top = self.top(rows) if rows else 0
        return top, min(rows, len(self.lines) - top)


WIDGETS: Dict[str, Callable[[List[str]], Widget]] = {
    "solid": Solid,
    "board": Board,
    "label": Label,
    "lines": Lines,
    "canvas": Canvas,
    "meter": Meter,
    "edit": Editor,
}
