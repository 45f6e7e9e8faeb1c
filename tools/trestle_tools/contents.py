"""What a widget holds, as far as is needed to see that a command changes nothing, and what it answers to events.

Each content has `change`, which takes over a command and says why it changes nothing, where that is so. The rules
are those of docs/SCRIPT.md."""

from typing import Callable, Dict, List, Optional

FIGURES, LINES, TEXT = 64, 200, 80
PRINTABLE = range(32, 127)


class Content:
    """What a leaf holds. A command's method takes its words and gives the reason why it changes nothing, if so."""

    def __init__(self, initial: List[str]):
        self.values = {}

    def change(self, words: List[str]) -> Optional[str]:
        """Takes over a command."""
        return getattr(self, "do_" + words[0])(words[1:])

    def answer(self, event: List[str]) -> List[str]:
        """The command with which an event is answered; no word where it isn't."""
        return self.key(int(event[2])) if event[0] == "key" else []

    def key(self, _code: int) -> List[str]:
        """The command with which a key is answered."""
        return []

    def state(self) -> object:
        """All that it holds, to be compared."""
        return tuple(str(it) for it in self.values.items())

    def shown(self, _rows: int) -> List[str]:
        """The texts that it shows in so many rows."""
        return []

    def set(self, name: str, value: object) -> Optional[str]:
        """Sets one of its values."""
        before = self.values.get(name)
        self.values[name] = value
        return f"the {name} is that already" if before == value else None


class Solid(Content):
    """A colour."""

    def __init__(self, initial: List[str]):
        self.values = {"tint": initial[0]}

    def do_tint(self, words: List[str]) -> Optional[str]:
        """Another colour."""
        return self.set("tint", words[0])

    def key(self, code: int) -> List[str]:
        return ["tint", str(code)]


class Board(Content):
    """A tile and a shift."""

    def __init__(self, initial: List[str]):
        tile, h, v = initial[0].split(" ")
        self.values = {"tile": tile.lower(), "shift": [h, v]}

    def do_tile(self, words: List[str]) -> Optional[str]:
        """Another tile."""
        return self.set("tile", words[0].lower())

    def do_shift(self, words: List[str]) -> Optional[str]:
        """Another shift."""
        return self.set("shift", words)


class Label(Content):
    """A text."""

    def __init__(self, initial: List[str]):
        self.values = {"text": initial[0] if initial else ""}

    def do_text(self, words: List[str]) -> Optional[str]:
        """Another text."""
        return self.set("text", " ".join(words))

    def shown(self, _rows: int) -> List[str]:
        return [str(self.values["text"])]

    def key(self, code: int) -> List[str]:
        text = str(self.values["text"])
        return ["text", *(text + chr(code)).split(" ")] if code in PRINTABLE and len(text) < TEXT else []


class Lines(Content):
    """Lines."""

    def __init__(self, initial: List[str]):
        self.lines: List[str] = []

    def do_line(self, words: List[str]) -> Optional[str]:
        """A line more."""
        self.lines = [*self.lines, " ".join(words)][-LINES:]
        return None

    def do_clear(self, _words: List[str]) -> Optional[str]:
        """No line."""
        before, self.lines = self.lines, []
        return None if before else "there is no line to clear"

    def state(self) -> object:
        return tuple(self.lines)

    def shown(self, rows: int) -> List[str]:
        return self.lines[-rows:] if rows else []

    def key(self, code: int) -> List[str]:
        return ["line", chr(code)] if code in PRINTABLE else []


class Canvas(Content):
    """Figures."""

    def __init__(self, initial: List[str]):
        self.figures: List[str] = []

    def do_rect(self, words: List[str]) -> Optional[str]:
        """A figure more."""
        return self.add("rect", words)

    def do_swap(self, words: List[str]) -> Optional[str]:
        """A figure more."""
        return self.add("swap", words)

    def do_exchange(self, words: List[str]) -> Optional[str]:
        """A figure more."""
        return self.add("exchange", words)

    def add(self, figure: str, words: List[str]) -> Optional[str]:
        """A figure more."""
        if len(self.figures) == FIGURES:
            return f"the canvas has its {FIGURES} figures already"
        self.figures.append(" ".join([figure, *words]))
        west, east, north, south = (int(word) for word in words[:4])
        return None if west < east and north < south else "the figure has no point: W has to be below E, and N below S"

    def do_undo(self, _words: List[str]) -> Optional[str]:
        """A figure less."""
        if not self.figures:
            return "there is no figure to take away"
        self.figures.pop()
        return None

    def state(self) -> object:
        return tuple(self.figures)

    def answer(self, event: List[str]) -> List[str]:
        if event[0] == "mouse" and event[2] == "firstdown":
            h, v = int(event[4]), int(event[5])
            inside = 0 <= h < 4096 and 0 <= v < 4096
            return ["rect", str(h), str(h + 2), str(v), str(v + 2), "1"] if inside else []
        return super().answer(event)

    def key(self, code: int) -> List[str]:
        return ["undo"] if code == 8 else []


class Meter(Content):
    """Bars."""

    def __init__(self, initial: List[str]):
        self.values = {f"bar {bar}": "0" for bar in range(int(initial[0]))}

    def do_bar(self, words: List[str]) -> Optional[str]:
        """Another height."""
        bar = f"bar {words[0]}"
        if bar not in self.values:
            return f"the meter has no {bar}: its bars are 0 to {len(self.values) - 1}"
        before, self.values[bar] = self.values[bar], words[1]
        return f"{bar} has this height already" if before == words[1] else None

    def key(self, code: int) -> List[str]:
        return ["bar", "0", str(code)]


class Edit(Content):
    """Lines of text, a caret and a clip."""

    def __init__(self, initial: List[str]):
        self.lines, self.row, self.column, self.clip = [""], 0, 0, ""

    def do_insert(self, words: List[str]) -> Optional[str]:
        """Text at the caret."""
        return self.put(" ".join(words), "the text is empty")

    def do_paste(self, _words: List[str]) -> Optional[str]:
        """The clip at the caret."""
        return self.put(self.clip, "the clip is empty: nothing was copied")

    def put(self, text: str, empty: str) -> Optional[str]:
        """Puts a text at the caret."""
        line = self.lines[self.row]
        if not text:
            return empty
        if len(line) + len(text) > TEXT:
            return f"the line would have over {TEXT} bytes"
        self.lines[self.row] = line[: self.column] + text + line[self.column :]
        self.column += len(text)
        return None

    def do_erase(self, _words: List[str]) -> Optional[str]:
        """The byte, or the end of the line, before the caret."""
        line = self.lines[self.row]
        if self.column:
            self.lines[self.row] = line[: self.column - 1] + line[self.column :]
            self.column -= 1
            return None
        if not self.row:
            return "the caret is at the start of the text"
        before = self.lines[self.row - 1]
        if len(before) + len(line) > TEXT:
            return f"the joined line would have over {TEXT} bytes"
        self.lines[self.row - 1 : self.row + 1] = [before + line]
        self.row, self.column = self.row - 1, len(before)
        return None

    def do_split(self, _words: List[str]) -> Optional[str]:
        """Two lines of one."""
        if len(self.lines) == LINES:
            return f"there are {LINES} lines already"
        line = self.lines[self.row]
        self.lines[self.row : self.row + 1] = [line[: self.column], line[self.column :]]
        self.row, self.column = self.row + 1, 0
        return None

    def do_goto(self, words: List[str]) -> Optional[str]:
        """Another place of the caret."""
        before = self.row, self.column
        self.row = min(int(words[0]), len(self.lines) - 1)
        self.column = min(int(words[1]), len(self.lines[self.row]))
        return "the caret is there already" if before == (self.row, self.column) else None

    def state(self) -> object:
        return (*self.lines, self.row, self.column, self.clip)

    def shown(self, rows: int) -> List[str]:
        first = max(0, self.row - rows + 1)
        return self.lines[first : first + rows]

    def do_copy(self, words: List[str]) -> Optional[str]:
        """Another clip."""
        before, self.clip = self.clip, self.lines[self.row][int(words[0]) : int(words[1])]
        return f"the clip is `{before}` already" if before == self.clip else None

    def key(self, code: int) -> List[str]:
        if code in PRINTABLE:
            return ["insert", *chr(code).split(" ")]
        return {8: ["erase"], 13: ["split"]}.get(code, [])


WIDGETS: Dict[str, Callable[[List[str]], Content]] = {
    "solid": Solid,
    "board": Board,
    "label": Label,
    "lines": Lines,
    "canvas": Canvas,
    "meter": Meter,
    "edit": Edit,
}
