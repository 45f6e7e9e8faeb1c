"""Which line of a text is refused, and with which code.

It is a reader of its own, made of the tables of docs/SCRIPT.md and of nothing of the program, so that the two can be
compared. It takes a text of bytes and answers the first line that has a fault, from 1, with the first fault of that
line; or None for a script."""

import re
from typing import Dict, List, NamedTuple, Optional, Tuple

from trestle_tools.grammar import COMMANDS, FORMS, OPENING, REPORTS, WIDGET_COMMANDS, Form
from trestle_tools.scripts import DEPTH, LEAVES, LINE_BYTES, LINES, REPORTS as MOST_REPORTS, STR_BYTES, SYNCS
from trestle_tools.scripts import TEXT_BYTES, WINDOWS

NUMBER = re.compile(r"0|-?[1-9][0-9]*")
NEW_NAME = re.compile(r"[a-z][a-z0-9_]{0,15}")
HEX16 = re.compile(r"[0-9a-fA-F]{16}")
HEX2 = re.compile(r"[0-9a-fA-F]{2}")
STRANGE = re.compile(rb"[^\x20-\x7e]")
FILTERS = ("border", "rigid", "translate")

# The places that a line may have.
VERSION, SCREEN, DECLARING, PLAYING, ENDED = range(5)


class Refusal(NamedTuple):
    """The first line that is refused, and its first fault. Line 0 stands for the whole text."""

    line: int
    code: int

    def text(self) -> bytes:
        """What the program says."""
        return b"refused: line %d B%d\n" % (self.line, self.code)


class Window:
    """A declared window: its kind, or its widget where it is a leaf, and where it hangs."""

    def __init__(self, kind: str, is_leaf: bool):
        self.kind = kind
        self.is_leaf = is_leaf
        self.parent: Optional[Window] = None
        self.children: List[Window] = []

    def depth(self) -> int:
        """How deep it hangs; the topmost window has depth 1."""
        return 1 if self.parent is None else self.parent.depth() + 1

    def height(self) -> int:
        """How many levels it and what is below it have."""
        return 1 + max((child.height() for child in self.children), default=0)

    def has_above(self, other: "Window") -> bool:
        """Whether the other one is this one, or above it."""
        return self is other or (self.parent is not None and self.parent.has_above(other))


def forms_by_word() -> Dict[str, List[Form]]:
    """The forms by their first word; those with an `@` by the word after the name."""
    forms: Dict[str, List[Form]] = {}
    for form in FORMS:
        forms.setdefault(f"@{form.choice}" if form.first == "@" else form.first, []).append(form)
    return forms


BY_WORD = forms_by_word()


def has_words(form: Form, words: List[str], version: int) -> bool:
    """Whether all fixed words of a form are there, and as many words as it has."""
    if not form.takes(len(words)) or (form.is_newer and version < 2):
        return False
    for slot, word in zip(form.slots, words):
        if slot.sort == "fixed" and word != slot.name:
            return False
        if slot.sort == "word" and (word not in slot.options or (word in slot.newer and version < 2)):
            return False
    return True


def form_of(words: List[str], version: int) -> Optional[Form]:
    """The form of a line; None where a word of it is unknown, or their number is wrong."""
    first = words[0]
    if first.startswith("@"):
        first = f"@{words[1]}" if len(words) > 1 else "@"
    for form in BY_WORD.get(first, ()):
        if has_words(form, words, version):
            return form
    return None


def is_value(sort: str, low: int, high: int, word: str) -> bool:
    """Whether a word is a value of this sort."""
    if sort == "number":
        return bool(NUMBER.fullmatch(word)) and len(word) < 20 and low <= int(word) <= high
    if sort == "new":
        return bool(NEW_NAME.fullmatch(word))
    if sort == "hex16":
        return bool(HEX16.fullmatch(word))
    if sort == "hh":
        return bool(HEX2.fullmatch(word)) and 0x20 <= int(word, 16) <= 0x7E
    return True


def has_values(form: Form, words: List[str]) -> bool:
    """Whether all values of a line are spelled well, in range, and in order where they are a shape."""
    for slot, word in zip(form.slots, words):
        if slot.sort != "text" and not is_value(slot.sort, slot.low, slot.high, word):
            return False
    if form.has_text() and len(" ".join(words[len(form.slots) - 1 :])) > STR_BYTES:
        return False
    for at, slot in enumerate(form.slots):
        if slot.name == "LO" and not int(words[at]) <= int(words[at + 1]) <= int(words[at + 2]):
            return False
    return True


class Reader:
    """What the lines so far have said."""

    def __init__(self) -> None:
        self.place = VERSION
        self.version = 1
        self.lines = 0
        self.windows: Dict[str, Window] = {}
        self.glyphs: Dict[int, bool] = {}
        self.root: Optional[Window] = None
        self.syncs = 0
        self.reports = 0
        self.may_report = False

    def fault(self, text: bytes) -> Optional[int]:
        """The first fault of the next line, and what it says, where it has none."""
        self.lines += 1
        if len(text) > LINE_BYTES or STRANGE.search(text):
            return 9
        is_empty = not text or text.startswith(b"#")
        if self.place == ENDED:
            return None if is_empty else 8
        if is_empty:
            return 7 if self.lines > LINES else None
        words = text.decode("ascii").split(" ")
        form = form_of(words, self.version)
        if form is None:
            return 1
        found = self.fault_of_words(form, words)
        if found is None:
            self.take(form, words)
        return found

    # ---- Faults, in their order

    def fault_of_words(self, form: Form, words: List[str]) -> Optional[int]:
        """The first fault of a line whose words are a form's."""
        if not self.is_placed(form.first):
            return 5
        if not has_values(form, words):
            return 2
        if self.is_twice(form, words):
            return 4
        if not self.are_declared(form, words):
            return 3
        if form.choice in WIDGET_COMMANDS and form.first == "@":
            if form.choice not in COMMANDS[self.windows[words[0][1:]].kind]:
                return 10
        if self.has_no_tree(form.first, words):
            return 6
        return 7 if self.is_one_too_many(form.first) else None

    def is_placed(self, first: str) -> bool:
        """Whether a line that begins so may stand here."""
        if first == "trestle":
            return self.place == VERSION
        if first == "screen":
            return self.place == SCREEN
        if first in OPENING:
            return self.place == DECLARING
        if first in REPORTS or first == "end":
            return self.place == PLAYING and self.may_report
        return self.place == PLAYING

    def is_twice(self, form: Form, words: List[str]) -> bool:
        """Whether a line declares what is declared."""
        if form.first == "glyph":
            return int(words[1], 16) in self.glyphs
        return form.first in ("node", "leaf") and words[1] in self.windows

    def are_declared(self, form: Form, words: List[str]) -> bool:
        """Whether all windows that a line names are declared, and leaves where they are to be."""
        for slot, word in zip(form.slots, words):
            if slot.sort in ("name", "leaf"):
                window = self.windows.get(word[1:] if form.first == "@" else word)
                if window is None or (slot.sort == "leaf" and not window.is_leaf):
                    return False
        return True

    def has_no_tree(self, first: str, words: List[str]) -> bool:
        """Whether the windows are not such that this line can be."""
        if first == "put":
            return not self.can_put(self.windows[words[1]], self.windows[words[2]])
        if first == "root":
            return self.root is not None or self.windows[words[1]].parent is not None
        return first == "begin" and self.root is None

    def can_put(self, child: Window, parent: Window) -> bool:
        """Whether a window may become a child of the other."""
        if parent.is_leaf or parent.has_above(child) or child.parent is not None or child is self.root:
            return False
        if parent.kind in FILTERS and parent.children:
            return False
        return parent.depth() + child.height() <= DEPTH

    def is_one_too_many(self, first: str) -> bool:
        """Whether a line is the first beyond a limit."""
        if self.lines > LINES:
            return True
        if first in ("node", "leaf"):
            leaves = sum(window.is_leaf for window in self.windows.values())
            return len(self.windows) >= WINDOWS or (first == "leaf" and leaves >= LEAVES)
        if first in REPORTS:
            return self.reports >= MOST_REPORTS
        return first == "sync" and self.syncs >= SYNCS

    # ---- What a line says

    def take(self, form: Form, words: List[str]) -> None:
        """Takes over a line without a fault."""
        first = form.first
        if first == "trestle":
            self.place, self.version = SCREEN, int(words[1])
        elif first == "screen":
            self.place = DECLARING
        elif first == "begin":
            self.place, self.may_report = PLAYING, True
        elif first == "end":
            self.place = ENDED
        elif first in OPENING:
            self.declare(first, words)
        elif first in REPORTS:
            self.reports += 1
        else:
            self.may_report = first == "sync"
            self.syncs += first == "sync"

    def declare(self, first: str, words: List[str]) -> None:
        """Takes over a line of the opening."""
        if first == "glyph":
            self.glyphs[int(words[1], 16)] = True
        elif first == "node":
            self.windows[words[1]] = Window(words[2], False)
        elif first == "leaf":
            self.windows[words[1]] = Window(words[8], True)
        elif first == "root":
            self.root = self.windows[words[1]]
        elif first == "put":
            child, parent = self.windows[words[1]], self.windows[words[2]]
            child.parent = parent
            parent.children.append(child)


def lines_of(text: bytes) -> List[bytes]:
    """The lines of a text. An empty piece behind the last line feed is none."""
    lines = text.split(b"\n")
    return lines[:-1] if not lines[-1] else lines


def refusal_of(text: bytes) -> Optional[Refusal]:
    """Why a text is refused, if it is."""
    return read(text)[0]


def read(text: bytes) -> Tuple[Optional[Refusal], Reader]:
    """Why a text is refused, if it is, and what its lines said up to there."""
    reader = Reader()
    if len(text) > TEXT_BYTES:
        return Refusal(0, 7), reader
    for line in lines_of(text):
        code = reader.fault(line)
        if code is not None:
            return Refusal(reader.lines, code), reader
    if reader.place != ENDED:
        return Refusal(reader.lines + 1, 8), reader
    return None, reader
