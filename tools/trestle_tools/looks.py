"""What a script's dumps show of its windows and texts, and what nobody sees: windows that no dump shows, letters without
a glyph, texts that are wider than their windows, changes that are undone before a look, dumps that must be alike."""

from typing import Dict, Iterator, List, NamedTuple, Optional, Set, Tuple

from .contents import Content
from .places import Layout
from .scripts import Line, places_of
from .visible import NOT_SHOWN, OFF, hidden
from .windows import Window, Windows

# Steps after which a dump must be as before: the devices' own, and what a client says that doesn't change its content.
# A dump paints what waits and what is bad, whether the client does or not.
UNSEEN_STEPS = ("mouse", "motion", "key", "cage", "free", "own", "disown", "read", "mark", "flush", "force")
# The edits after which a window may be off the screen.
MOVES = ("move", "attach", "offset")
# The reports that show what a change of a window did.
SHOWING = ("dump", "peek", "where")
CELL = 8


class Finding(NamedTuple):
    """Something in a line that is hardly meant."""

    line: Line
    says: str


class Text(NamedTuple):
    """A text that a leaf shows, and the line of the script that gave it."""

    line: Line
    leaf: Window
    text: str


class Change(NamedTuple):
    """A change that nobody has looked at yet: its line, the value before it, and whether an event tells of it."""

    line: Line
    before: object
    is_told: bool


class Looks:
    """Collects what each dump shows."""

    def __init__(self, windows: Windows, contents: Dict[str, Content], declared: Dict[str, Line]):
        self.windows = windows
        self.contents = contents
        self.declared = declared
        self.seen: Set[str] = set()
        # Why nothing of a leaf was seen at the last dump.
        self.why: Dict[str, Tuple[str, str]] = {}
        self.dumps = 0
        self.last_dump: Optional[Line] = None
        self.could_show = False
        # The last line that moved each window, if it did since the last dump.
        self.moved: Dict[str, Line] = {}
        self.changes: Dict[Tuple[str, str], Change] = {}
        # The line that gave each text of a leaf.
        self.given: Dict[Tuple[str, str], Line] = {}
        self.boxes: Dict[Tuple[int, str], Tuple[Text, str]] = {}
        self.cut: Dict[Tuple[int, str], Tuple[Text, str]] = {}
        self.found: List[Finding] = []
        for leaf in self.leaves():
            self.give(leaf, declared[leaf.name])

    def leaves(self) -> List[Window]:
        """All leaves."""
        return [window for window in self.windows.names.values() if window.is_leaf]

    # ---- Steps

    def give(self, leaf: Window, line: Line) -> None:
        """Notes which line gave each text that a leaf has now. A typescript's newest one is its last."""
        for text in self.contents[leaf.name].shown(1 if leaf.kind == "lines" else 1 << 16):
            self.given.setdefault((leaf.name, text), line)

    def step(self, line: Line, is_made: bool) -> None:
        """A step. Of one that was not made, or changed nothing, something else is said, so what hangs on it isn't named."""
        words = line.texts()
        word = words[1] if words[0].startswith("@") else words[0]
        self.could_show |= word not in UNSEEN_STEPS
        if words[0].startswith("@"):
            self.give(self.windows.names[words[0][1:]], line)
        elif word in MOVES and is_made:
            self.moved.update((window.name, line) for window in self.windows.names[words[1]].below())
        if word == "read":
            self.changes = {key: change for key, change in self.changes.items() if key[0] != "content"}

    def changed(self, line: Line, key: Tuple[str, str], before: object, after: object, is_told: bool) -> Optional[str]:
        """A change of a value. Says so if it leads back to the value at the last look."""
        first = self.changes.get(key)
        if not first:
            self.changes[key] = Change(line, before, is_told)
            return None
        if is_told or first.is_told:
            self.changes[key] = Change(first.line, first.before, True)
            return None
        if first.before != after:
            return None
        del self.changes[key]
        return f"it undoes the change of {first.line.at()}, and no `dump` or `peek` shows it between them"

    # ---- Reports

    def report(self, line: Line, words: List[str]) -> None:
        """A report."""
        if words[0] in SHOWING:
            self.changes = {}
        if words[0] == "dump":
            self.dump(line)

    def dump(self, line: Line) -> None:
        """A dump: what it shows."""
        layout = Layout(self.windows)
        if self.last_dump and not self.could_show:
            says = f"the same picture as the dump of {self.last_dump.at()}: no step between them changes the picture"
            self.found.append(Finding(line, says))
        for leaf in self.leaves():
            why = hidden(layout, leaf)
            if not why:
                self.seen.add(leaf.name)
                self.texts(layout, leaf)
                continue
            self.why[leaf.name] = why
            if why.cause == OFF and leaf.name in self.moved and leaf.name in self.seen:
                self.found.append(Finding(self.moved[leaf.name], f"after it nothing of {leaf.name} is seen: {why.says}"))
        self.last_dump, self.could_show, self.moved = line, False, {}
        self.dumps += 1

    def texts(self, layout: Layout, leaf: Window) -> None:
        """The texts that a leaf shows at a dump."""
        there = layout.at(leaf.name)
        wide, high = there.east - there.west, there.south - there.north
        for text in self.contents[leaf.name].shown(high // CELL):
            given = Text(self.given.get((leaf.name, text), self.declared[leaf.name]), leaf, text)
            key = given.line.number, leaf.name
            cells = -(-wide // CELL)
            boxes = "".join(dict.fromkeys(it for it in text[:cells] if ord(it) not in self.windows.glyphs))
            if boxes:
                self.boxes.setdefault(key, (given, boxes))
            if CELL * len(text) > wide:
                rest = text[wide // CELL :]
                says = f"`{text}` is {CELL * len(text)} points wide, and {leaf.name} {wide}: of `{rest}` "
                says += "not all is seen" if cells > wide // CELL else "nothing is seen"
                self.cut.setdefault(key, (given, says))
            elif text and high < CELL:
                says = f"a letter is {CELL} points high, and {leaf.name} {high}: of `{text}` not all is seen"
                self.cut.setdefault(key, (given, says))

    # ---- The end

    def end(self) -> Iterator[Finding]:
        """What is hardly meant when all is over."""
        yield from self.found
        yield from (Finding(text.line, says) for text, says in self.cut.values())
        yield from self.boxes_in_one()
        placed = [leaf for leaf in self.leaves() if leaf.name in self.windows.placed]
        for leaf in placed if self.dumps else []:
            if leaf.name not in self.seen:
                yield Finding(self.declared[leaf.name], self.never_seen(leaf))

    def never_seen(self, leaf: Window) -> str:
        """That no dump shows a leaf, and why."""
        cause, says = self.why[leaf.name]
        dumps = "the dump doesn't show it" if self.dumps == 1 else f"none of the {self.dumps} dumps shows it"
        last = " at the last one" if cause == NOT_SHOWN and self.dumps > 1 else ""
        return f"{leaf.name} is never seen, {dumps}: {says}{last}"

    def boxes_in_one(self) -> Iterator[Finding]:
        """The first text with letters that have no glyph, with the lines of the others: the remedy is the same for all."""
        texts = sorted(self.boxes.values(), key=lambda it: it[0].line.number)
        if not texts:
            return
        text, boxes = texts[0]
        more = places_of(list(dict.fromkeys(it.line for it, _ in texts[1:] if it.line != text.line)))
        also = f" (so also {more})" if more else ""
        letters = ", ".join("the blank" if it == " " else f"`{it}`" for it in boxes)
        what = "has no glyph and shows as a box" if len(boxes) == 1 else "have no glyph and show as boxes"
        says = f"in `{text.text}` {letters} {what}"
        if not self.windows.glyphs:
            says = f"the script has no glyphs, so all letters of `{text.text}` are boxes"
        remedy = "include a font by `# include FILE`, as demos/fonts/ascii.txt, or paste its lines"
        yield Finding(text.line, f"{says}{also}: {remedy}")
