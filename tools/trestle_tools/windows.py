"""What the lines of a script say so far: its version, its names, the tree of its windows, and what is set of each.

The lines are taken as right: the program has said so. Edits after `begin` are taken over where they were made."""

from typing import Dict, Iterator, List, Optional, Set

from .grammar import REPORTS
from .scripts import DEPTH, Line

FILTERS = ("border", "rigid", "translate")


class Window:
    """A window of the script: a leaf with a widget, or a node of a kind."""

    def __init__(self, name: str, line: Line):
        words = line.texts()
        self.name = name
        self.line = line.number
        self.is_leaf = words[0] == "leaf"
        self.kind = words[8] if self.is_leaf else words[2]
        self.initial = line.text.split(" ", 9)[9:] if self.is_leaf else words[3:]
        self.parent: Optional["Window"] = None
        # The front one first, or the first one.
        self.children: List["Window"] = []
        # What edits set, by the edit's word.
        self.settings: Dict[str, List[str]] = dict(self.first_settings(words))

    def first_settings(self, words: List[str]):
        """What the line that declares the window sets."""
        if self.is_leaf:
            yield "shapes", words[2:8]
            return
        yield "tint", words[3:4]
        for kind, edit in (("border", "border"), ("rigid", "fix"), ("translate", "offset")):
            if self.kind == kind:
                yield edit, words[4:]
        if self.kind == "page":
            yield "turn", ["0"]

    def title(self) -> str:
        """The window's name, and what it is."""
        return f"{self.name} is a {self.kind}" + (" leaf" if self.is_leaf else "")

    def below(self) -> Iterator["Window"]:
        """The window, and all that is in it."""
        yield self
        for child in self.children:
            yield from child.below()

    def above(self) -> Iterator["Window"]:
        """The window, its parent, that one's parent, and so on."""
        window: Optional[Window] = self
        while window:
            yield window
            window = window.parent

    def height(self) -> int:
        """How many windows lie one in the other, itself counted."""
        return 1 + max((child.height() for child in self.children), default=0)

    def attach(self, child: "Window", place: List[str]) -> None:
        """Makes a window a child: the front one of a z, else the last one."""
        child.parent = self
        child.settings["move"] = place or ["0", "0"]
        self.children.insert(0 if self.kind == "z" else len(self.children), child)

    def detach(self) -> None:
        """Takes the window from its parent."""
        if self.parent:
            self.parent.children.remove(self)
            if self.parent.settings.get("show") == [self.name]:
                del self.parent.settings["show"]
            self.parent = None

    def shown(self) -> Optional[str]:
        """The name of the child that a t shows."""
        named = self.settings.get("show")
        return named[0] if named else self.children[0].name if self.children else None


class Windows:
    """What the lines so far say."""

    def __init__(self) -> None:
        self.version = 0
        self.version_line = 0
        self.screen_line = 0
        self.begin_line = 0
        self.end_line = 0
        self.names: Dict[str, Window] = {}
        self.glyphs: Dict[int, int] = {}
        self.root: Optional[Window] = None
        self.root_line = 0
        self.screen: List[str] = []
        self.kind = ""
        self.leaves = self.reports = self.syncs = 0
        # The windows that were below the root at some time.
        self.placed: Set[str] = set()
        # The first word of the last line that means something.
        self.last = ""

    def add(self, line: Line) -> None:
        """Takes over a line."""
        if line.is_empty():
            return
        words = line.texts()
        self.last = words[0]
        maker = getattr(self, f"add_{words[0]}", None)
        if maker and not self.begin_line:
            maker(line, words)
        elif words[0] == "end":
            self.end_line = line.number
        elif words[0] == "sync":
            self.syncs += 1
        elif words[0] in REPORTS:
            self.reports += 1

    def add_trestle(self, line: Line, words: List[str]) -> None:
        """The version."""
        self.version, self.version_line = int(words[1]), line.number

    def add_screen(self, line: Line, words: List[str]) -> None:
        """The screen."""
        self.screen_line, self.screen, self.kind = line.number, words[1:3], words[3]

    def add_glyph(self, line: Line, words: List[str]) -> None:
        """A glyph."""
        self.glyphs[int(words[1], 16)] = line.number

    def add_node(self, line: Line, words: List[str]) -> None:
        """A window."""
        self.names[words[1]] = Window(words[1], line)

    def add_leaf(self, line: Line, words: List[str]) -> None:
        """A window with a widget."""
        self.leaves += 1
        self.add_node(line, words)

    def add_put(self, _line: Line, words: List[str]) -> None:
        """A child."""
        self.names[words[2]].attach(self.names[words[1]], words[3:])

    def add_root(self, line: Line, words: List[str]) -> None:
        """The root."""
        self.root, self.root_line = self.names[words[1]], line.number

    def add_begin(self, line: Line, _words: List[str]) -> None:
        """The end of the opening."""
        self.begin_line = line.number
        self.place(self.root)

    def place(self, window: Optional[Window]) -> None:
        """Notes a window, and all in it, as placed, where it is below the root."""
        if window and self.root in window.above():
            self.placed.update(it.name for it in window.below())

    def attach_fault(self, child: Window, parent: Window) -> Optional[str]:
        """Why a window can't become a child of another, as the program's N1 to N5 have it."""
        if parent.is_leaf:
            return f"{parent.title()}, and a leaf has no children"
        if child in parent.above():
            return f"{child.name} would be below itself" if child is not parent else f"{child.name} would be in itself"
        if parent.kind in FILTERS and parent.children:
            return f"{parent.title()}, which has one child, and that is {parent.children[0].name} already"
        if child.parent:
            return f"{child.name} is in {child.parent.name} already"
        if child is self.root:
            return f"{child.name} is the root"
        if len(list(parent.above())) + child.height() > DEPTH:
            return f"the tree would be deeper than {DEPTH} windows"
        return None

    def edit(self, words: List[str]) -> Optional[str]:
        """Takes over an edit that was made, and says why it changes nothing, where that is so."""
        edit, values = words[0], words[2:]
        if edit == "resize":
            same, self.screen = self.screen == words[1:], words[1:]
            return f"the screen is {' by '.join(words[1:])} already" if same else None
        if edit == "rescreen":
            same, self.kind = self.kind == words[1], words[1]
            return f"the screen is {words[1]} already" if same else None
        window = self.names[words[1]]
        if edit == "attach":
            self.names[words[2]].attach(window, values[1:])
            self.place(window)
            return None
        if edit == "detach":
            window.detach()
            return None
        return self.lift(window) if edit == "lift" else self.set(window, edit, values)

    def lift(self, window: Window) -> Optional[str]:
        """Brings a child of a z to the front."""
        children = window.parent.children if window.parent else []
        if children[:1] == [window]:
            return f"{window.name} is the front one of {window.parent.name} already"
        children.remove(window)
        children.insert(0, window)
        return None

    def set(self, window: Window, edit: str, values: List[str]) -> Optional[str]:
        """Sets what an edit sets of a window."""
        before = [window.shown()] if edit == "show" else window.settings.get(edit)
        window.settings[edit] = values
        if before != values:
            return None
        told = {"move": f"is at {' '.join(values)}", "show": f"shows {values[0]}", "turn": f"is at page {values[0]}"}
        return f"{window.name} {told.get(edit, 'has ' + ' '.join(values))} already"
