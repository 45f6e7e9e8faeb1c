"""Scripts that are drawn at random, cut, joined and bent. A script is given by a seed and a number."""

import random
from typing import Callable, Dict, List, Sequence, Set

from trestle_tools.grammar import COMMANDS, FORMS, OPENING, REPORTS, WIDGET_COMMANDS, Form, Slot

from .reader import PLAYING, Reader, Window

# What a number of any range is likely to be wrong at.
ENDS = (0, 1, -1, 2, 15, 16, 17, 32, 33, 63, 64, 65, 80, 81, 199, 200, 255, 256, 1024, 1025, 2048, -2048, 2049, 4096, 4097)
ENDS += (8191, 8192, -8192, -8193, 65535, 65536, 2**31 - 1, 2**31, 2**32 - 1, 2**32, 2**63, 2**64, 10**30)
LETTERS = "abcdefghijklmnopqrstuvwxyz"
WORDS = sorted({slot.name for form in FORMS for slot in form.slots if slot.sort == "fixed"})
WORDS += sorted({word for form in FORMS for slot in form.slots for word in slot.options}) + ["", "@a", "@b", "a", "b", "z"]
DECLARED = [form for form in FORMS if form.first in ("glyph", "node", "leaf", "put")]
STEPS = [form for form in FORMS if form.first not in (*OPENING, *REPORTS, "sync", "end")]
WIDGET_STEPS = [form for form in STEPS if form.choice in WIDGET_COMMANDS]
PAINTED = [form for form in STEPS if form.choice in ("mark", "flush", "force")]
HEARD = [form for form in STEPS if form.choice in ("take", "take", "cage", "free", "own", "disown", "read")]
EDITS = [form for form in STEPS if form.first not in ("@", "mouse", "motion", "key")]
REPORTED = [form for form in FORMS if form.first in REPORTS]


# For which windows an edit is meant, and for `show` and `attach` also the second one.
MEANT: Dict[str, Callable[[Window], bool]] = {
    "tint": lambda it: not it.is_leaf,
    "border": lambda it: it.kind == "border",
    "offset": lambda it: it.kind == "translate",
    "fix": lambda it: it.kind == "rigid",
    "turn": lambda it: it.kind == "page",
    "show": lambda it: it.kind == "t" or it.parent is not None and it.parent.kind == "t",
    "move": lambda it: it.parent is not None and it.parent.kind == "z",
    "lift": lambda it: it.parent is not None and it.parent.kind == "z",
    "shapes": lambda it: it.is_leaf,
    "detach": lambda it: it.parent is not None,
    "attach": lambda it: not it.is_leaf or it.parent is None,
}


def form_named(first: str) -> Form:
    """The one form of a first word."""
    return next(form for form in FORMS if form.first == first)


class Pen:
    """Writes the lines of a script, each one of which the reader takes."""

    def __init__(self, chance: random.Random):
        self.chance = chance
        self.reader = Reader()
        self.lines: List[bytes] = []
        self.time = 1
        self.held: Set[int] = set()
        # The longest side of the screen, and the most that a length of a shape may be.
        self.side = chance.choice((3, 8, 20, 20, 40, 40, 100, 1024 if chance.random() < 0.1 else 30))

    def take(self, text: str) -> bool:
        """Writes a line, unless it has a fault."""
        line = text.encode("ascii")
        before = self.reader.lines
        if self.reader.fault(line) is not None:
            self.reader.lines = before
            return False
        self.lines.append(line)
        return True

    def write(self, form: Form, tries: int = 3) -> None:
        """Writes a line of this form, where one of a few is right."""
        for _ in range(tries):
            if self.take(self.drawn(form)):
                return

    # ---- Lines

    def drawn(self, form: Form) -> str:
        """A line of a form, whose values are likely to be right."""
        words: List[str] = []
        for slot in form.slots:
            if slot.name in ("PREF", "HI") and words:
                words.append(str(min(4096, int(words[-1]) + self.chance.choice((0, 0, 1, self.side)))))
            else:
                words.append(self.word(form, slot))
        if form.has_text() and self.chance.random() < 0.1:
            words.pop()
        return " ".join(words)

    def word(self, form: Form, slot: Slot) -> str:
        """A word for a slot."""
        if slot.sort == "fixed":
            return slot.name
        if slot.sort == "word":
            return self.chance.choice([it for it in slot.options if self.reader.version == 2 or it not in slot.newer])
        if slot.sort == "number":
            return str(self.number(form, slot))
        return DRAWN[slot.sort](self, form)

    def number(self, form: Form, slot: Slot) -> int:
        """A number for a slot: mostly small, as windows and screens are; sometimes any, or one of its ends."""
        if form.choice == "own" and slot.name == "T" and self.chance.random() < 0.8:
            return self.time
        if slot.name == "T" and slot.high > 255:
            self.time += self.chance.choice((0, 1, 1, 1, 7, -1 if self.chance.random() < 0.1 else 1))
            return max(1, min(self.time, slot.high))
        if slot.name in ("W", "H") and slot.low == 1 or slot.name == "LO":
            return self.chance.randint(slot.low, self.side)
        way = self.chance.random()
        if way < 0.05:
            return self.chance.choice((slot.low, slot.high))
        if way < 0.15:
            return self.chance.randint(slot.low, slot.high)
        return self.chance.randint(max(slot.low, -self.side // 4), min(slot.high, self.side))

    def name(self, form: Form) -> str:
        """The name of a window, mostly of one for which an edit is meant."""
        windows = self.reader.windows
        if form.first in MEANT and self.chance.random() < 0.85:
            meant = [name for name, window in windows.items() if MEANT[form.first](window)]
            if meant:
                return self.chance.choice(meant)
        return self.chance.choice(list(windows) or ["a"])

    def new_name(self, form: Form) -> str:
        """A name that is mostly new."""
        return self.chance.choice(LETTERS) + str(len(self.reader.windows))

    def leaf(self, form: Form) -> str:
        """The name of a leaf, with an `@` where the line wants one; of the right widget, where there is one."""
        leaves = [name for name, window in self.reader.windows.items() if window.is_leaf]
        if form.choice in WIDGET_COMMANDS:
            fit = [name for name in leaves if form.choice in COMMANDS[self.reader.windows[name].kind]]
            leaves = fit or leaves
        return ("@" if form.first == "@" else "") + self.chance.choice(leaves or ["a"])

    def byte(self, form: Form) -> str:
        """A byte that a glyph may have."""
        return f"{self.chance.randint(0x20, 0x7E):02x}"

    def tile(self, form: Form) -> str:
        """16 hex digits."""
        return f"{self.chance.getrandbits(64):016x}"

    def text(self, form: Form) -> str:
        """A text of a label, a typescript or an editor."""
        length = self.chance.choice((0, 1, 2, 5, 5, 20, 79, 80))
        return "".join(chr(self.chance.randint(32, 126)) for _ in range(length))

    # ---- Scripts

    def opening(self) -> None:
        """The opening, up to its begin."""
        self.take(f"trestle {self.chance.choice('12')}")
        self.write(form_named("screen"), 9)
        leaves = [form for form in DECLARED if form.first == "leaf"]
        nodes = [form for form in DECLARED if form.first == "node"]
        puts = [form for form in DECLARED if form.first == "put"]
        for form in self.chance.choices(nodes, k=self.chance.choice((1, 1, 2, 3, 5, 9))):
            self.write(form)
        for form in self.chance.choices(leaves, k=self.chance.choice((1, 1, 2, 3, 4, 8, 33))):
            self.write(form)
        for form in self.chance.choices(DECLARED[:1] + puts * 5, k=3 * len(self.reader.windows)):
            self.write(form, 1)
        tops = [name for name, window in self.reader.windows.items() if window.parent is None]
        if tops:
            self.take(f"root {max(tops, key=lambda name: self.reader.windows[name].height())}")
        self.take("begin")

    def step(self) -> None:
        """A step: of a widget, of its painting, of an input device, of who listens to it, or an edit."""
        way = self.chance.random()
        if 0.5 <= way < 0.7:
            self.device()
            return
        forms = WIDGET_STEPS if way < 0.35 else PAINTED if way < 0.5 else HEARD if way < 0.85 else EDITS
        self.write(self.chance.choice(forms))

    def device(self) -> None:
        """A step of an input device, as a hand makes it: a button that is down goes up, and the cursor is near by."""
        self.time += self.chance.choice((0, 0, 1, 1, 5))
        way = self.chance.random()
        if way < 0.35:
            h, v = (self.chance.randint(-1, self.side) for _ in range(2))
            self.take(f"motion {self.time} {h} {v}")
        elif way < 0.8:
            button = self.chance.choice((1, 1, 1, 2, 5))
            is_right = self.chance.random() < 0.95
            self.take(f"mouse {self.time} {'up' if (button in self.held) == is_right else 'down'} {button}")
            self.held ^= {button} if is_right else set()
            self.owners()
        else:
            self.take(f"key {self.time} {self.chance.choice((8, 13, 32, 65, 126, self.chance.randrange(256)))}")

    def owners(self) -> None:
        """Sometimes all leaves want to own a selection at this time, and then a key comes."""
        if self.chance.random() < 0.3:
            selection = self.chance.choice(("key", "key", "source", "target"))
            for name in [name for name, window in self.reader.windows.items() if window.is_leaf][:5]:
                self.take(f"@{name} own {selection} {self.time}")
            self.take(f"key {self.time} {self.chance.randint(32, 126)}")

    def part(self) -> None:
        """Some steps, a sync and some reports."""
        for _ in range(self.chance.choice((0, 1, 2, 5, 10, 20, 20))):
            self.step()
        if self.lines and self.chance.random() < 0.02:
            for _ in range(self.chance.choice((10, 70, 210, 1000))):
                self.take(self.lines[-1].decode("ascii"))
        self.take("sync")
        for form in self.chance.choices(REPORTED, k=self.chance.choice((0, 1, 1, 2, 4))):
            self.write(form)

    def script(self) -> bytes:
        """A whole script."""
        self.opening()
        if self.reader.place == PLAYING and self.chance.random() < 0.3:
            self.take("dump")
        for _ in range(self.chance.choice((0, 1, 1, 2, 3, 5, 8))):
            self.part()
        if self.chance.random() < 0.7:
            self.take("dump")
        self.take("end")
        return b"".join(line + b"\n" for line in self.lines)


DRAWN: Dict[str, Callable[[Pen, Form], str]] = {
    "name": Pen.name,
    "new": Pen.new_name,
    "leaf": Pen.leaf,
    "hh": Pen.byte,
    "hex16": Pen.tile,
    "text": Pen.text,
}

# ---- What is done to scripts


def noise(chance: random.Random) -> bytes:
    """Bytes without a sense."""
    return bytes(chance.choice((10, 32, 64, 97, chance.randrange(256))) for _ in range(chance.choice((1, 9, 99, 999))))


def jumble(chance: random.Random) -> bytes:
    """Words of the grammar without one."""
    lines = [b"trestle 2", b"screen 4 4 map8"] if chance.random() < 0.8 else []
    for _ in range(chance.choice((1, 3, 9, 30))):
        words = [chance.choice(WORDS) if chance.random() < 0.7 else str(chance.choice(ENDS)) for _ in range(chance.randint(1, 9))]
        lines.append(" ".join(words).encode("ascii"))
    return b"\n".join(lines)


def bend_byte(chance: random.Random, script: bytes) -> bytes:
    """Another byte, one more, or one less."""
    at = chance.randrange(len(script) + 1)
    byte = bytes([chance.choice((10, 13, 32, 9, 0, 45, 48, 57, 35, 64, 127, 128, 255, chance.randrange(256)))])
    return script[:at] + chance.choice((b"", byte)) + script[at + chance.choice((0, 1)) :]


def bend_lines(chance: random.Random, script: bytes) -> bytes:
    """A line twice, away, elsewhere, many times, or with a comment of a length about the limit."""
    lines = script.split(b"\n")
    at, to = chance.randrange(len(lines)), chance.randrange(len(lines))
    way = chance.randrange(6)
    if way == 0:
        lines.insert(to, lines[at])
    elif way == 1:
        del lines[at]
    elif way == 2:
        lines[at], lines[to] = lines[to], lines[at]
    elif way == 3:
        lines[at:at] = [lines[at]] * chance.choice((2, 33, 64, 65, 300))
    elif way == 4:
        lines.insert(at, b"#" * chance.choice((0, 1, 1023, 1024, 1025)))
    else:
        lines[at : at + 2] = [b" ".join(lines[at : at + 2])]
    return b"\n".join(lines)


def bend_word(chance: random.Random, script: bytes) -> bytes:
    """Another word in a line: a number at an end of some range, or a word of the grammar."""
    lines = script.split(b"\n")
    at = chance.randrange(len(lines))
    words = lines[at].split(b" ")
    place = chance.randrange(len(words))
    other = str(chance.choice(ENDS)) if chance.random() < 0.6 else chance.choice(WORDS)
    way = chance.randrange(8)
    if way == 0:
        words.insert(place, other.encode("ascii"))
    elif way == 1:
        del words[place]
    else:
        words[place] = other.encode("ascii")
    lines[at] = b" ".join(words)
    return b"\n".join(lines)


def bent(chance: random.Random, script: bytes) -> bytes:
    """A script with some changes."""
    for _ in range(chance.choice((1, 1, 1, 2, 3, 6))):
        script = chance.choice((bend_byte, bend_lines, bend_word, bend_word))(chance, script)
    return script


def joined(chance: random.Random, first: bytes, second: bytes) -> bytes:
    """The head of one script and the tail of another."""
    return first[: chance.randrange(len(first) + 1)] + second[chance.randrange(len(second) + 1) :]


def draw(seed: str, number: int, others: Sequence[bytes]) -> bytes:
    """The script of a seed and a number. The others are scripts that may be cut, joined and bent, too."""
    chance = random.Random(f"{seed} {number}")
    way = chance.random()
    if way < 0.02:
        return noise(chance)
    if way < 0.06:
        return jumble(chance)
    script = Pen(chance).script() if not others or chance.random() < 0.6 else chance.choice(others)
    if way < 0.35:
        return script
    if way < 0.45:
        return script[: chance.randrange(len(script) + 1)]
    if way < 0.55:
        return joined(chance, script, chance.choice(others) if others else script)
    return bent(chance, script)
