"""The lines that a script may have: a table of forms, and from it what a line's words should be.

A form is written as docs/SCRIPT.md has it. Each word of it is one to be written as it stands, or one with a `=`,
whose value has a range of numbers, some words to choose from, or one of these sorts:

    new     a name that is declared here        hh      a byte in two hex digits, 20 to 7e
    name    a declared name                     hex16   16 hex digits
    leaf    the name of a leaf                  text    the rest of the line, 0 to 80 bytes

Words that are known in version 2 alone have a `+` behind them. What stands in [ ] may be left out as a whole.
"""

import re
from typing import Dict, Iterator, List, NamedTuple, Optional, Tuple

TABLE = """
trestle N=1..2
screen W=1..1024 H=1..1024 KIND=mono|map4+|map8
glyph HH=hh HEX16=hex16
node NAME=new h TINT=0..255
node NAME=new v TINT=0..255
node NAME=new z TINT=0..255
node NAME=new t TINT=0..255
node NAME=new page TINT=0..255 PER=1..16
node NAME=new pack+ TINT=0..255 WAY=across|down GAP=0..64
node NAME=new border TINT=0..255 WIDTH=0..255
node NAME=new rigid TINT=0..255 W=0..4096 H=0..4096
node NAME=new translate TINT=0..255 DH=-2048..2048 DV=-2048..2048
leaf NAME=new SHAPE solid TINT=0..255
leaf NAME=new SHAPE board HEX16=hex16 H=-4096..4096 V=-4096..4096
leaf NAME=new SHAPE label STR=text
leaf NAME=new SHAPE lines
leaf NAME=new SHAPE canvas
leaf NAME=new SHAPE meter N=1..32
leaf NAME=new SHAPE edit+
put CHILD=name PARENT=name [H=-2048..2048 V=-2048..2048]
root NAME=name
begin

mouse T=1..4294967295 WAY=down|up B=1..5
motion T=1..4294967295 H=-8192..8191 V=-8192..8191
key T=1..4294967295 CODE=0..255
attach CHILD=name PARENT=name [H=-2048..2048 V=-2048..2048]
detach CHILD=name
tint NODE=name TINT=0..255
border NODE=name WIDTH=0..255
offset NODE=name DH=-2048..2048 DV=-2048..2048
fix NODE=name W=0..4096 H=0..4096
move CHILD=name H=-2048..2048 V=-2048..2048
lift CHILD=name
show NODE=name CHILD=name
turn NODE=name PAGE=0..255
shapes LEAF=name SHAPE
resize W=1..1024 H=1..1024
rescreen KIND=mono|map4+|map8

@LEAF tint N=0..255
@LEAF tile HEX16=hex16
@LEAF shift H=-4096..4096 V=-4096..4096
@LEAF text STR=text
@LEAF line STR=text
@LEAF clear
@LEAF rect EDGES T=0..255
@LEAF swap EDGES
@LEAF exchange+ EDGES A=0..255 B=0..255
@LEAF undo
@LEAF bar I=0..31 V=0..255
@LEAF insert+ STR=text
@LEAF erase+
@LEAF split+
@LEAF goto+ R=0..199 C=0..80
@LEAF copy+ A=0..80 B=0..80
@LEAF paste+
@LEAF mark EDGES
@LEAF flush
@LEAF force
@LEAF take
@LEAF cage EDGES WHERE=here|gone|both
@LEAF free
@LEAF own SEL=key|source|target T=1..4294967295
@LEAF disown SEL=key|source|target
@LEAF read SEL=key|source|target

sync
dump
peek
where H=-8192..8191 V=-8192..8191
inbox LEAF=leaf
journal
end
"""
SHORT = {
    "SHAPE": "LO=0..4096 PREF=0..4096 HI=0..4096 LO=0..4096 PREF=0..4096 HI=0..4096",
    "EDGES": "W=-8192..8192 E=-8192..8192 N=-8192..8192 S=-8192..8192",
    "@LEAF": "@LEAF=leaf",
}

# The commands of each widget. A leaf of any widget has the other lines with an @.
COMMANDS = {
    "solid": ("tint",),
    "board": ("tile", "shift"),
    "label": ("text",),
    "lines": ("line", "clear"),
    "canvas": ("rect", "swap", "exchange", "undo"),
    "meter": ("bar",),
    "edit": ("insert", "erase", "split", "goto", "copy", "paste"),
}
WIDGET_COMMANDS = {word for words in COMMANDS.values() for word in words}
REPORTS = ("dump", "peek", "where", "inbox", "journal")
DEVICES = ("mouse", "motion", "key")
EDITS = ("attach", "detach", "tint", "border", "offset", "fix", "move", "lift", "show", "turn", "shapes", "resize", "rescreen")
SORTS = ("new", "name", "leaf", "hh", "hex16", "text")


class Slot(NamedTuple):
    """A place for a word: a fixed word, or a value with its name."""

    name: str
    sort: str
    low: int = 0
    high: int = 0
    options: Tuple[str, ...] = ()
    newer: Tuple[str, ...] = ()


class Form(NamedTuple):
    """What a line of one kind may be. The choice is the word by which it is told from others of its first word."""

    first: str
    choice: str
    place: int
    slots: Tuple[Slot, ...]
    is_newer: bool

    def usage(self) -> str:
        """The form as a person reads it."""
        names = [slot.name if len(slot.options) != 2 else "|".join(slot.options) for slot in self.slots]
        return " ".join(["@LEAF", *names[1:]] if self.first == "@" else names)

    def has_text(self) -> bool:
        """Whether it ends with a text, which may be left out."""
        return self.slots[-1].sort == "text"

    def takes(self, count: int) -> bool:
        """Whether a line of so many words may have this form."""
        return count >= len(self.slots) - 1 if self.has_text() else count == len(self.slots)


def slot_of(word: str) -> Slot:
    """A place as the table has it."""
    name, _, value = word.partition("=")
    if not value:
        return Slot(name.rstrip("+"), "fixed")
    if value in SORTS:
        return Slot(name, value)
    if ".." in value:
        low, high = value.split("..")
        return Slot(name, "number", int(low), int(high))
    options = value.split("|")
    newer = tuple(it.rstrip("+") for it in options if it.endswith("+"))
    return Slot(name, "word", options=tuple(it.rstrip("+") for it in options), newer=newer)


def variants(line: str) -> Iterator[str]:
    """A line of the table without and with what stands in [ ]."""
    if "[" in line:
        yield re.sub(r" \[.*\]", "", line)
    yield line.replace("[", "").replace("]", "")


def form_of(line: str) -> Form:
    """A form as a line of the table has it."""
    words = [part for word in line.split() for part in SHORT.get(word, word).split()]
    slots = tuple(slot_of(word) for word in words)
    first = "@" if slots[0].name == "@LEAF" else slots[0].name
    fixed = [place for place, slot in enumerate(slots) if place and slot.sort == "fixed"]
    place = fixed[0] if fixed else 0
    return Form(first, slots[place].name if place else "", place, slots, words[place].endswith("+"))


FORMS: Tuple[Form, ...] = tuple(form_of(it) for line in TABLE.split("\n") if line for it in variants(line))
OPENING = ("trestle", "screen", "glyph", "node", "leaf", "put", "root", "begin")
FIRST_WORDS = tuple(dict.fromkeys(form.first for form in FORMS if form.first != "@"))


def forms_of(first: str) -> List[Form]:
    """The forms of lines that begin with a word; all that begin with an `@` belong together."""
    return [form for form in FORMS if form.first == ("@" if first.startswith("@") else first)]


def choices_of(forms: List[Form]) -> Dict[str, List[Form]]:
    """Forms of one first word by the word that tells them apart."""
    choices: Dict[str, List[Form]] = {}
    for form in forms:
        choices.setdefault(form.choice, []).append(form)
    return choices


def form_for(words: List[str]) -> Optional[Form]:
    """The form of a line by its words, or None where the words are no form's, or too many or too few."""
    for form in forms_of(words[0]):
        if form.takes(len(words)) and (not form.choice or words[form.place] == form.choice):
            return form
    return None
