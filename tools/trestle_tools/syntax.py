"""The files by which editors colour scripts: a syntax file for vim, and a grammar for editors that read TextMate's. Both
are made of the table of forms, so they know each line that a script may have, and mark every other line as wrong. They
see one line at a time: not whether a name is declared, nor which version a script has.

A pattern is written for TextMate; vim reads the same one with another sign for a group."""

import json
from typing import Dict, Iterator, List, NamedTuple, Tuple

from .grammar import FORMS, Slot
from .scripts import LINE_BYTES, NAME_BYTES, STR_BYTES

# What each sort of word is: for vim the group that it is linked to, for TextMate its scope.
KINDS = {
    "word": ("Statement", "keyword.control"),
    "choice": ("Type", "constant.language"),
    "number": ("Number", "constant.numeric"),
    "hex": ("Number", "constant.numeric.hex"),
    "new": ("Identifier", "entity.name.type"),
    "name": ("Identifier", "variable.other"),
    "text": ("String", "string.unquoted"),
}
# (a line has at most 1,024 bytes; only a comment could have more)
COMMENT = f"#[ -~]{{0,{LINE_BYTES - 1}}}"
NAME = f"[a-z][a-z0-9_]{{0,{NAME_BYTES - 1}}}"
HEX = "[0-9A-Fa-f]"
# (where a text is empty, the space before it may be missing)
TEXT = f"[ -~]{{0,{STR_BYTES}}}"


class Word(NamedTuple):
    """A word of a line: its pattern, and which of the kinds above it is."""

    pattern: str
    kind: str


def group(parts: List[str]) -> str:
    """One of some patterns."""
    return parts[0] if len(parts) == 1 else f"(?:{'|'.join(parts)})"


def digits(low: int, high: int) -> str:
    """A digit of a range."""
    return str(low) if low == high else f"[{low}-{high}]"


def some(count: int) -> str:
    """So many digits."""
    return "[0-9]" * count if count < 2 else f"[0-9]{{{count}}}"


def up_to(high: int) -> Iterator[str]:
    """The numbers from 1 to `high`, without leading zeros: those with fewer digits, then those with as many."""
    text = str(high)
    if len(text) > 1:
        yield f"[1-9][0-9]{{0,{len(text) - 2}}}"
    for place, digit in enumerate(text):
        least = 0 if place else 1
        if int(digit) > least:
            yield text[:place] + digits(least, int(digit) - 1) + some(len(text) - place - 1)
    yield text


def number(low: int, high: int) -> str:
    """The numbers of a range whose low end is 0 or 1, or is negative."""
    parts = [*["0"] * (low <= 0), *up_to(high)]
    if low < 0:
        parts.append(f"-{group(list(up_to(-low)))}")
    return group(parts)


def word_of(slot: Slot) -> Word:
    """The pattern of a place for a word."""
    if slot.sort == "fixed":
        return Word(slot.name, "word")
    if slot.sort == "number":
        return Word(number(slot.low, slot.high), "number")
    if slot.sort == "word":
        return Word(group(list(slot.options)), "choice")
    if slot.sort == "hh":
        return Word(f"(?:[2-6]{HEX}|7[0-9A-Ea-e])", "hex")
    if slot.sort == "hex16":
        return Word(f"{HEX}{{16}}", "hex")
    if slot.sort == "text":
        return Word(TEXT, "text")
    if slot.name == "@LEAF":
        return Word(f"[@]{NAME}", "name")
    return Word(NAME, "new" if slot.sort == "new" else "name")


LINES: Tuple[Tuple[Word, ...], ...] = tuple(tuple(word_of(slot) for slot in form.slots) for form in FORMS)


def line_pattern(words: Tuple[Word, ...]) -> str:
    """The pattern of a whole line, with a group for each word."""
    pattern = f"({words[0].pattern})"
    for word in words[1:]:
        pattern += f"(?: ({word.pattern}))?" if word.kind == "text" else f" ({word.pattern})"
    return f"^{pattern}$"


def textmate() -> str:
    """The grammar for editors that read TextMate's."""
    patterns: List[Dict[str, object]] = [{"name": "comment.line.number-sign.trestle", "match": f"^{COMMENT}$"}]
    for words in LINES:
        scopes = {str(place): {"name": f"{KINDS[word.kind][1]}.trestle"} for place, word in enumerate(words, 1)}
        patterns.append({"match": line_pattern(words), "captures": scopes})
    patterns.append({"name": "invalid.illegal.trestle", "match": "^.+$"})
    head = {
        "comment": "made by tools/write_syntax of the table of forms: change that",
        "name": "trestle script",
        "scopeName": "source.trestle",
        "fileTypes": ["trestle"],
        "firstLineMatch": "^trestle [12]$",
    }
    # (a line for each pattern)
    start = json.dumps(head, indent=1)[:-2]
    lines = ",\n".join(f"  {json.dumps(pattern)}" for pattern in patterns)
    return f'{start},\n "patterns": [\n{lines}\n ]\n}}\n'


class State:
    """A place in a line for vim: the words that may come next there, and whether the line may end."""

    def __init__(self) -> None:
        self.next: Dict[Word, State] = {}
        self.ends = False

    def add(self, words: Tuple[Word, ...]) -> None:
        """Has these words lead from here to an end."""
        self.ends |= not words or words[0].kind == "text"
        if words:
            self.next.setdefault(words[0], State()).add(words[1:])

    def follows(self) -> str:
        """What must follow the word that leads here: a space where another word must come, the end where none may."""
        if not self.next:
            return "$"
        return "%( |$)@=" if self.ends else "%( )@="


class Groups:
    """Vim's groups: one for each word at each place, which names those that may come next."""

    def __init__(self) -> None:
        self.lines: List[str] = []
        self.count = 0

    def add_all(self, state: State, head: str, how: str = "") -> List[str]:
        """Adds a group for each word that may come at a place, behind those that may follow it. Gives their names."""
        names = []
        for word, after in state.next.items():
            followers = self.add_all(after, " ", " contained")
            followed = f" nextgroup={','.join([*followers, 'trestleRest'])}" if followers else ""
            self.count += 1
            names.append(f"trestle{word.kind.capitalize()}{self.count}")
            pattern = head + word.pattern.replace("(?:", "%(") + after.follows()
            self.lines.append(f"syntax match {names[-1]} /\\v{pattern}/{how}{followed}")
            self.lines.append(f"highlight default link {names[-1]} {KINDS[word.kind][0]}")
        return names


VIM_HEAD = f"""\
" Scripts of trestle. Made by tools/write_syntax of the table of forms: change that.
if exists("b:current_syntax")
    finish
endif
syntax case match
syntax match trestleWrong /^.\\+/
syntax match trestleRest /.\\+/ contained
highlight default link trestleWrong Error
highlight default link trestleRest Error
syntax match trestleComment /\\v^{COMMENT}$/
highlight default link trestleComment Comment
"""


def vim() -> str:
    """The syntax file for vim."""
    start, groups = State(), Groups()
    for words in LINES:
        start.add(words)
    groups.add_all(start, "^")
    return VIM_HEAD + "\n".join(groups.lines) + '\nlet b:current_syntax = "trestle"\n'


# What is made, by the name below tools/editors.
FILES = {"vim/syntax/trestle.vim": vim, "textmate/trestle.tmLanguage.json": textmate}
