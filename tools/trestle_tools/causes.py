"""Why the program refuses a line: the likely cause, its place in the line, and a remedy.

The program names the code. Of that code alone a cause is looked for here; where none is found none is told, so
that nothing here can contradict the program."""

import difflib
import re
from typing import Callable, Dict, Iterable, Iterator, List, NamedTuple, Optional

from .elsewhere import elsewhere
from .grammar import (
    COMMANDS,
    FIRST_WORDS,
    OPENING,
    REPORTS,
    WIDGET_COMMANDS,
    Form,
    Slot,
    choices_of,
    form_for,
    forms_of,
)
from .outputs import HEADER, PEEK
from .scripts import (
    CHECK_POINTS,
    CHECK_STEPS,
    LEAVES,
    LINE_BYTES,
    LINES,
    NAME_BYTES,
    REPORTS as MOST_REPORTS,
    STR_BYTES,
    SYNCS,
    TEXT_BYTES,
    WINDOWS,
    Line,
    Word,
    shown_byte,
)
from .windows import Windows

# What each code says of a line, as docs/SCRIPT.md has it.
CODES = {
    "B9": "a byte that isn't printable, or more than 1,024 bytes",
    "B1": "a word that isn't known, or another number of words than the line may have",
    "B5": "the line may not stand in this place",
    "B2": "a value: a number, a shape, hex digits, a text, or a new name",
    "B4": "a name or a glyph that is declared for the second time",
    "B3": "a name that isn't declared before this line, or isn't that of a leaf",
    "B10": "a command of another widget than the leaf's",
    "B6": "a `put`, `root` or `begin` for which the tree isn't right",
    "B7": "one too many",
    "B8": "the end is missing, or isn't the end",
}


# With what an output begins that is no dump.
OUTPUTS = ("journal ", "inbox ", "refused: ", "usage: ", "read fault", "step ")

# How a line begins whose form hangs on a later word.
BEGINNINGS = {
    "node": "node NAME KIND TINT ..",
    "leaf": "leaf NAME LO PREF HI LO PREF HI WIDGET ..",
    "@": "@LEAF STEP ..",
}


class Cause(NamedTuple):
    """A cause in a sentence that says what to do, and the columns of the line at which it lies, if any."""

    says: str
    column: int = -1
    length: int = 1


class Case(NamedTuple):
    """A line that was refused, with what the lines before it say, all lines, and what the bytes are where they are no
    text."""

    line: Line
    windows: Windows
    lines: List[Line]
    text_bytes: int
    kind: Optional[str] = None

    def at(self, number: int) -> str:
        """The place of a line, as a person looks for it."""
        return self.lines[number - 1].at()

    def words(self) -> List[Word]:
        """The line's words."""
        return self.line.words()

    def version(self) -> int:
        """The version as far as it is known; a script without one is of the first."""
        return self.windows.version or 1


def at(word: Word, says: str) -> Cause:
    """A cause that lies in a word; that of an empty word is the blank before it."""
    return Cause(says, word.column, len(word.text)) if word.text else Cause(says, max(0, word.column - 1))


def cause_of(code: str, case: Case) -> Optional[Cause]:
    """The first cause that is found for a code."""
    return next(FINDERS[code](case), None) if code in FINDERS else None


def quoted(words: Iterable[str]) -> str:
    """Words for a sentence: `a`, `b` or `c`."""
    them = [f"`{word}`" for word in words]
    return " or ".join([", ".join(them[:-1]), them[-1]] if len(them) > 1 else them)


def nearly(word: str, known: Iterable[str]) -> Optional[str]:
    """The known word that a word is nearly, if there is one."""
    known = list(known)
    lower = [it for it in known if it == word.lower()]
    return (lower or difflib.get_close_matches(word, known, 1, 0.6) or [None])[0]


# ---- B9: bytes


def byte_causes(case: Case) -> Iterator[Cause]:
    """Bytes that aren't printable, and lines that are too long."""
    text = case.line.text
    if case.kind:
        yield Cause(f"this is {case.kind}, and no script")
    for column, byte in enumerate(text):
        if not " " <= byte <= "~":
            yield wrong_byte(case, column)
    if len(text) > LINE_BYTES:
        yield Cause(f"the line has {len(text)} bytes, and {LINE_BYTES} are the most: cut it", LINE_BYTES, 1)


def wrong_byte(case: Case, column: int) -> Cause:
    """A byte that isn't printable, by its name."""
    text = case.line.text
    byte = text[column]
    if byte == "\t":
        return Cause("a tab: words are separated by one blank each, and no line has a tab", column)
    if byte == "\r" and column == len(text) - 1:
        ends = sum(line.text.endswith("\r") for line in case.lines)
        lines = "this line ends" if ends == 1 else f"{ends} lines end"
        return Cause(f"{lines} with a carriage return, as on Windows: sed -i 's/\\r$//' FILE takes them away", column)
    if text.startswith("\xef\xbb\xbf"):
        return Cause("a byte order mark, which editors write before a text: save the file without it", column, 3)
    letter = letter_at(text, column)
    if letter:
        says = f"the letter {letter}: only the printable bytes of ASCII are allowed, in comments too"
        return Cause(says, column, len(letter.encode()))
    return Cause(f"the byte {shown_byte(byte)} isn't a printable one: take it away", column)


def letter_at(text: str, column: int) -> Optional[str]:
    """The letter beyond ASCII that begins at a column, as UTF-8 has it."""
    for length in (2, 3, 4):
        try:
            letter = text[column : column + length].encode("latin-1").decode("utf-8")
        except UnicodeDecodeError:
            continue
        if letter.isprintable() and len(letter) == 1:
            return letter
    return None


# ---- B1: words


def no_script(case: Case) -> Iterator[Cause]:
    """An output in place of a script, at its first line."""
    text = case.line.text
    if not case.windows.last and (HEADER.fullmatch(text) or PEEK.fullmatch(text) or text.startswith(OUTPUTS)):
        yield Cause("this is an output, as trestle writes it, and no script", 0, len(text))


def word_causes(case: Case) -> Iterator[Cause]:
    """Blanks, unknown words, and words too many or too few."""
    words = case.words()
    yield from no_script(case)
    yield from front_causes(case.line.text)
    forms = forms_of(words[0].text)
    if not forms:
        yield from unknown_first(case, words[0])
        return
    yield from comment_behind(case, forms)
    yield from empty_words(case, forms)
    if words[0].text == "@":
        yield at(words[0], "the name of a leaf follows the @, without a blank between")
    place = forms[0].place
    if len(words) <= place:
        yield Cause(f"too few words: the line is `{BEGINNINGS[forms[0].first]}`", len(case.line.text))
        return
    choices = choices_of(forms)
    fitting = choices.get(words[place].text if place else "", [])
    if not fitting:
        yield unknown_choice(case, words[place], choices)
        return
    yield from newer_words(case, fitting[0])
    yield from count_causes(case, fitting)
    yield from unknown_options(case)


def front_causes(text: str) -> Iterator[Cause]:
    """Blanks at the front of a line."""
    front = len(text) - len(text.lstrip(" "))
    if front and front == len(text):
        yield Cause("a blank line has no byte at all: take the blanks away", 0, front)
    elif front and text[front] == "#":
        yield Cause("a comment has no blank before its #: take it away", 0, front)
    elif front:
        yield Cause("a blank before the first word: no line is indented, take it away", 0, front)


def unknown_first(case: Case, word: Word) -> Iterator[Cause]:
    """A line whose first word no line has."""
    text = word.text
    near = nearly(text, FIRST_WORDS)
    if text in case.windows.names and len(case.words()) > 1:
        yield at(word, f"a step of the leaf {text} begins with `@{text}`")
    elif text[:2] in ("//", "--", ";", "/*"):
        yield at(word, "a comment begins with #")
    elif text in WIDGET_COMMANDS or any(text == form.choice for form in forms_of("@")):
        yield at(word, f"`{text}` is a step of a leaf: the line begins with `@` and the leaf's name")
    elif near != text.lower() and elsewhere(text):
        yield at(word, f"no line begins with `{text}`: {elsewhere(text)}")
    elif near:
        hint = ": words have small letters" if near == text.lower() else ""
        yield at(word, f"no line begins with `{text}`; perhaps `{near}` is meant{hint}")
    else:
        yield at(word, f"no line begins with `{text}`")


def empty_words(case: Case, forms: List[Form]) -> Iterator[Cause]:
    """Blanks at the end of a line, and two in a row where no text may stand."""
    words = case.words()
    fixed = fixed_words(words, forms)
    empty = [word for word in fixed if not word.text]
    ending = len(case.line.text.rstrip(" "))
    if empty and empty[-1].column >= ending and len(fixed) == len(words):
        count = len(case.line.text) - ending
        says = "a blank at the end of the line: take it away"
        yield Cause(says if count == 1 else f"{count} blanks at the end of the line: take them away", ending, count)
    elif empty:
        yield Cause("two blanks in a row: words are separated by exactly one", empty[0].column - 1, 2)


def fixed_words(words: List[Word], forms: List[Form]) -> List[Word]:
    """The words of a line that are no part of a text."""
    for form in forms:
        if form.has_text() and len(words) > form.place and words[form.place].text == form.choice:
            return words[: len(form.slots) - 1]
    return words


def unknown_choice(case: Case, word: Word, choices: Dict[str, List[Form]]) -> Cause:
    """An unknown kind of a node, widget, or step of a leaf."""
    first = case.words()[0].text
    known = [choice for choice, forms in choices.items() if case.version() > 1 or not forms[0].is_newer]
    near = nearly(word.text, known)
    if first == "node":
        what, all_of_them = "kind of node", f"; the kinds are {quoted(known)}"
    elif first == "leaf":
        what, all_of_them = "widget", f"; the widgets are {quoted(known)}"
    else:
        what, all_of_them = "step of a leaf", commands_of(case, first[1:])
    says = f"`{word.text}` is no {what}"
    return at(word, f"{says}; perhaps `{near}` is meant" if near else says + all_of_them)


def commands_of(case: Case, name: str) -> str:
    """The commands of a leaf's widget."""
    window = case.windows.names.get(name)
    if not window or not window.is_leaf:
        return ""
    return f"; {window.title()}, whose commands are {quoted(COMMANDS[window.kind])}"


def newer_words(case: Case, form: Form) -> Iterator[Cause]:
    """A word of version 2 in a script of version 1."""
    if form.is_newer and case.version() == 1:
        yield newer(case, case.words()[form.place])


def newer(case: Case, word: Word) -> Cause:
    """That a word is one of version 2."""
    where = case.windows.version_line
    if not where:
        return at(word, f"`{word.text}` is a word of version 2: the script begins with `trestle 2`")
    return at(word, f"`{word.text}` is a word of version 2: write `trestle 2` in {case.at(where)}")


def comment_behind(case: Case, forms: List[Form]) -> Iterator[Cause]:
    """A comment behind the words of a line."""
    for word in fixed_words(case.words(), forms)[1:]:
        if word.text.startswith("#") or word.text.startswith("//"):
            says = "a comment behind a line: it takes a line of its own, which begins with #"
            yield Cause(says, word.column, len(case.line.rest(word)))


def count_causes(case: Case, fitting: List[Form]) -> Iterator[Cause]:
    """Words too many or too few."""
    words = case.words()
    if any(form.takes(len(words)) for form in fitting):
        return
    usage = quoted(form.usage() for form in fitting)
    most = max(len(form.slots) for form in fitting)
    if len(words) > most:
        rest = case.line.rest(words[most])
        yield Cause(f"{len(words)} words, and the line is {usage}", words[most].column, len(rest))
    else:
        no_time = words[0].text == "mouse" and len(words) > 1 and words[1].text in ("down", "up")
        hint = ": the time T is missing" if no_time else ""
        yield Cause(f"{len(words)} words only, and the line is {usage}{hint}", len(case.line.text))


def unknown_options(case: Case) -> Iterator[Cause]:
    """A word that should be one of some."""
    form = form_for(case.line.texts())
    for slot, word in zip(form.slots if form else (), case.words()):
        known = [it for it in slot.options if case.version() > 1 or it not in slot.newer]
        if slot.sort != "word" or word.text in known:
            continue
        if word.text in slot.newer:
            yield newer(case, word)
        near = nearly(word.text, known)
        hint = f"; perhaps `{near}` is meant" if near else ""
        newer_ones = [it for it in slot.newer if it not in known]
        also = f", and in version 2 {quoted(newer_ones)}" if newer_ones else ""
        yield at(word, f"`{word.text}` isn't known here: {slot.name} is {quoted(known)}{also}{hint}")


# ---- B5: places


def place_causes(case: Case) -> Iterator[Cause]:
    """Lines that may not stand where they stand."""
    yield from no_script(case)
    windows, word = case.windows, case.words()[0]
    text = word.text
    if not windows.version_line:
        yield at(word, "the first line that means something is `trestle 1` or `trestle 2`")
    elif text == "trestle":
        yield at(word, f"a second version line: the first is {case.at(windows.version_line)}")
    elif not windows.screen_line:
        yield at(word, "behind the version line comes `screen W H KIND`, and then all else")
    elif text == "screen":
        instead = " (to change it later: `resize`, `rescreen`)"
        yield at(word, f"a second `screen`: the first is {case.at(windows.screen_line)}{instead}")
    elif text == "begin" and windows.begin_line:
        yield at(word, f"a second `begin`: the first is {case.at(windows.begin_line)}")
    elif text in OPENING and windows.begin_line:
        instead = "; a step `attach` does the same" if text == "put" else ""
        yield at(word, f"`{text}` belongs before `begin`, which is {case.at(windows.begin_line)}{instead}")
    elif not windows.begin_line:
        yield at(word, f"`{text}` belongs after `begin`, and there is none yet: steps and reports come after it")
    elif text in (*REPORTS, "end"):
        yield at(word, "there are steps before it: put a line `sync` between them and this line")


# ---- B2: values


def value_causes(case: Case) -> Iterator[Cause]:
    """Values that are misspelled or out of range."""
    form = form_for(case.line.texts())
    if not form:
        return
    yield from comment_behind(case, [form])
    words = case.words()
    for place, slot in enumerate(form.slots[: len(words)]):
        if slot.sort == "text":
            text = case.line.rest(words[place])
            if len(text) > STR_BYTES:
                says = f"the text has {len(text)} bytes, and {STR_BYTES} are the most"
                yield Cause(says, words[place].column + STR_BYTES, len(text) - STR_BYTES)
            break
        says = wrong_value(case, slot, words[place].text)
        if says:
            yield at(words[place], says)
    yield from shape_causes(form, words)


def wrong_value(case: Case, slot: Slot, text: str) -> Optional[str]:
    """What is wrong with a value."""
    if slot.sort in ("number", "hh", "hex16", "new") and not text:
        return "a blank at the end of the line: take it away" if case.line.text.endswith(" ") else "an empty word"
    if slot.sort == "number":
        return wrong_number(slot, text)
    if slot.sort == "new":
        return wrong_name(text)
    if slot.sort == "hh" and not (re.fullmatch("[0-9a-fA-F]{2}", text) and 0x20 <= int(text, 16) <= 0x7E):
        return f"{slot.name} is a byte in two hex digits, 20 to 7e"
    if slot.sort == "hex16" and not re.fullmatch("[0-9a-fA-F]{16}", text):
        return wrong_hex(slot, text)
    return None


def wrong_number(slot: Slot, text: str) -> Optional[str]:
    """What is wrong with a number."""
    limits = f"{slot.name} is {slot.low} to {slot.high}"
    if slot.name == "N" and (slot.low, slot.high) == (1, 2):
        limits = "the version is 1 or 2"
    digits = text[1:] if text[:1] in ("-", "+") else text
    if not re.fullmatch("[0-9]+", digits):
        return f"`{text}` is no number in decimal digits; {limits}"
    if text[0] == "+":
        return f"a number has no plus: write {digits.lstrip('0') or '0'}"
    if len(digits) > 1 and digits[0] == "0":
        right = text[: len(text) - len(digits)] + (digits.lstrip("0") or "0")
        return f"a leading zero: write {'0' if right == '-0' else right}"
    if text == "-0":
        return "zero has no minus: write 0"
    if not slot.low <= int(text) <= slot.high:
        return f"{text} is out of range: {limits}"
    return None


def wrong_hex(slot: Slot, text: str) -> str:
    """What is wrong with 16 hex digits."""
    wrong = [it for it in text if it not in "0123456789abcdefABCDEF"]
    if wrong:
        return f"`{wrong[0]}` is no hex digit: {slot.name} is 16 of them, two for each row"
    return f"{len(text)} hex digits: {slot.name} is 16 of them, two for each row"


def wrong_name(text: str) -> Optional[str]:
    """What is wrong with a name that is declared."""
    if re.fullmatch("[a-z][a-z0-9_]{0,15}", text):
        return None
    rule = f"a name is a small letter, and then at most {NAME_BYTES - 1} small letters, digits or _"
    if len(text) > NAME_BYTES:
        return f"the name has {len(text)} bytes: {rule}"
    small = text.lower().replace("-", "_")
    return f"{rule}; perhaps `{small}`" if re.fullmatch("[a-z][a-z0-9_]{0,15}", small) else rule


def shape_causes(form: Form, words: List[Word]) -> Iterator[Cause]:
    """A shape whose lengths don't rise."""
    names = [slot.name for slot in form.slots]
    for place in [it for it, name in enumerate(names) if name == "LO"]:
        low, middle, high = (int(word.text) for word in words[place : place + 3] if word.text.isdecimal())
        way = "across" if place == names.index("LO") else "down"
        columns = words[place].column, words[place + 2].column + len(words[place + 2].text) - words[place].column
        if not low <= middle <= high:
            says = f"the shape {way} is {low} {middle} {high}, and LO PREF HI rise: LO <= PREF <= HI"
            yield Cause(says, *columns)


# ---- B4 and B3: names


def twice_causes(case: Case) -> Iterator[Cause]:
    """What is declared for the second time."""
    words = case.words()
    if words[0].text == "glyph":
        line = case.windows.glyphs.get(int(words[1].text, 16))
        if line:
            yield at(words[1], f"the glyph {words[1].text.lower()} is there since {case.at(line)}: take one of them away")
    elif words[1].text in case.windows.names:
        window = case.windows.names[words[1].text]
        says = f"the name {window.name} is taken since {case.at(window.line)} ({window.title()}): give this window another"
        yield at(words[1], says + "; all windows share one set of names")


def name_causes(case: Case) -> Iterator[Cause]:
    """Names that aren't declared, or aren't those of leaves."""
    form = form_for(case.line.texts())
    yield from comment_behind(case, [form] if form else [])
    for slot, word in zip(form.slots if form else (), case.words()):
        leaf_step = word.column == 0 and word.text.startswith("@")
        name = word.text[1:] if leaf_step else word.text
        if slot.sort == "leaf" and name in case.windows.names and not case.windows.names[name].is_leaf:
            yield at(word, f"{case.windows.names[name].title()} and no leaf: only a leaf has a client and an inbox")
        elif slot.sort in ("name", "leaf") and name not in case.windows.names:
            yield at(word, missing_name(case, name, slot, leaf_step))


def missing_name(case: Case, name: str, slot: Slot, leaf_step: bool) -> str:
    """That a name isn't declared, and which may be meant."""
    windows = case.windows.names.values()
    known = [window.name for window in windows if window.is_leaf or slot.sort == "name"]
    later = declared_later(case, name)
    near = nearly(name.lstrip("@"), known)
    if not name and leaf_step:
        return "the leaf's name follows the @, without a blank between"
    if not name:
        return "a blank at the end of the line: take it away"
    if later:
        return f"{name} is declared only in {case.at(later)}: that line comes before this one"
    if near:
        return f"{name} isn't declared; perhaps `{near}` is meant ({case.at(case.windows.names[near].line)})"
    what = "leaf" if slot.sort == "leaf" else "window"
    some = f"; there is {quoted(known)}" if 0 < len(known) <= 8 else f"; there is no {what} yet" if not known else ""
    return f"{name} isn't declared{some}"


def declared_later(case: Case, name: str) -> int:
    """The line further below that declares a name, or 0."""
    for line in case.lines[case.line.number :]:
        if re.match(rf"(node|leaf) {re.escape(name)} ", line.text):
            return line.number
    return 0


# ---- B10, B6, B7, B8: widgets, the tree, limits, the end


def widget_causes(case: Case) -> Iterator[Cause]:
    """A command of another widget."""
    words = case.words()
    window = case.windows.names.get(words[0].text[1:])
    owner = [widget for widget, commands in COMMANDS.items() if words[1].text in commands]
    if window and owner:
        says = f"`{words[1].text}` is a command of {owner[0]}, and {window.title()}"
        yield at(words[1], f"{says}: its commands are {quoted(COMMANDS[window.kind])}")


def tree_causes(case: Case) -> Iterator[Cause]:
    """A `put`, `root` or `begin` for which the tree isn't right."""
    words, windows = case.words(), case.windows
    if words[0].text == "begin":
        yield at(words[0], "no window is the root: put a line `root NAME` before it")
    elif words[0].text == "root" and windows.root:
        yield at(words[0], f"a second root: {case.at(windows.root_line)} makes {windows.root.name} the root")
    elif words[0].text == "root":
        window = windows.names[words[1].text]
        if window.parent:
            top = list(window.above())[-1].name
            yield at(words[1], f"{window.name} is in {window.parent.name}; the root is in no window: perhaps `{top}`")
    else:
        child, parent = windows.names[words[1].text], windows.names[words[2].text]
        fault = windows.attach_fault(child, parent)
        if fault:
            yield at(words[1], fault)


def limit_causes(case: Case) -> Iterator[Cause]:
    """One too many."""
    windows, word = case.windows, case.line.texts()[0]
    if case.line.number == 0 and case.text_bytes > TEXT_BYTES:
        yield Cause(f"the text has {case.text_bytes} bytes, and {TEXT_BYTES} are the most")
    elif case.line.number == 0:
        yield Cause(f"check takes at most {CHECK_STEPS} steps, and no screen of more than {CHECK_POINTS} points")
    elif case.line.number > LINES:
        yield Cause(f"a script has at most {LINES} lines, comments counted")
    elif word in ("node", "leaf") and len(windows.names) >= WINDOWS:
        yield Cause(f"there are {WINDOWS} windows already, which are the most")
    elif word == "leaf" and windows.leaves >= LEAVES:
        yield Cause(f"there are {LEAVES} leaves already, which are the most")
    elif word in REPORTS and windows.reports >= MOST_REPORTS:
        yield Cause(f"there are {MOST_REPORTS} reports already, which are the most: make two scripts of this one")
    elif word == "sync" and windows.syncs >= SYNCS:
        yield Cause(f"there are {SYNCS} `sync` already, which are the most")


def end_causes(case: Case) -> Iterator[Cause]:
    """What comes after the end, or an end that is missing."""
    if case.windows.end_line:
        says = f"`end` is {case.at(case.windows.end_line)}, and after it come comments and blank lines alone"
        yield Cause(says, 0, max(1, len(case.line.text)))
    elif not any(not line.is_empty() for line in case.lines):
        yield Cause("the script is empty: it begins with `trestle 1` and ends with `end`")
    elif case.windows.last in (*REPORTS, "sync", "begin"):
        yield Cause("the last line is missing: `end`")
    elif case.windows.begin_line:
        yield Cause("the last lines are missing: `sync` and `end`")
    else:
        yield Cause("the opening doesn't end: `begin` is missing, and what comes after it up to `end`")


FINDERS: Dict[str, Callable[[Case], Iterator[Cause]]] = {
    "B9": byte_causes,
    "B1": word_causes,
    "B5": place_causes,
    "B2": value_causes,
    "B4": twice_causes,
    "B3": name_causes,
    "B10": widget_causes,
    "B6": tree_causes,
    "B7": limit_causes,
    "B8": end_causes,
}
