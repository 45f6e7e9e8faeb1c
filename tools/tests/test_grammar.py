"""The table of forms is the program's grammar: it refuses a number just out of its range with B2, and none at its
ends; each word to choose from is known to it; and all refused examples of the docs have a cause."""

import sys
import unittest
from pathlib import Path
from typing import List

from commands_under_test import TOP, call

sys.path.insert(0, str(TOP / "tools"))

from trestle_tools.grammar import COMMANDS, FORMS, OPENING, Form, Slot  # noqa: E402
from trestle_tools.program import play  # noqa: E402

WORDS = {"new": "fresh", "name": "a", "leaf": "a", "hh": "41", "hex16": "0000000000000000", "text": "x"}
BEFORE = ["trestle 2", "screen 4 4 map8"]
LEAF, ROOT = "leaf a 1 1 1 1 1 1 solid 1", "root a"


def answer_to(line: str, form: Form) -> str:
    """What the program says of a line, where it may stand: its code, or nothing."""
    if form.first in ("trestle", "screen"):
        lines = [line] if form.first == "trestle" else ["trestle 2", line]
    elif form.first in OPENING:
        lines = [*BEFORE, LEAF, line]
    else:
        lines = [*BEFORE, LEAF, ROOT, "begin", line]
    text = play("".join(it + "\n" for it in lines).encode()).text()
    return text.split(" ")[3].strip() if text.startswith(f"refused: line {len(lines)} ") else ""


def line_with(form: Form, place: int, word: str) -> str:
    """A line of a form with a word at a place."""
    words = [sample(slot) for slot in form.slots]
    words[place] = word
    if form.first == "@":
        words[0] = "@a"
    return " ".join(words)


def sample(slot: Slot) -> str:
    """A word that may stand in a slot; numbers are alike, as the lengths of a shape must be."""
    if slot.sort == "fixed":
        return slot.name
    if slot.sort == "number":
        return str(max(1, slot.low))
    return slot.options[0] if slot.sort == "word" else WORDS[slot.sort]


def knows_the_editor() -> bool:
    """Whether the program has the editor."""
    lines = [*BEFORE, "leaf e 1 1 1 1 1 1 edit", "root e", "begin", "end"]
    return play("".join(line + "\n" for line in lines).encode()).status == 0


def known_forms() -> List[Form]:
    """The forms that the program knows."""
    if knows_the_editor():
        return list(FORMS)
    return [form for form in FORMS if form.choice != "edit" and form.choice not in COMMANDS["edit"]]


class Grammar(unittest.TestCase):
    """The table of forms."""

    def test_ranges(self) -> None:
        for form in known_forms():
            for place, slot in enumerate(form.slots):
                if slot.sort == "number":
                    with self.subTest(f"{form.usage()}: {slot.name}"):
                        for beyond in (slot.low - 1, slot.high + 1):
                            self.assertEqual("B2", answer_to(line_with(form, place, str(beyond)), form))
                        if slot.name not in ("LO", "PREF", "HI"):
                            for end in (slot.low, slot.high):
                                self.assertNotIn(answer_to(line_with(form, place, str(end)), form), ("B1", "B2", "B5"))

    def test_words(self) -> None:
        for form in known_forms():
            for place, slot in enumerate(form.slots):
                for option in slot.options:
                    with self.subTest(f"{form.usage()}: {option}"):
                        self.assertNotIn(answer_to(line_with(form, place, option), form), ("B1", "B2", "B5"))
                if slot.sort == "word":
                    self.assertEqual("B1", answer_to(line_with(form, place, "other"), form))


class Examples(unittest.TestCase):
    """The examples of docs/SCRIPT.md."""

    def test_each_refused_one_has_a_cause(self) -> None:
        for output in sorted((TOP / "docs/examples").glob("*.out")):
            refusal = output.read_text().split()
            if refusal[0] == "refused:":
                with self.subTest(output.stem):
                    script = Path("docs/examples") / f"{output.stem}.txt"
                    ended = call("why", [str(script)], TOP)
                    lines = ended.text.splitlines()
                    self.assertEqual(1, ended.status)
                    self.assertTrue(lines[0].startswith(f"{script}, line {refusal[2]}: {refusal[3]}, "))
                    self.assertFalse(lines[-1].startswith(" ") or len(lines) < 2, "no cause is told")


if __name__ == "__main__":
    unittest.main()
