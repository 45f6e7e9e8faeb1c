"""Takes a script apart: its lines, the words of a line, and in which column each word stands."""

from typing import List, NamedTuple, Tuple

# What a script is limited to, as docs/SCRIPT.md has it.
TEXT_BYTES, LINE_BYTES, LINES = 4 * 1024 * 1024, 1024, 100_000
WINDOWS, LEAVES, DEPTH, REPORTS, SYNCS = 256, 32, 16, 64, 1000
STR_BYTES, NAME_BYTES = 80, 16
CHECK_STEPS, CHECK_POINTS = 2000, 65536


class Word(NamedTuple):
    """A word of a line, and the column of its first byte, from 0. Two blanks in a row make an empty one."""

    text: str
    column: int


class Line(NamedTuple):
    """A line of a script without its line feed, by its number from 1. A byte is a character of the same number.
    A line that was included has the name of its file, and its number there."""

    number: int
    text: str
    file: str = ""
    place: int = 0

    def at(self) -> str:
        """Where it stands, as a person looks for it."""
        return f"line {self.place} of {self.file}" if self.file else f"line {self.place or self.number}"

    def address(self, script: str) -> str:
        """The name of its file and its number there, as compilers and editors write them."""
        return f"{self.file or script}:{self.place or self.number}"

    def is_empty(self) -> bool:
        """Whether it is blank or a comment."""
        return not self.text or self.text.startswith("#")

    def words(self) -> List[Word]:
        """Its words, which are separated by single blanks."""
        words, column = [], 0
        for text in self.text.split(" "):
            words.append(Word(text, column))
            column += len(text) + 1
        return words

    def texts(self) -> List[str]:
        """Its words without their columns."""
        return self.text.split(" ")

    def rest(self, word: Word) -> str:
        """The line from a word on."""
        return self.text[word.column :]


def places_of(lines: List[Line]) -> str:
    """Where some lines stand: `line 3`, or `lines 3, 5 and line 2 of font.txt`."""
    own = [str(line.place or line.number) for line in lines if not line.file]
    others = [line.at() for line in lines if line.file]
    said = [f"line{'s' * (len(own) > 1)} " + ", ".join(own)] * bool(own) + others
    return " and ".join([", ".join(said[:-1]), said[-1]] if len(said) > 1 else said)


def texts_of(script: bytes) -> List[str]:
    """The texts of a script's lines. The last one may lack its line feed."""
    pieces = script.decode("latin-1").split("\n")
    if pieces[-1] == "":
        pieces.pop()
    return pieces


def lines_of(script: bytes) -> List[Line]:
    """The lines of a script."""
    return [Line(number, text) for number, text in enumerate(texts_of(script), 1)]


def shown(text: str) -> str:
    """A text with its blanks made visible, and all that isn't printable."""
    return "".join(shown_byte(it) for it in text)


def shown_byte(byte: str) -> str:
    """A byte as a person sees it."""
    named = {" ": "\N{MIDDLE DOT}", "\t": "\\t", "\r": "\\r"}
    return named.get(byte) or (byte if " " < byte <= "~" else f"\\x{ord(byte):02x}")


def shown_with_caret(text: str, column: int, length: int, width: int = 100) -> Tuple[str, str]:
    """A text as `shown`, and a line with a caret below some of its columns; of a long text the part around them."""
    west = max(0, column - width // 2) if len(text) > width else 0
    east = west + width
    front = "..." if west else ""
    end = "..." if east < len(text) else ""
    blanks = " " * len(front + shown(text[west:column]))
    carets = "^" * max(1, len(shown(text[column : min(column + length, east)])))
    return front + shown(text[west:east]) + end, blanks + carets
