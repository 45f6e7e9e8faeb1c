"""Expands `# include FILE` in a script: the lines of that file replace it.

FILE is a path relative to the file with the line. It lies in the folder of the script that is read, or below it, or
anywhere in the same git repository. The program itself takes such a line for a comment."""

import os
from pathlib import Path
from typing import List, NamedTuple, Tuple

from .program import Trouble, read_bytes
from .scripts import LINES, TEXT_BYTES, Line, texts_of

INCLUDE = "# include "
# The comment that replaces the line in the packed script, so that a reader sees where the lines came from.
INCLUDED = "# included "
# So many files may be open one in the other, and so many are included in all.
NESTED, FILES = 16, 1000


class Packed(NamedTuple):
    """A script with all that it includes: as the program takes it, and each line with the place it came from."""

    name: str
    script: bytes
    lines: List[Line]

    def at(self, number: int) -> str:
        """The place of a line of the packed script, as the program counts it."""
        return self.lines[number - 1].at() if 0 < number <= len(self.lines) else f"line {number}"

    def includes(self) -> bool:
        """Whether it has lines of other files."""
        return any(line.file for line in self.lines)


def pack(name: str) -> Packed:
    """Reads a script, or standard input where the name is `-`, with what it includes."""
    script = read_bytes(name)
    if not any(text.startswith(INCLUDE) for text in texts_of(script)):
        return Packed(name, script, [Line(number, text) for number, text in enumerate(texts_of(script), 1)])
    packer = Packer(Path("." if name == "-" else name))
    packer.add(script, Path("standard input" if name == "-" else name), "")
    return Packed(name, "".join(line.text + "\n" for line in packer.lines).encode("latin-1"), packer.lines)


class Packer:
    """Collects the lines of a script and of the files that it includes."""

    def __init__(self, script: Path):
        self.folder = folder_of(script)
        self.home = home_of(self.folder)
        self.lines: List[Line] = []
        self.bytes = 0
        self.files = 0
        # The files that are being read, one in the other, each with the line that includes the next one.
        self.within: List[Tuple[Path, str]] = []

    def add(self, text: bytes, path: Path, shown: str) -> None:
        """Adds the lines of a file. The script's own have no name of a file with them."""
        for place, line in enumerate(texts_of(text), 1):
            if line.startswith(INCLUDE):
                self.include(line, path, shown, place)
            else:
                self.keep(line, shown, place)

    def keep(self, text: str, shown: str, place: int) -> None:
        """Adds a line."""
        self.bytes += len(text) + 1
        # One line more than a script may have is enough: the program refuses it.
        if len(self.lines) > LINES or self.bytes > TEXT_BYTES + 1:
            raise Trouble(f"with what it includes the script has over {LINES} lines, or over {TEXT_BYTES} bytes")
        self.lines.append(Line(len(self.lines) + 1, text, shown, place))

    def include(self, line: str, path: Path, shown: str, place: int) -> None:
        """Adds the lines of an included file, behind a comment that names it."""
        where = f"{path}, line {place}: `{line}`"
        wanted = line[len(INCLUDE) :].strip()
        folder = self.folder if not shown else (self.folder / shown).parent
        if not wanted or os.path.isabs(wanted):
            raise Trouble(f"{where}: it wants the path of a file, relative to this one's folder")
        file = Path(os.path.normpath(folder / wanted))
        real = file.resolve()
        if self.home not in real.parents:
            raise Trouble(f"{where}: {file} lies outside of {self.home}, and only what lies in it is included")
        within = [*self.within, (path.resolve(), f"{path}:{place}")]
        if real in [one for one, _ in within]:
            ways = " > ".join(way for _, way in within)
            raise Trouble(f"{where}: {file} is being included already ({ways})")
        self.files += 1
        if len(within) >= NESTED:
            raise Trouble(f"{where}: {NESTED} files are included one in the other, which are the most")
        if self.files > FILES:
            raise Trouble(f"{where}: {FILES} files are included before it, which are the most")
        if file.exists() and not file.is_file():
            raise Trouble(f"{where}: {file} is no file with lines")
        try:
            with open(file, "rb") as opened:
                text = opened.read(TEXT_BYTES + 1)
        except OSError as error:
            raise Trouble(f"{where}: {file} cannot be read: {error.strerror}")
        name = os.path.relpath(file, self.folder)
        self.keep(INCLUDED + name, shown, place)
        before, self.within = self.within, within
        self.add(text, file, name)
        self.within = before


def folder_of(script: Path) -> Path:
    """The folder of a script, to which the names of included files are relative; of standard input the present one."""
    return script.parent if script.name not in ("", "-") else Path(".")


def home_of(folder: Path) -> Path:
    """The folder in which all that is included lies: the git repository, where there is one, else the script's folder."""
    real = folder.resolve()
    return next((one for one in (real, *real.parents) if (one / ".git").exists()), real)
