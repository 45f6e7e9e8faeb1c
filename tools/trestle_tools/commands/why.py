"""why: says why a script is refused."""

from typing import List

from . import FINE, FOUND, Parser, write
from ..causes import CODES, Case, cause_of
from ..include import Packed, pack
from ..kinds import kind_of
from ..outputs import REFUSAL
from ..program import PLAYED, REFUSED, Trouble, play
from ..scripts import Line, shown_with_caret
from ..windows import Windows

WHAT = """\
Plays a script, with the files that it includes. If the program refuses it, this command says why: the line, with its
blanks made visible, the meaning of the code, and the likely cause with a remedy, if it finds one. If the script plays,
it says so.

It ends with 1 if the script is refused."""

EXAMPLE = """\
bin/why button.txt
bin/why --check demos/lag.txt             # as `check` plays it, which has limits of its own"""


def words() -> Parser:
    """The words that why takes."""
    taken = Parser("why", WHAT, EXAMPLE)
    taken.add_argument("file", metavar="FILE", help="a script; - is standard input")
    taken.add_argument("--check", action="store_true", help="play it by `check`")
    return taken


def main(arguments: List[str]) -> int:
    """Explains the program's refusal of a script."""
    asked = words().parse_args(arguments)
    packed = pack(asked.file)
    file = "standard input" if asked.file == "-" else asked.file
    played = play(packed.script, "check" if asked.check else "serial")
    if played.status == PLAYED:
        write(f"{file} plays" + " by `check`" * asked.check)
        return FINE
    refusal = REFUSAL.match(played.text())
    if played.status != REFUSED or not refusal:
        raise Trouble(f"the program ended with status {played.status}: {played.text().strip() or 'nothing written'}")
    for line in explained(file, packed, int(refusal[1]), refusal[2]):
        write(line)
    return FOUND


def explained(file: str, packed: Packed, number: int, code: str) -> List[str]:
    """The lines that explain a refusal."""
    case = case_of(packed, number)
    cause = cause_of(code, case)
    said = [f"{place_of(file, case.line)}: {code}, {CODES.get(code, 'a code of a later version')}"]
    if 0 < number <= len(case.lines):
        text, carets = shown_with_caret(case.line.text, cause.column if cause else 0, cause.length if cause else 0)
        said.append(f"    {text}")
        said += [f"    {carets}"] if cause and cause.column >= 0 else []
    return said + ([cause.says] if cause else [])


def place_of(file: str, line: Line) -> str:
    """The place of a line: in the script, or in a file that it includes."""
    if line.file:
        return f"{line.file}, line {line.place} (included by {file})"
    return f"{file}, {line.at()}" if line.number else f"{file}, the whole text"


def case_of(packed: Packed, number: int) -> Case:
    """The line that is refused, and what the lines before it say. It may be the one behind the last."""
    lines = packed.lines
    windows = Windows()
    for line in lines[: max(0, number - 1)]:
        windows.add(line)
    behind = lines[-1].place + 1 if number > len(lines) and lines and lines[-1].place else 0
    line = lines[number - 1] if 0 < number <= len(lines) else Line(number, "", "", behind)
    return Case(line, windows, lines, len(packed.script), kind_of(packed.script))
