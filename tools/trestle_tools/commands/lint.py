"""lint: names what is legal in a script and yet hardly meant."""

import sys
from typing import List

from . import FINE, FOUND, Parser, write
from ..findings import findings_of
from ..include import pack
from ..instruments import answers, body_of
from ..program import PLAYED, REFUSED, Trouble, play
from ..steps import Steps, table

WHAT = """\
Plays copies of a script with reports of their own, and names each line that is legal and probably a mistake:

  steps     answered with N1 to N12 or `empty`; that change nothing, or are undone before a report shows them
  presses   that reach nobody, or that no output tells of; events that are dropped; buttons still down at the end
  windows   never put below the root; that no dump shows: off the screen, without room, covered; moved off the screen
  texts     with letters that have no glyph; wider than their window
  cages     without a point
  reports   none at all; a dump that must be like the one before; a dump before which something waits or is stale
  order     steps that `play` may make in another order, if the output would differ

A comment that begins with `# meant` says that the line below it is meant, and lint doesn't name that line.
It ends with 1 if it names anything."""

EXAMPLE = """\
bin/lint button.txt
bin/lint --steps button.txt               # first the script step by step"""


def words() -> Parser:
    """The words that lint takes."""
    taken = Parser("lint", WHAT, EXAMPLE)
    taken.add_argument("file", metavar="FILE", help="a script; - is standard input")
    taken.add_argument(
        "--steps",
        action="store_true",
        help="first print the script: after each step the bad points, waiting commands and stale points, their change, "
        "and the window and the reason if points became bad",
    )
    return taken


def main(arguments: List[str]) -> int:
    """Names what is hardly meant."""
    asked = words().parse_args(arguments)
    packed = pack(asked.file)
    played = play(packed.script)
    if played.status == REFUSED:
        raise Trouble(f"{asked.file} is {played.text().strip()}; bin/why {asked.file} says why")
    if played.status != PLAYED:
        raise Trouble(f"the program ended with status {played.status}: {played.text().strip() or 'nothing written'}")
    lines = packed.lines
    body = body_of(lines)
    notes: List[str] = []
    if asked.steps:
        steps = Steps(body, answers(body))
        for line in table(lines, steps):
            write(line)
        notes += [steps.note] * bool(steps.note)
    found, untried = findings_of(lines, body)
    for finding in found:
        write(f"{finding.line.address(asked.file)}: {finding.line.text}")
        write(f"    {finding.says}")
    sys.stdout.flush()
    for note in [*notes, *untried]:
        print(f"lint: {note}", file=sys.stderr)
    return FOUND if found else FINE
