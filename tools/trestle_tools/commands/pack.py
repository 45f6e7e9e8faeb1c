"""pack: writes a script with what it includes, so that the program plays it."""

import sys
from typing import List

from . import FINE, Parser
from ..include import pack

WHAT = """\
Writes a script to standard output, and replaces each comment line

    # include FILE

by the lines of that file. FILE is a path relative to the file with that line, and may have such lines itself. It must
lie in the folder of the script or below it, or anywhere in the same git repository. The program takes such a line for
a comment, so play the text that this command writes. snap, why, lint, trace and look --bad include files by
themselves.

It ends with 2 if a file can't be included: it isn't there, lies elsewhere, or includes itself."""

EXAMPLE = """\
bin/pack button.txt | ./trestle --unproved serial
bin/pack button.txt > packed.txt"""


def main(arguments: List[str]) -> int:
    """Writes the packed script."""
    taken = Parser("pack", WHAT, EXAMPLE)
    taken.add_argument("file", metavar="FILE", help="a script; - is standard input")
    sys.stdout.buffer.write(pack(taken.parse_args(arguments).file).script)
    return FINE
