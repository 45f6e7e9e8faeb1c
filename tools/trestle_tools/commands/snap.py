"""snap: plays scripts and compares what they write with the outputs that are stored beside them."""

import argparse
import sys
import time
from pathlib import Path
from typing import Iterator, List, NamedTuple, Optional

from . import FINE, FOUND, TROUBLE, Parser, write, write_file
from ..comparison import SHOWN, plural
from ..include import pack
from ..outputs import Dump, take_apart
from ..pictures import picture_of, terminal_lines
from ..program import PLAYED, READ_FAULT, REFUSED, Played, Trouble, due_status, play, read_bytes
from ..results import AS_STORED, DIFFERS, NO_SCRIPT, NOT_STORED, STATUS, STORED, Result, junit, page
from ..results import TROUBLE as IN_TROUBLE
from ..terminal import View, add_color, view_of

WHAT = """\
Plays each script and compares its output and status with the output stored beside it. For NAME.txt that is
NAME.serial, NAME.dump or NAME.out by `serial`, NAME.check by `check`, NAME.play by `play`, if that doesn't depend on
the order of its threads, and NAME.mirror by `mirror`, as `xxd` prints it. NAME.hex is a stream in hex digits, and
NAME.show is what `show` prints for it. The status of a refusal is 3, of all other outputs 0. snap shows what differs:
lines with their numbers, dumps as pictures, or as hex digits in a pipe. In a folder it also names stored outputs that
have no script; it doesn't search the folders in it.

It ends with 1 if an output differs or isn't stored, if a script is refused and no such refusal is stored, or if an
output has no script. It ends with 2 if a folder has no script, or if the program couldn't play one."""

EXAMPLE = """\
bin/snap demos/*.txt                      # compares
bin/snap --whole button.txt               # cuts nothing that differs short
bin/snap --report page.html --junit snap.xml tests    # writes what differs as a page, and for CI
bin/snap --update button.txt              # shows what changes, and stores what it writes, as button.serial
bin/snap --update --review tests          # asks before each
bin/snap --update --check button.txt      # button.check too; so --play and --mirror
bin/snap --update --status 3 wrong.txt    # stores a refusal, which is never done without --status"""

SERIAL_ENDINGS = (".serial", ".dump", ".out")
# The ending that no other program's files have.
OWN_ENDING = ".serial"
STREAM_ENDING, SHOW_ENDING = ".hex", ".show"

# The outputs of a script that are stored where they are asked for: their endings, and the words that write them.
FURTHER = {".check": "check", ".play": "play", ".mirror": "mirror"}

# With what an output begins. Files with the same endings that begin otherwise are nobody's output.
BEGINNINGS = ("dump ", "peek ", "where ", "inbox ", "journal ", "step ", "refused: ", "usage: ", "read fault", "00000000: ")


class Stored(NamedTuple):
    """A file with an output, and the word by which its script, or its stream, is played for it."""

    path: Path
    word: str

    def text(self) -> Optional[str]:
        """What it holds, or None where it isn't there."""
        return read_bytes(str(self.path)).decode("latin-1") if self.path.exists() else None

    def text_of(self, played: Played) -> str:
        """What it would hold of what was written: a stream in hex digits, all else as it is."""
        return hex_lines(played.output) if self.word == "mirror" and played.status == PLAYED else played.text()


def words() -> Parser:
    """The words that snap takes."""
    taken = Parser("snap", WHAT, EXAMPLE)
    taken.add_argument(
        "files", nargs="+", metavar="FILE", help="a script, a stream NAME.hex, or a folder with scripts NAME.txt and these"
    )
    taken.add_argument("--whole", action="store_true", help="show all that differs; else long texts and large pictures are cut")
    taken.add_argument("--report", metavar="PAGE", help="write what differs as a page of HTML, with pictures, in one file")
    taken.add_argument("--junit", metavar="FILE", help="write what came of each output as JUnit's XML")
    add_color(taken)
    taken.add_argument("--update", action="store_true", help="store what differs or isn't stored yet, and show it before")
    taken.add_argument("--review", action="store_true", help="with --update: ask before each, and store what gets a yes")
    taken.add_argument("--yes", action="store_true", help="with --review: say yes to each; needed where nobody can answer")
    taken.add_argument("--check", action="store_true", help="with --update: store what `check` writes, too")
    taken.add_argument("--play", action="store_true", help="with --update: store what `play` writes, too")
    taken.add_argument("--mirror", action="store_true", help="with --update: store what `mirror` writes, too")
    taken.add_argument(
        "--status", type=int, metavar="N", help="with --update: store an output though its status N is another one"
    )
    return taken


def main(arguments: List[str]) -> int:
    """Compares or stores the outputs of all scripts."""
    asked = checked(words(), arguments)
    scripts = [script for name in asked.files for script in scripts_of(name)]
    results = [result for script in scripts for result in results_of(script, asked)]
    results += [lonely(path) for name in asked.files for path in without_script(Path(name))]
    results += [empty(Path(name)) for name in asked.files if not scripts_of(name)]
    if asked.report:
        write_file(asked.report, page(results).encode())
    if asked.junit:
        write_file(asked.junit, junit(results, asked.whole).encode())
    troubles = [it.says for it in results if it.outcome == IN_TROUBLE]
    if troubles:
        sys.stdout.flush()
        print("".join(f"snap: {it}\n" for it in troubles), end="", file=sys.stderr)
        return TROUBLE
    differing = sum(not it.is_fine() for it in results)
    count = f"{plural(len(results), 'output')} of {counted(scripts)}"
    write(f"snap: {count} as stored" if not differing else f"snap: {differing} not as stored, of {count}")
    return FOUND if differing else FINE


def checked(taken: Parser, arguments: List[str]) -> argparse.Namespace:
    """The words of a call, which go together."""
    asked = taken.parse_args(arguments)
    if (is_further(asked) or asked.status is not None or asked.review) and not asked.update:
        taken.error("--check, --play, --mirror, --status and --review go with --update")
    if asked.yes and not asked.review:
        taken.error("--yes goes with --review")
    if asked.review and not asked.yes and not sys.stdin.isatty():
        taken.error("--review asks in a terminal, and standard input is none; --yes says yes to all")
    asked.view = view_of(asked.color, asked.whole)
    return asked


def is_further(asked: argparse.Namespace) -> bool:
    """Whether an output is asked for that isn't stored by itself."""
    return any(vars(asked)[word] for word in FURTHER.values())


def counted(files: List[Path]) -> str:
    """How many scripts and streams these are."""
    streams = sum(is_stream(file) for file in files)
    scripts = len(files) - streams
    counts = [plural(scripts, "script")] * (scripts > 0 or not streams) + [plural(streams, "stream")] * (streams > 0)
    return " and ".join(counts)


def is_stream(file: Path) -> bool:
    """Whether a file holds a stream."""
    return file.suffix == STREAM_ENDING


# ---- Which files


def scripts_of(name: str) -> List[Path]:
    """The script or the stream of a name, or those of a folder."""
    path = Path(name)
    if path.is_dir():
        return sorted(path.glob("*.txt")) + sorted(path.glob("*" + STREAM_ENDING))
    if path.suffix == SHOW_ENDING:
        raise Trouble(f"{name} is an output; give its stream, {path.with_suffix(STREAM_ENDING)}")
    if path.suffix in (*SERIAL_ENDINGS, *FURTHER):
        raise Trouble(f"{name} is an output; give its script, {path.with_suffix('.txt')}")
    if not path.exists():
        raise Trouble(f"there is no {name}")
    return [path]


def stored_beside(script: Path, asked: argparse.Namespace) -> List[Stored]:
    """The outputs that are stored for a script, or are to be; without any the one that is missing."""
    if is_stream(script):
        return [Stored(script.with_suffix(SHOW_ENDING), "show")]
    serial = [Stored(script.with_suffix(ending), "serial") for ending in SERIAL_ENDINGS]
    further = [Stored(script.with_suffix(ending), word) for ending, word in FURTHER.items()]
    there = [stored for stored in serial if stored.path.exists()]
    wanted = [stored for stored in further if stored.path.exists() or vars(asked)[stored.word]]
    if not there and (is_further(asked) or not wanted):
        there = serial[:1]
    return there + wanted


def without_script(folder: Path) -> Iterator[Path]:
    """The outputs in a folder whose script, or stream, is not there."""
    for path in sorted(folder.iterdir()) if folder.is_dir() else []:
        if path.suffix not in (*SERIAL_ENDINGS, *FURTHER, SHOW_ENDING) or not path.is_file():
            continue
        source = path.with_suffix(STREAM_ENDING if path.suffix == SHOW_ENDING else ".txt")
        if not source.exists() and (path.suffix == OWN_ENDING or is_output(path)):
            yield path


def is_output(path: Path) -> bool:
    """Whether a file begins as an output does, or is empty."""
    with open(path, "rb") as file:
        begin = file.read(16).decode("latin-1")
    return not begin or begin.startswith(BEGINNINGS)


def lonely(path: Path) -> Result:
    """An output without a script."""
    source = path.with_suffix(STREAM_ENDING if path.suffix == SHOW_ENDING else ".txt")
    says = f"{path} is an output without a script: there is no {source}"
    write(says)
    return Result(source, path, "", NO_SCRIPT, says)


def empty(folder: Path) -> Result:
    """A folder without a script: whoever gives it expects that something is compared."""
    says = f"{folder} has no script NAME.txt and no stream NAME.hex"
    below = sorted({str(path.parent) for ending in (".txt", STREAM_ENDING) for path in folder.rglob("*" + ending)})
    if below:
        says += f"; folders in it aren't searched: give {', '.join(below[:SHOWN])}" + ", .." * (len(below) > SHOWN)
    return Result(folder / "*.txt", folder / ("*" + OWN_ENDING), "", IN_TROUBLE, says)


def given(script: Path) -> bytes:
    """What a script or a stream is given to the program as."""
    if not is_stream(script):
        return pack(str(script)).script
    try:
        return bytes.fromhex(read_bytes(str(script)).decode("latin-1"))
    except ValueError:
        raise Trouble(f"{script} holds other than hex digits and blanks")


# ---- Comparing


def results_of(script: Path, asked: argparse.Namespace) -> Iterator[Result]:
    """What comes of each output of a script. A trouble with one keeps none of the others."""
    for stored in stored_beside(script, asked):
        start = time.monotonic()
        try:
            result = settled(script, stored, asked)
        except Trouble as trouble:
            result = Result(script, stored.path, stored.word, IN_TROUBLE, str(trouble))
        yield result._replace(seconds=time.monotonic() - start)


def settled(script: Path, stored: Stored, asked: argparse.Namespace) -> Result:
    """Whether an output is as it is stored, or is stored now; all else is told."""
    played = play(given(script), stored.word)
    result = compared(script, stored, played)
    if result.outcome == AS_STORED:
        return result
    if asked.update:
        return updated(result, stored, played, asked)
    tell(result, stored, asked)
    return result


def compared(script: Path, stored: Stored, played: Played) -> Result:
    """What came of an output, as it is stored now."""
    before, now = stored.text(), stored.text_of(played)
    result = Result(script, stored.path, stored.word, AS_STORED, "", before, now)
    if before == now and due_status(before) == played.status:
        return result
    if before is None and played.status == REFUSED:
        return result._replace(outcome=STATUS, says=f"{script}: {first_line(played)}; bin/why {script} says why")
    if before is None and played.status != PLAYED:
        return result._replace(outcome=STATUS, says=f"{script}: {stored.word} {ending(played)}, and no output is stored")
    if before is None:
        says = f"{script}: no output is stored; bin/snap --update {script} stores it as {stored.path}"
        return result._replace(outcome=NOT_STORED, says=says)
    if played.status != due_status(before):
        says = f"{script}: {stored.word} {ending(played)}, and {stored.path} has status {due_status(before)}"
        return result._replace(outcome=STATUS, says=says)
    says = f"{script}: {stored.word} writes another text than {stored.path}"
    return result._replace(outcome=DIFFERS, says=says)


def tell(result: Result, stored: Stored, asked: argparse.Namespace) -> None:
    """Says what isn't as stored."""
    write(result.says)
    if result.outcome == DIFFERS:
        write(f"A is {stored.path}, B is what {stored.word} writes now")
        for line in result.differences(asked.view):
            write(line)


def ending(played: Played) -> str:
    """How a script ended, and where to look further."""
    first = first_line(played) if played.status != PLAYED else ""
    further = {REFUSED: "; bin/why says why"}.get(played.status, "")
    return f"ends with status {played.status}" + (f" ({first}{further})" if first else "")


def first_line(played: Played) -> str:
    """The first line of what was written."""
    return played.text().split("\n")[0]


def hex_lines(data: bytes) -> str:
    """Bytes as `xxd` prints them: where a line begins, sixteen bytes in hex digits, and what is printable of them."""
    lines = []
    for at in range(0, len(data), 16):
        part = data[at : at + 16]
        pairs = " ".join(part[i : i + 2].hex() for i in range(0, len(part), 2))
        letters = "".join(chr(it) if 0x20 <= it < 0x7F else "." for it in part)
        lines.append(f"{at:08x}: {pairs:<39}  {letters}\n")
    return "".join(lines)


# ---- Storing


def updated(result: Result, stored: Stored, played: Played, asked: argparse.Namespace) -> Result:
    """Stores an output, and shows before what changes; but no other status than the stored one, unless it is asked for."""
    status = due_status(result.before or "")
    if played.status not in (status, asked.status):
        says = f"{result.script}: {stored.word} {ending(played)}, where {status} is stored: not stored"
        if result.before is None:
            says = f"{result.says}: not stored"
        further = f"\n  (to store it all the same: --status {played.status})" if played.status <= READ_FAULT else ""
        write(says + further)
        return result._replace(outcome=STATUS, says=says)
    if played.status != due_status(played.text()):
        says = f"{result.script}: an output with status {played.status} cannot be stored"
        write(says)
        return result._replace(outcome=STATUS, says=says)
    tell_change(result, stored, asked)
    if not agreed(asked):
        write(f"not stored: {stored.path}")
        return result
    write_file(str(stored.path), str(result.now).encode("latin-1"))
    write(str(stored.path))
    return result._replace(outcome=STORED, says=f"{stored.path} was stored")


def tell_change(result: Result, stored: Stored, asked: argparse.Namespace) -> None:
    """Shows what an update changes; of a new output what it holds."""
    if result.before is not None:
        tell(result, stored, asked)
        return
    output = take_apart(str(result.now))
    lines = [part for part in output.parts if isinstance(part, str)]
    write(f"{stored.path} is new: {plural(len(output.dumps()), 'dump')}, {plural(len(lines), 'other line')}")
    for line in shown_as_new(output.parts, asked.view, asked.review or asked.whole):
        write(line)


def shown_as_new(parts: List[object], view: View, with_digits: bool) -> Iterator[str]:
    """A new output: its dumps as pictures, or in hex digits if these are asked for, and the first lines beside, or all."""
    lines = 0
    for part in parts:
        if isinstance(part, Dump):
            yield part.header()
            if view.coloured:
                yield from terminal_lines(picture_of(part))
            elif with_digits:
                yield from (row.hex() for row in part.rows)
            continue
        lines += 1
        if lines <= SHOWN or view.whole:
            yield str(part)
    if lines > SHOWN and not view.whole:
        yield f"  and {plural(lines - SHOWN, 'line')} more; --whole shows all"


def agreed(asked: argparse.Namespace) -> bool:
    """Whether a change is to be stored: by itself, or because somebody says so. At the end of the input nobody does."""
    if not asked.review or asked.yes:
        return True
    sys.stdout.flush()
    while True:
        print("store it? [y/n] ", end="", file=sys.stderr, flush=True)
        answer = sys.stdin.readline()
        if answer.strip().lower() in ("y", "yes", "n", "no", ""):
            return answer.strip().lower() in ("y", "yes")
