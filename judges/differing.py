#!/usr/bin/env python3
"""Brings about a session that differs, which no script can: compiles an unproved program in which the desk's pass lists
another step than the desk makes, and plays a script by it.

    judges/differing.py FOLDER

It copies what it compiles into FOLDER, and leaves the program there. Compiling takes minutes. The status is 0 if `play`
wrote what `serial` writes, then the line of the difference, and then that all was played again."""

import os
import shutil
import subprocess
import sys
from pathlib import Path
from typing import Dict, List

TOP = Path(__file__).resolve().parents[1]

FILE = "crates/tr_server/src/locked.rt"
OLD = "        if let Err(refused) = pass.mine.push(mine) {\n"
NEW = "        drop(mine);\n        if let Err(refused) = pass.mine.push(Step::PaintFrame) {\n"

SCRIPT = TOP / "docs/examples/side_by_side.txt"


def crates_below(name: str) -> List[str]:
    """The folders of a crate and of those that it rests on."""
    uses: Dict[str, List[str]] = {}
    for line in (TOP / "crates.txt").read_text("utf-8").splitlines():
        left, colon, right = line.partition("#")[0].partition(":")
        if colon:
            uses[left.split()[0]] = right.replace(",", " ").split()
    found = [name]
    for crate in found:
        found += [below for below in uses[crate] if below in uses and below not in found]
    return [f"crates/{crate}" for crate in found]


def copied(folder: Path, crates: List[str]) -> None:
    """Copies the crates' sources, one of them with the fault."""
    folder.mkdir(parents=True, exist_ok=True)
    shutil.copy(TOP / "crates.txt", folder)
    for crate in crates:
        shutil.copytree(TOP / crate, folder / crate, ignore=shutil.ignore_patterns("out"), dirs_exist_ok=True)
    text = (TOP / FILE).read_text("utf-8")
    assert text.count(OLD) == 1, FILE
    (folder / FILE).write_text(text.replace(OLD, NEW), "utf-8")


def compiled(folder: Path) -> Path:
    """The program with the fault."""
    crates = crates_below("trestle")
    copied(folder, crates)
    rt = shutil.which("rt")
    if rt is None:
        sys.exit("differing.py: there is no rt on the PATH")
    kit = Path(rt).resolve().parents[1]
    made = folder / "made"
    made.mkdir(exist_ok=True)
    subprocess.run([str(TOP / "tools/compile_unproved.sh"), str(kit), str(made), *crates], cwd=folder, check=True)
    return made / "trestle"


def main() -> int:
    """Compiles the program, and looks at what it writes."""
    if len(sys.argv) != 2:
        print(__doc__, file=sys.stderr)
        return 2
    program = compiled(Path(sys.argv[1]).resolve())
    serial, played = (
        subprocess.run([os.fspath(program), word], input=SCRIPT.read_bytes(), stdout=subprocess.PIPE, check=False)
        for word in ("serial", "play")
    )
    lines = played.stdout.decode().splitlines(keepends=True)
    sys.stdout.writelines(lines)
    is_again = (
        (serial.returncode, played.returncode) == (0, 0)
        and "".join(lines[:-2]) == serial.stdout.decode()
        and lines[-2].startswith("differs desk 1: ")
        and lines[-1] == "played again\n"
    )
    return 0 if is_again else 1


if __name__ == "__main__":
    sys.exit(main())
