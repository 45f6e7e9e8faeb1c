"""Checkouts with stand-ins for the programs, so that what finds and starts these is tried without building any."""

import subprocess
from pathlib import Path


def write_program(path: Path, command: str) -> None:
    """Makes a program of a line of the shell."""
    path.parent.mkdir(parents=True, exist_ok=True)
    path.write_text(f"#!/bin/sh\n{command}\n")
    path.chmod(0o755)


def mark_fresh(top: Path, place: str) -> None:
    """Marks the program in a folder as made of the checkout's files as they are now. The checkout has fresh.sh, and gets a
    crate, and a toolchain in `kit`."""
    for name in ("crates.txt", "HANDLES", "crates/one/src/main.rt", "kit/KIT-ID"):
        file = top / name
        file.parent.mkdir(parents=True, exist_ok=True)
        if not file.exists():
            file.write_text(f"{name}\n")
    if not (top / "kit/bin/rt").exists():
        write_program(top / "kit/bin/rt", ":")
    made_of = f"{top}/kit/bin/rt\n{top}/kit\ncrates/one\n"
    (top / place / "made_of").write_text(made_of)
    look = '. ./fresh.sh && { read -r rt; read -r kit; read -r crates; } <"$1/made_of" && looks >"$1/looks"'
    subprocess.run(["sh", "-c", look, "sh", place], cwd=top, check=True)
