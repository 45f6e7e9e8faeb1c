"""The repository's own sources, as far as pages speak of them: crates, and functions with their clauses."""

import re
from pathlib import Path
from typing import Dict, List, Set

HEAD = re.compile(r"^(impl|trait|pub trait|pub\(crate\) trait)\b")
FUNCTION = re.compile(r"^( *)(?:pub(?:\(\w+\))? )?(?:ghost )?fn (\w+)")
CLAUSE = re.compile(r"^ *(?:requires|ensures) (\w*) ?\{")


def owner_of(line: str) -> str:
    """The type of an `impl` line, or the trait of its own line: the name before the type's own parameters."""
    text = re.sub(r"\bwhere\b.*", "", line.rstrip(" {"))
    text = text.rsplit(" for ", 1)[-1] if " for " in text else re.sub(r"^[\w() ]*?(impl|trait)(<.*?>)? ", "", text)
    found = re.search(r"(\w+)(<|$|:| )", text.split("::")[-1])
    return found[1] if found else ""


def clauses_below(lines: List[str], indent: str) -> Set[str]:
    """The clauses of the function whose first line is the first of these: those before its body. One without a name is ""."""
    found: Set[str] = set()
    for number, line in enumerate(lines):
        clause = CLAUSE.match(line)
        if clause:
            found.add(clause[1])
        elif line.rstrip() in (indent + "{", indent + "{}") or (number and FUNCTION.match(line)):
            break
        elif not found and line.endswith(("{", ";", "{}")):
            break
    return found


def functions_of(crate: Path) -> Dict[str, Set[str]]:
    """The functions of a crate with the names of their clauses; a method is named `Type::method`."""
    found: Dict[str, Set[str]] = {}
    for file in sorted(crate.glob("src/**/*.rt")):
        owner, lines = "", file.read_text("utf-8").split("\n")
        for number, line in enumerate(lines):
            owner = owner_of(line) if HEAD.match(line) else "" if line == "}" else owner
            function = FUNCTION.match(line)
            if function:
                name = f"{owner}::{function[2]}" if owner and function[1] else function[2]
                found.setdefault(name, set()).update(clauses_below(lines[number:], function[1]))
    return found


def uses_of(top: Path) -> Dict[str, List[str]]:
    """Each crate of crates.txt, lowest first, with those that it names; a library of the toolchain is one of these."""
    lines = [line.partition("#")[0] for line in (top / "crates.txt").read_text("utf-8").split("\n")]
    halves = [line.partition(":") for line in lines if line.strip()]
    return {name.strip(): names.split() for name, _, names in halves}


def crates_of(top: Path) -> List[str]:
    """The names of all crates, lowest first."""
    return list(uses_of(top))
