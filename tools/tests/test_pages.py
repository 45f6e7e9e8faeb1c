"""That the pages are true where a program can tell: links and anchors, the files and clauses that they name, the numbers that
they state about the repository, and how long they are.

A number of the repository stands behind a mark, as `<!-- count: gate_edits -->12`. `test_pages.py --write` renews all of these.
"""

import re
import sys
import tempfile
import unittest
from pathlib import Path
from typing import Callable, Dict, Iterator, List, Set, Tuple

from repository import crates_of, functions_of, uses_of

TOP = Path(__file__).resolve().parents[2]  # (not by commands_under_test, which needs a program)
PAGES = [TOP / "README.md", *sorted((TOP / "docs").glob("*.md")), TOP / "bench/README.md", TOP / "CHANGELOG.md"]
MOST_WORDS = {"README and docs without SCRIPT": 22_000, "SCRIPT": 10_500, "bench and CHANGELOG": 2_500}


def edits_in(folder: str) -> int:
    """How many must-fail edits there are in a folder for each crate."""
    return len(list(TOP.glob(f"{folder}/*.edit")))


def variants_of(file: str, name: str) -> int:
    """How many variants an enum has."""
    body = (TOP / file).read_text("utf-8").partition(f"\npub enum {name} {{\n")[2].partition("\n}\n")[0]
    return len(re.findall(r"^    [A-Z]", body, re.M))


COUNTS: Dict[str, Callable[[], int]] = {
    "gate_edits": lambda: edits_in("crates/*/must-fail"),
    "other_edits": lambda: edits_in("edits/*"),
    "crates": lambda: len(crates_of(TOP)),
    "crates_of_tests": lambda: sum(it.endswith("_tests") for it in crates_of(TOP)),
    "benchmarks": lambda: sum(it.startswith("bench_") for it in crates_of(TOP)),
    "widgets": lambda: variants_of("crates/tr_widget/src/widgets.rt", "Widget"),
    "kinds_of_nodes": lambda: variants_of("crates/tr_forest/src/kinds.rt", "NodeKind") - 1,
    "edits_of_trees": lambda: variants_of("crates/tr_forest/src/edits.rt", "Edit"),
    "demos": lambda: len(list(TOP.glob("demos/*.txt"))),
    "examples": lambda: len(list(TOP.glob("docs/examples/*.txt"))),
}
MARK = re.compile(r"<!-- count: (\w+) -->(\d+(?:,\d{3})*)")


def counted(text: str) -> str:
    """A page's text with the numbers that are so."""
    return MARK.sub(lambda it: f"<!-- count: {it[1]} -->{COUNTS[it[1]]():,}" if it[1] in COUNTS else it[0], text)


def without_blocks(text: str) -> str:
    """A page without its blocks of code."""
    return re.sub(r"^```.*?^```$", "", text, flags=re.S | re.M)


def spans_of(text: str) -> List[str]:
    """The pieces of code within a page's sentences."""
    return re.findall(r"`([^`\n]+)`", without_blocks(text))


def anchors_of(page: Path) -> Set[str]:
    """The anchors of a page's headings: small letters, hyphens for spaces, and no other signs; a second one has a number."""
    found: Set[str] = set()
    for heading in re.findall(r"^#+ (.*)$", without_blocks(page.read_text("utf-8")), re.M):
        plain = re.sub(r"\[([^]]*)\]\([^)]*\)", r"\1", heading.replace("`", ""))
        anchor = re.sub(r"[^\w\- ]", "", plain.strip().lower()).replace(" ", "-")
        number = next(k for k in range(len(found) + 1) if (f"{anchor}-{k}" if k else anchor) not in found)
        found.add(f"{anchor}-{number}" if number else anchor)
    return found


def broken_links(page: Path) -> Iterator[str]:
    """The links of a page that lead nowhere within the repository."""
    for target in re.findall(r"\]\(([^)\s]+)\)", without_blocks(page.read_text("utf-8"))):
        if re.match(r"[a-z]+:", target):
            continue
        path, _, anchor = target.partition("#")
        file = (page.parent / path).resolve() if path else page
        if not file.exists() or anchor and anchor not in anchors_of(file):
            yield target


def lost_files(page: Path) -> Iterator[str]:
    """The files that a page names and that aren't there. A name in capitals, or with `..`, stands for others; a reader of
    CLIENT makes the crate `ex_gauge`."""
    for span in spans_of(page.read_text("utf-8")):
        for word in span.split():
            word = re.sub(r"^(?=(?:tr|w|ex)_\w+/)", "crates/", word)
            is_path = re.fullmatch(r"(?:\./)?(?:crates|docs|tools|tests|judges|bench|demos|edits|bin|\.ci)/[\w./-]+", word)
            if is_path and not re.search(r"[A-Z]{3}|\.\.|ex_gauge", word.replace("README", "")) and not (TOP / word).exists():
                yield word


def names_of(path: str) -> List[str]:
    """The names that a path with braces lists: `crate::Type::{one, two}`."""
    braces = re.fullmatch(r"(.*)\{(.*)\}", path)
    return [braces[1] + it.strip() for it in braces[2].split(",")] if braces else [path]


def rows_of_clauses(text: str) -> Iterator[Tuple[str, str]]:
    """Each function with each clause of the rows of a page's tables whose first columns are `function` and `clause`. An empty
    first cell is that of the row above."""
    functions, is_one = [], False
    for line in text.split("\n"):
        cells = [it.strip() for it in line.strip("|").split("|")]
        if not line.startswith("|"):
            is_one = False
        elif cells[:2] == ["function", "clause"]:
            is_one = True
        elif is_one and not set(cells[0]) <= set("-: ") or is_one and not cells[0]:
            functions = re.findall(r"`([^`]+)`", cells[0]) or functions
            for path in functions:
                for name in names_of(path):
                    yield from ((name, clause) for clause in re.findall(r"`([^`]+)`", cells[1]))


def named_clauses(text: str) -> Iterator[Tuple[str, str]]:
    """Each function that a page names, with a clause of it, or with none."""
    yield from rows_of_clauses(text)
    for span in spans_of(text):
        found = re.fullmatch(r"((?:tr|w|ex)_\w+|trestle)::([\w:]+|[\w:]*\{[\w, ]+\})(?:#(\w+))?", span)
        if found:
            yield from ((name, found[3] or "") for name in names_of(f"{found[1]}::{found[2]}"))


def lost_clauses(page: Path) -> Iterator[str]:
    """The clauses and functions that a page names and that the code doesn't have."""
    known: Dict[str, Dict[str, Set[str]]] = {}
    for path, clause in named_clauses(page.read_text("utf-8")):
        crate, _, name = path.partition("::")
        if crate not in known:
            known[crate] = functions_of(TOP / "crates" / crate)
        clauses = known[crate].get(name)
        if clauses is None:
            yield f"{path}: no such function"
        elif clause and (clause if clause != "-" else "") not in clauses:
            yield f"{path}: no clause {clause}"


class Pages(unittest.TestCase):
    """The pages."""

    def test_links_lead_somewhere(self) -> None:
        for page in PAGES:
            with self.subTest(page.name):
                self.assertEqual([], list(broken_links(page)))

    def test_files_are_there(self) -> None:
        for page in PAGES:
            with self.subTest(page.name):
                self.assertEqual([], list(lost_files(page)))

    def test_clauses_are_in_the_code(self) -> None:
        for page in PAGES:
            with self.subTest(page.name):
                self.assertEqual([], list(lost_clauses(page)))
        clauses = list(named_clauses((TOP / "docs/PROVED.md").read_text("utf-8")))
        self.assertGreater(len(clauses), 100)

    def test_numbers_are_so(self) -> None:
        for page in PAGES:
            text = page.read_text("utf-8")
            with self.subTest(page.name):
                self.assertEqual([], [name for name, _ in MARK.findall(text) if name not in COUNTS])
                self.assertEqual(MARK.findall(counted(text)), MARK.findall(text))

    def test_crates_are_told_of(self) -> None:
        lines = ["", *(TOP / "crates.txt").read_text("utf-8").split("\n")]
        is_gloss = [line.startswith("# ") and not line.startswith("# ====") for line in lines]
        untold = [line for line, told in zip(lines[1:], is_gloss) if line.partition("#")[0].strip() and not told]
        self.assertEqual([], untold)

    def test_each_layer_rests_on_lower_ones(self) -> None:
        block = re.search(r"^```\n(.*?)^```$", (TOP / "docs/ARCHITECTURE.md").read_text("utf-8"), re.S | re.M)
        assert block
        used = uses_of(TOP)
        rank = {name: k for k, line in enumerate(block[1].split("\n")) for name in line.split() if name in used}
        others = {name for name in used if name not in rank}
        self.assertEqual({it for it in others if not re.match(r"ex_|bench_|tr_testing$|tr_\w+_tests$", it)}, set())
        self.assertEqual([], [(it, low) for it in rank for low in used[it] if rank.get(low, len(rank)) < rank[it]])

    def test_pages_are_short(self) -> None:
        words = {page: len(page.read_text("utf-8").split()) for page in PAGES}
        script = TOP / "docs/SCRIPT.md"
        others = [TOP / "bench/README.md", TOP / "CHANGELOG.md"]
        found = {
            "README and docs without SCRIPT": sum(n for page, n in words.items() if page not in (script, *others)),
            "SCRIPT": words[script],
            "bench and CHANGELOG": sum(words[page] for page in others),
        }
        for name, most in MOST_WORDS.items():
            with self.subTest(name):
                self.assertLessEqual(found[name], most)


class Mistakes(unittest.TestCase):
    """That the tests above would find a mistake."""

    def test_mistakes_are_found(self) -> None:
        text = """# A page
[here](#a-page) [there](#a-pag) [file](lost.md) `tests/rows` `tests/lost` `tr_io/src/lost.rt` <!-- count: crates -->1
`tr_stage::Stage::step#made` `tr_stage::Stage::step#lost` `tr_stage::Stage::{step, lost}`

| function | clause | says |
|---|---|---|
| `tr_inbox::Inbox::{put, take}` | `err` | both |
| | `full` | one |
| `tr_inbox::Inbox::get` | `-` | without a name |
| `tr_inbox::Inbox::put` | `-` | all have names |
"""
        with tempfile.TemporaryDirectory() as folder:
            page = Path(folder) / "page.md"
            page.write_text(text, "utf-8")
            self.assertEqual(["#a-pag", "lost.md"], list(broken_links(page)))
            self.assertEqual(["tests/lost", "crates/tr_io/src/lost.rt"], list(lost_files(page)))
            self.assertEqual(
                [
                    "tr_inbox::Inbox::take: no clause full",
                    "tr_inbox::Inbox::put: no clause -",
                    "tr_stage::Stage::step: no clause lost",
                    "tr_stage::Stage::lost: no such function",
                ],
                list(lost_clauses(page)),
            )
        self.assertNotEqual(text, counted(text))


if __name__ == "__main__" and sys.argv[1:] == ["--write"]:
    for it in PAGES:
        it.write_text(counted(it.read_text("utf-8")), "utf-8")
elif __name__ == "__main__":
    unittest.main()
