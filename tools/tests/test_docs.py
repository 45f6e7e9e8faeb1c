"""That the documents say what is so: the excerpts of the README, docs/TESTING.md and docs/SCRIPT.md, the refusals and the
streams of docs/SCRIPT.md, the palette, the font and its use."""

import re
import sys
import unittest
from typing import Iterator, List, Tuple

from commands_under_test import TOP, call

sys.path.insert(0, str(TOP / "tools"))

from trestle_tools.pictures import palette  # noqa: E402
from trestle_tools.program import play  # noqa: E402


def lines_of(name: str) -> List[str]:
    """The lines of a file of the repository."""
    return (TOP / name).read_text("utf-8").splitlines()


def excerpts() -> Iterator[Tuple[str, List[str]]]:
    """The blocks of docs/TESTING.md, each with the example that its section names."""
    for section in (TOP / "docs/TESTING.md").read_text("utf-8").split("\n## ")[1:]:
        example = re.search(r"`docs/examples/(\w+)\.txt`", section)
        for block in re.findall(r"```\n(.*?)\n```", section, re.S):
            assert example, section[:40]
            yield f"docs/examples/{example[1]}", block.split("\n")


def blocks_of(name: str) -> Iterator[List[str]]:
    """The blocks of a page that name no language."""
    text = (TOP / name).read_text("utf-8")
    return (block.split("\n") for block in re.findall(r"^```\n(.*?)\n```$", text, re.S | re.M))


def stand_in_order(wanted: List[str], lines: List[str]) -> bool:
    """Whether lines stand among others in their order."""
    rest = iter(lines)
    return all(line in rest for line in wanted)


def bytes_of(printed: List[str]) -> bytes:
    """The bytes that lines of `xxd` have."""
    return bytes.fromhex("".join(line[10:49] for line in printed))


class Docs(unittest.TestCase):
    """The documents."""

    def test_excerpts_are_of_the_examples(self) -> None:
        for example, block in excerpts():
            with self.subTest(f"{example}: {block[0]}"):
                script, output = lines_of(example + ".txt"), lines_of(example + ".out")
                self.assertTrue(stand_in_order(block, script) or stand_in_order(block, output))

    def test_blocks_are_of_some_example(self) -> None:
        paths = [path for folder in ("demos", "docs/examples") for path in sorted((TOP / folder).iterdir()) if path.is_file()]
        files = [path.read_bytes().decode("latin-1").split("\n") for path in paths]
        for page in ("README.md", "docs/SCRIPT.md"):
            for block in blocks_of(page):
                with self.subTest(f"{page}: {block[0]}"):
                    self.assertTrue(any(stand_in_order(block, lines) for lines in files))

    def test_examples_of_tests_are_meant(self) -> None:
        for script in sorted((TOP / "docs/examples").glob("testing_*.txt")):
            with self.subTest(script.stem):
                self.assertEqual((0, ""), call("lint", [str(script)]))

    def test_what_testing_says_of_the_recorded_script(self) -> None:
        """The numbers after a dump, the finding of the press that misses, and the key that reaches its owner."""
        page = (TOP / "docs/TESTING.md").read_text("utf-8")
        recorded = (TOP / "docs/examples/testing_recorded.txt").read_text()
        with_dump = play(recorded.replace("begin\n", "begin\ndump\n").encode()).text()
        [peek] = [line for line in with_dump.splitlines() if line.startswith("peek ")]
        self.assertIn(f"`{peek}`", page)
        missed = call("lint", ["-"], given=recorded.replace("motion 1 20 15", "motion 1 40 15").encode())
        place, says = missed.text.splitlines()[:2]
        self.assertIn(f"    {place.replace('-:', 'button.txt:')}\n    {says}\n", page)
        steps = ["motion 1 20 15", "mouse 2 down 1", "mouse 3 up 1", "sync", "@button own key 3", "sync", "key 4 65", "sync", "inbox button", "end"]
        self.assertIn(f"`{steps[4]}`", page)
        keys = recorded.partition("begin\n")[0] + "\n".join(["begin", *steps, ""])
        self.assertIn("\nkey 4 65\n", play(keys.encode()).text())

    def test_refused_lines(self) -> None:
        text = "\n".join(lines_of("docs/SCRIPT.md"))
        rows = re.findall(r"^- `((b[0-9]+)_\w+)`, ([0-9]+): ", text, re.M)
        rows += re.findall(r"[(. ]`((b[0-9]+)_\w+)`, ([0-9]+)[):]", text)
        examples = {path.stem for path in (TOP / "docs/examples").glob("b[0-9]*_*.out")}
        self.assertEqual(examples, {"b8_empty", *(name for name, _, _ in rows)})
        for name, code, line in rows:
            with self.subTest(name):
                self.assertEqual([f"refused: line {line} {code.upper()}"], lines_of(f"docs/examples/{name}.out"))

    def test_refused_streams(self) -> None:
        rows = re.findall(r"^\| `(m[1-5]_\w+)` \| `([0-9a-f ]*)` \| `(.*)` \|$", "\n".join(lines_of("docs/SCRIPT.md")), re.M)
        self.assertEqual(16, len(rows))
        for name, stream, refused in rows:
            with self.subTest(name):
                self.assertEqual([stream], lines_of(f"docs/examples/{name}.hex"))
                self.assertEqual([f"refused: {refused}"], lines_of(f"docs/examples/{name}.show"))

    def test_records_of_a_stream(self) -> None:
        text = "\n".join(lines_of("docs/SCRIPT.md"))
        stored = lines_of("docs/examples/stream.mirror")
        self.assertIn("\n".join(stored), text)
        records = re.findall(r"^\| ([0-9]+) \| `(0[1-4] [0-9a-f ]*)` \|", text, re.M)
        self.assertEqual(bytes_of(stored), bytes.fromhex("".join(record for _, record in records)))
        places = [sum(len(bytes.fromhex(it)) for _, it in records[:n]) for n in range(len(records))]
        self.assertEqual(places, [int(place) for place, _ in records])

    def test_palette(self) -> None:
        rows = re.findall(r"^\| (?:0 to 7|8 to 15) \| (.*) \|$", "\n".join(lines_of("docs/SCRIPT.md")), re.M)
        colours = re.findall("[0-9a-f]{6}", "".join(rows))
        self.assertEqual([colour.hex() for colour in palette()[:16]], colours)
        self.assertEqual(256, len(palette()))

    def test_font(self) -> None:
        glyphs = [line for line in lines_of("demos/font.txt") if line.startswith("glyph ")]
        self.assertEqual([f"{byte:02x}" for byte in range(0x20, 0x7F)], [line[6:8] for line in glyphs])
        self.assertEqual(95, len({line[9:] for line in glyphs}))
        for script in [*sorted((TOP / "demos").glob("*.txt")), *sorted((TOP / "docs/examples").glob("testing_*.txt"))]:
            used = [line for line in script.read_text().splitlines() if line.startswith("glyph ")]
            with self.subTest(script.stem):
                self.assertEqual([], [line for line in used if line not in glyphs])


if __name__ == "__main__":
    unittest.main()
