"""What came of comparing a stored output with what its script writes now, and the reports of it: JUnit's XML, as
continuous integration reads it, and one page of HTML with the pictures side by side."""

import base64
import html
import re
from itertools import groupby
from pathlib import Path
from typing import Iterator, List, NamedTuple, Optional
from xml.sax.saxutils import escape, quoteattr

from .comparison import difference_of, different_counts, differing_dumps, panels, plural, report, text_differences
from .outputs import Dump, Output, take_apart
from .pictures import Picture, different_points, picture_of, png
from .terminal import View

# What may have come of an output.
AS_STORED, STORED, DIFFERS, NOT_STORED, STATUS, NO_SCRIPT, TROUBLE = (
    "as stored",
    "stored",
    "differs",
    "not stored",
    "another status",
    "no script",
    "trouble",
)
FINE = (AS_STORED, STORED)


class Result(NamedTuple):
    """What came of one output."""

    script: Path
    stored: Path
    word: str
    outcome: str
    says: str = ""
    before: Optional[str] = None
    now: Optional[str] = None
    seconds: float = 0.0

    def is_fine(self) -> bool:
        """Whether it is as it is stored, or was stored now."""
        return self.outcome in FINE

    def differences(self, view: View) -> List[str]:
        """What differs as lines of text."""
        if self.before is None or self.now is None or self.before == self.now:
            return []
        return report(take_apart(self.before), take_apart(self.now), view)


# ---- JUnit


def junit(results: List[Result], whole: bool) -> str:
    """The results as JUnit's XML: a suite for each folder, a case for each stored output. The texts that tell what differs
    are those of a terminal without colours."""
    suites = [(folder, list(group)) for folder, group in groupby(results, lambda it: str(it.script.parent))]
    lines = ['<?xml version="1.0" encoding="UTF-8"?>', f"<testsuites name=\"snap\" {counts(results)}>"]
    for folder, group in suites:
        lines.append(f"  <testsuite name={attribute(folder)} {counts(group)}>")
        for result in group:
            lines += case_of(result, View(coloured=False, whole=whole))
        lines.append("  </testsuite>")
    return "\n".join([*lines, "</testsuites>", ""])


def counts(results: List[Result]) -> str:
    """The attributes that count."""
    errors = sum(it.outcome == TROUBLE for it in results)
    failures = sum(not it.is_fine() for it in results) - errors
    seconds = sum(it.seconds for it in results)
    return f'tests="{len(results)}" failures="{failures}" errors="{errors}" skipped="0" time="{seconds:.3f}"'


def case_of(result: Result, view: View) -> List[str]:
    """One case."""
    name = ".".join([*(part for part in result.script.parent.parts if part not in (".", "..", "/")), result.script.stem])
    words = f"classname={attribute(name)} name={attribute(result.stored.name)} file={attribute(str(result.script))}"
    case = f'    <testcase {words} time="{result.seconds:.3f}"'
    if result.is_fine():
        return [case + "/>"]
    kind = "error" if result.outcome == TROUBLE else "failure"
    text = "\n".join([result.says, *result.differences(view)])
    opening = f"      <{kind} message={attribute(result.says)} type={attribute(result.outcome)}>"
    return [case + ">", opening + escape(xml_text(text)) + f"</{kind}>", "    </testcase>"]


def attribute(text: str) -> str:
    """A text as an attribute's value, with its quotes."""
    return quoteattr(xml_text(text))


def xml_text(text: str) -> str:
    """A text without what XML has no place for."""
    return re.sub("[^\t\n\x20-\ud7ff\ue000-\ufffd]", "?", text)


# ---- The page

STYLE = """
:root {
  color-scheme: light dark; --ground: #fff; --ink: #1a1a1a; --line: #ccc; --less: #b00020; --more: #00662b;
}
@media (prefers-color-scheme: dark) {
  :root { --ground: #161616; --ink: #e6e6e6; --line: #444; --less: #ff8a80; --more: #7ee2a0; }
}
body {
  background: var(--ground); color: var(--ink); font: 15px/1.5 system-ui, sans-serif;
  margin: 2rem auto; max-width: 90rem; padding: 0 1rem;
}
h1, h2 { font-weight: 600; line-height: 1.2; }
h2 { border-top: 1px solid var(--line); margin-top: 2.5rem; padding-top: 1rem; font-size: 1.2rem; }
table { border-collapse: collapse; }
td, th { border-bottom: 1px solid var(--line); padding: .2rem .8rem .2rem 0; text-align: left; }
pre { overflow-x: auto; } .less { color: var(--less); } .more { color: var(--more); } .quiet { opacity: .7; }
.pictures { display: flex; flex-wrap: wrap; gap: 1rem; } figure { margin: 0; max-width: 100%; overflow-x: auto; }
img { image-rendering: pixelated; display: block; border: 1px solid var(--line); }
"""
# So many points of the browser a picture may be wide; small ones are shown in larger points.
WIDE, GREATEST_SCALE = 480, 12


def page(results: List[Result]) -> str:
    """The results as one page that needs no other file: a table, and what differs, with pictures."""
    wrong = [it for it in results if not it.is_fine()]
    title = f"{plural(len(wrong), 'output')} not as stored" if wrong else "all outputs as stored"
    parts = [
        "<!DOCTYPE html>",
        f'<html lang="en"><head><meta charset="utf-8"><title>snap: {title}</title>',
        '<meta name="viewport" content="width=device-width, initial-scale=1">',
        f"<style>{STYLE}</style></head><body>",
        f"<h1>{title}</h1>",
        f'<p class="quiet">snap compared {plural(len(results), "output")}. A is the stored output, B the one of now.</p>',
        *table(results),
    ]
    for number, result in enumerate(results):
        parts += section(number, result) if not result.is_fine() or result.before != result.now else []
    return "\n".join([*parts, "</body></html>", ""])


def table(results: List[Result]) -> Iterator[str]:
    """All outputs with what came of them."""
    yield "<table><tr><th>script</th><th>output</th><th></th></tr>"
    for number, result in enumerate(results):
        told = html.escape(result.outcome)
        outcome = told if result.outcome == AS_STORED else f'<a href="#n{number}">{told}</a>'
        cells = html.escape(str(result.script)), html.escape(result.stored.name), outcome
        yield "<tr>" + "".join(f"<td>{cell}</td>" for cell in cells) + "</tr>"
    yield "</table>"


def section(number: int, result: Result) -> Iterator[str]:
    """What differs of one output."""
    yield f'<h2 id="n{number}">{html.escape(str(result.stored))}</h2>'
    yield f"<p>{html.escape(result.says or result.outcome)}</p>"
    if result.now is None:
        return
    now = take_apart(result.now)
    if result.before is None:
        yield from written(now)
        return
    before = take_apart(result.before)
    lines = text_differences(before, now, View(coloured=False, whole=True))
    if lines:
        yield "<pre>" + "\n".join(marked_line(line) for line in lines) + "</pre>"
    for place, one, other in differing_dumps(before, now):
        yield f"<p>{html.escape(difference_of(place, one, other, list(different_points(one, other))))}</p>"
        yield figures(zip(("A: stored", "B: now", "what differs"), panels(one, other)))
    yield from (f"<p>{html.escape(line)}</p>" for line in different_counts(before, now))


def marked_line(line: str) -> str:
    """A line that one of two texts has."""
    return f'<span class="{"less" if line[0] == "-" else "more"}">{html.escape(line)}</span>'


def written(output: Output) -> Iterator[str]:
    """All that was written, where nothing is stored yet."""
    for part in output.parts:
        if isinstance(part, Dump):
            yield figures([(part.header(), picture_of(part))])
        else:
            yield f"<pre>{html.escape(part)}</pre>"


def figures(pictures) -> str:
    """Pictures side by side, each with its title, in the page itself."""
    return '<div class="pictures">' + "".join(figure(title, picture) for title, picture in pictures) + "</div>"


def figure(title: str, picture: Picture) -> str:
    """A picture in the page itself."""
    scale = max(1, min(GREATEST_SCALE, WIDE // picture.width))
    data = base64.b64encode(png(picture, 1)).decode()
    size = f'width="{picture.width * scale}" height="{picture.height * scale}"'
    image = f'<img {size} alt="{html.escape(title)}" src="data:image/png;base64,{data}">'
    return f"<figure><figcaption>{html.escape(title)}</figcaption>{image}</figure>"
