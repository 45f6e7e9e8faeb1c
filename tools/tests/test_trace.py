"""What bin/trace makes of scripts and outputs: where windows are, the screen after each step, and the page in a browser."""

import base64
import json
import random
import re
import sys
import tempfile
import unittest
import zlib
from pathlib import Path
from typing import Iterator, List

from browser import Browser, browser
from commands_under_test import TOP, call

sys.path.insert(0, str(TOP / "tools"))

from trestle_tools import traces  # noqa: E402
from trestle_tools.include import pack  # noqa: E402
from trestle_tools.instruments import Body, answers, body_of, copy_of, played  # noqa: E402
from trestle_tools.outputs import take_apart  # noqa: E402
from trestle_tools.places import Layout  # noqa: E402
from trestle_tools.program import PLAYED, REFUSED, play  # noqa: E402
from trestle_tools.scripts import LINES, Line, lines_of  # noqa: E402
from trestle_tools.stream_reader import Frame, Refused  # noqa: E402
from trestle_tools.streams import dump_of, frame_of, frames_of, stream_of  # noqa: E402
from trestle_tools.traces import (  # noqa: E402
    Asked,
    Trace,
    aligned,
    batches,
    is_edit,
    pairs_of,
    stride,
    trace_of_output,
    trace_of_script,
    wanted_counts,
)
from trestle_tools.windows import Windows  # noqa: E402

BUTTON = TOP / "docs/examples/testing_button.txt"
# A press that goes to another window than the one that takes, a motion that is refused, and one that leaves the screen.
PRESS = """trestle 1
screen 32 16 map8
node desk z 7
leaf first_of_windows 8 8 8 8 8 8 solid 3
leaf other_of_windows 8 8 8 8 8 8 solid 4
put first_of_windows desk 0 0
put other_of_windows desk 16 0
root desk
begin
motion 5 17 2
motion 4 3 3
mouse 6 down 1
@first_of_windows take
move other_of_windows 20 4
motion 7 40 -3
sync
end
"""


def scripts() -> Iterator[Path]:
    """The demos, and the examples of docs/SCRIPT.md, that are played."""
    for folder in ("demos", "docs/examples"):
        for script in sorted((TOP / folder).glob("*.txt")):
            if play(script.read_bytes()).status == PLAYED:
                yield script


def frames(trace: Trace) -> List[Frame]:
    """The screens of a trace."""
    return [frame for chunk in trace.chunks for frame in frames_of(zlib.decompress(chunk.packed))]


def screen_after(body: Body, count: int) -> Frame:
    """The screen after some steps, by a script that has no more."""
    items = [*(step.text for step in body.steps()[:count]), "dump"]
    return frame_of(take_apart(played(copy_of(body, items)).text()).dumps()[0])


class Places(unittest.TestCase):
    """Where windows are."""

    def test_where(self) -> None:
        """At drawn points, after a drawn number of steps, the program says the same."""
        for script in scripts():
            drawn = random.Random(script.stem)
            body = body_of(lines_of(script.read_bytes()))
            windows = Windows()
            for line in body.opening:
                windows.add(line)
            count = drawn.randrange(len(body.steps()) + 1)
            for entry, step in list(zip(answers(body), body.steps()))[:count]:
                if is_edit(entry, step.texts()):
                    windows.edit(step.texts())
            wide, high = (int(it) for it in windows.screen)
            points = [(drawn.randrange(-1, wide + 1), drawn.randrange(-1, high + 1)) for _ in range(60)]
            items = [*(step.text for step in body.steps()[:count]), *(f"where {h} {v}" for h, v in points)]
            layout = Layout(windows)
            with self.subTest(script.stem):
                said = played(copy_of(body, items)).text().splitlines()
                self.assertEqual(said, [layout.where(h, v) for h, v in points])


class Streams(unittest.TestCase):
    """Streams."""

    def test_of_scripts(self) -> None:
        for script in scripts():
            with self.subTest(script.stem):
                stream = play(script.read_bytes(), "mirror").output
                read = list(frames_of(stream))
                dumps = take_apart(play(script.read_bytes()).text()).dumps()
                self.assertEqual([frame_of(dump) for dump in dumps], read)
                self.assertEqual([dump._replace(line=0) for dump in dumps], [dump_of(frame) for frame in read])
                self.assertEqual(stream, stream_of(read))

    def test_refused(self) -> None:
        for file in sorted((TOP / "docs/examples").glob("*.hex")):
            with self.subTest(file.stem):
                shown = play(bytes.fromhex(file.read_text()), "show")
                try:
                    said = len(list(frames_of(bytes.fromhex(file.read_text()))))
                except Refused as refused:
                    said = f"refused: {refused}"
                wanted = shown.text().strip() if shown.status == REFUSED else len(take_apart(shown.text()).dumps())
                self.assertEqual(wanted, said)


class Traces(unittest.TestCase):
    """What a trace has of a script."""

    def test_screens(self) -> None:
        """After each step that of a script without the steps that follow."""
        for name in ("demos/desktop.txt", "demos/moves.txt", "demos/resize.txt", "docs/examples/testing_covered.txt"):
            trace = trace_of_script(pack(str(TOP / name)), Asked())
            body = body_of(lines_of((TOP / name).read_bytes()))
            for count, frame in enumerate(frames(trace)):
                with self.subTest(f"{name} {count}"):
                    self.assertEqual(screen_after(body, count), frame)

    def test_numbers(self) -> None:
        """Where the script asks itself, the same."""
        trace = trace_of_script(pack(str(TOP / "docs/examples/testing_covered.txt")), Asked())
        said = [" ".join(moment.printed) for moment in trace.moments]
        asked = [n for n, text in enumerate(said) if text.startswith("peek")]
        self.assertEqual([said[n] for n in asked], ["peek bad {} waiting {} stale {}".format(*trace.numbers[n]) for n in asked])
        self.assertEqual(4, len(asked))

    def test_answers(self) -> None:
        trace = trace_of_script(pack(str(BUTTON)), Asked())
        texts = {trace.lines[it.line - 1]: it for it in trace.moments}
        self.assertEqual(("button mouse 2 firstdown 1 4 2",), texts["mouse 2 down 1"].events)
        self.assertEqual("took mouse 3 lastup 1 4 2", [it.answer for it in trace.moments if it.answer.startswith("took")][-1])
        printed = next(it.printed for it in trace.moments if it.printed and it.printed[0].startswith("inbox"))
        self.assertEqual(("inbox button waiting 2 dropped 0", "mouse 2 firstdown 1 4 2", "mouse 3 lastup 1 4 2"), printed)

    def test_wrong_answers_are_told(self) -> None:
        trace = trace_of_script(pack(str(TOP / "docs/examples/faults_of_edits.txt")), Asked())
        self.assertEqual(19, sum(bool(it.says) for it in trace.moments))

    def test_empty_takes(self) -> None:
        """A take that finds no event names the windows for which events wait."""
        script = pack(str(BUTTON))._replace(script=PRESS.encode(), lines=lines_of(PRESS.encode()))
        says = {it.line: it.says for it in trace_of_script(script, Asked()).moments if it.says}
        self.assertEqual([11, 13], list(says))
        self.assertEqual("empty: no event waits for first_of_windows, but 1 waits for other_of_windows", says[13])
        found = [*traces.others({"a": 0, "b": 2, "c": 1, "d": 1, "e": 1})]
        self.assertEqual(["2 wait for b", "1 waits for c", "1 waits for d", "others for more leaves"], found)

    def test_lines_that_put_windows_there(self) -> None:
        trace = trace_of_script(pack(str(TOP / "demos/first.txt")), Asked())
        self.assertEqual({"desk": 10, "edge": 9, "left": 8, "right": 7}, {it.name: it.line for it in trace.places[0]})
        last = {it.name: it.line for it in trace.places[max(trace.places)]}
        self.assertEqual({"desk": 10, "edge": 17, "left": 17, "right": 7}, last)

    def test_included(self) -> None:
        """Lines of an included file have the numbers that they have there."""
        with tempfile.TemporaryDirectory() as folder:
            (Path(folder) / "glyphs.txt").write_text("glyph 41 183c66667e666600\nglyph 42 7c66667c66667c00\n")
            script = Path(folder) / "script.txt"
            script.write_text("trestle 1\nscreen 8 8 map8\n# include glyphs.txt\nleaf a 8 8 8 8 8 8 label A\nroot a\nbegin\n@a text B\nsync\nend\n")
            trace = trace_of_script(pack(str(script)), Asked())
        self.assertEqual(["1", "2", "3", "1 of glyphs.txt", "2 of glyphs.txt", "4", "5", "6", "7", "8", "9"], trace.labels)
        self.assertEqual([8, 9], [moment.line for moment in trace.moments])

    def test_known(self) -> None:
        """A trace that takes over a known beginning is the same as a fresh one."""
        lines = lines_of((TOP / "demos/desktop.txt").read_bytes())
        whole = pack(str(TOP / "demos/desktop.txt"))
        first = next(line.number for line in lines if line.text.startswith("sync"))
        text = "".join(line.text + "\n" for line in lines[:first]) + "end\n"
        part = whole._replace(script=text.encode(), lines=lines_of(text.encode()))
        known = trace_of_script(part, Asked())
        again = trace_of_script(whole, Asked(), known)
        fresh = trace_of_script(whole, Asked())
        self.assertEqual(frames(fresh), frames(again))
        self.assertEqual(len(known.chunks) + 1, len(again.chunks))
        self.assertEqual((fresh.moments, fresh.numbers, fresh.places), (again.moments, again.numbers, again.places))
        back = trace_of_script(part, Asked(), again)
        self.assertEqual(known.pictured(), back.pictured())


class Limits(unittest.TestCase):
    """Scripts near the limits."""

    def test_stride(self) -> None:
        self.assertEqual([1, 1, 2, 98], [stride(steps, 100) for steps in (10, 1024, 1025, 100_000)])
        self.assertEqual([1, 40], [stride(steps, 1 << 20) for steps in (200, 10_000)])

    def test_wanted(self) -> None:
        lines = [Line(n, text) for n, text in enumerate("abcdefgh", 1)]
        self.assertEqual([0, 3, 6, 8], wanted_counts(Body([], lines), 3))
        self.assertEqual([0, 2, 3, 6, 8], wanted_counts(Body([], [*lines[:2], Line(9, "dump"), *lines[2:]]), 3))

    def test_batches(self) -> None:
        """A copy has 64 dumps and room for them; where there is no room for one, none is asked for."""
        body = Body([Line(1, "a")], [Line(n, "b") for n in range(200)])
        self.assertEqual([64, 64, 64, 9], [len(batch) for batch in batches(body, range(201))])
        steps = LINES - 1 - 1 - 2 * 3
        body = Body([Line(1, "a")], [Line(n, "b") for n in range(steps + 3)])
        self.assertEqual([[0, 1, steps], [steps + 1, steps + 2]], list(batches(body, [0, 1, steps, steps + 1, steps + 2])))
        body = Body([Line(1, "a")], [Line(n, "b" * 50) for n in range(82_300)])
        self.assertEqual([[1, 80_000, 82_240]], list(batches(body, [1, 80_000, 82_240, 82_241])))

    def test_no_room_for_a_journal(self) -> None:
        """Steps for whose answers a copy has no room have none."""
        short = traces.LINES
        self.addCleanup(setattr, traces, "LINES", short)
        traces.LINES = 12
        lines = ["trestle 1", "screen 4 4 map8", "leaf a 4 4 4 4 4 4 solid 7", "root a", "begin", *["@a tint 3"] * 5, "sync", "end"]
        entries = traces.all_answers(body_of(lines_of("\n".join(lines).encode())))
        self.assertEqual(["ok", "ok", "ok", "ok", ""], [entry.answer for entry in entries])

    def test_every(self) -> None:
        with tempfile.TemporaryDirectory() as folder:
            said = call("trace", [str(TOP / "demos/desktop.txt"), "--every", "4", "-o", f"{folder}/page.html"])
        self.assertEqual(0, said.status)
        self.assertIn("pictures after every 4 steps, and at each report", said.text)

    def test_no_room_for_pictures(self) -> None:
        """Then only those at the beginning, at reports and at the end are left."""
        most = traces.MOST_PACKED
        self.addCleanup(setattr, traces, "MOST_PACKED", most)
        traces.MOST_PACKED = 1
        trace = trace_of_script(pack(str(TOP / "demos/desktop.txt")), Asked())
        reports = {moment.count for moment in trace.moments if moment.printed}
        self.assertEqual({0, *reports, trace.moments[-1].count}, trace.pictured())

    def test_more_than_one_copy(self) -> None:
        steps = [f"@a tint {n % 200}" for n in range(150)]
        script = "\n".join(["trestle 1", "screen 4 4 map8", "leaf a 4 4 4 4 4 4 solid 7", "root a", "begin", *steps, "sync", "end", ""])
        trace = trace_of_script(pack(str(BUTTON))._replace(script=script.encode(), lines=lines_of(script.encode())), Asked())
        self.assertEqual([64, 64, 23], [len(chunk.counts) for chunk in trace.chunks])
        self.assertEqual([7, *(n % 200 for n in range(150))], [frame.pixels[0] for frame in frames(trace)])
        self.assertEqual([(16, 0, 0), (16, 1, 0), (16, 150, 0)], [trace.numbers[n] for n in (0, 1, 150)])


class Pairs(unittest.TestCase):
    """Two side by side."""

    def test_aligned(self) -> None:
        self.assertEqual([(0, 0), (1, -1), (2, 1)], list(aligned(list("abc"), list("ac"))))
        self.assertEqual([(0, 0), (1, 1), (2, 2), (-1, 3)], list(aligned(list("abc"), list("axcd"))))
        self.assertEqual([], list(aligned([], [])))

    def test_scripts(self) -> None:
        """A press that misses by a point differs by its line, its answer, and then by the picture."""
        text = BUTTON.read_text()
        missed = text.replace("motion 1 9 5", "motion 1 20 10")
        one, other = [
            trace_of_script(pack(str(BUTTON))._replace(script=it.encode(), lines=lines_of(it.encode())), Asked(summed=True))
            for it in (text, missed)
        ]
        pairs = pairs_of(one, other)
        self.assertEqual(("line",), next(pair.differs for pair in pairs if pair.differs))
        self.assertIn(("answer",), [pair.differs for pair in pairs])
        self.assertEqual(1, sum("picture" in pair.differs for pair in pairs))
        self.assertEqual([()] * len(one.moments), [pair.differs for pair in pairs_of(one, one)])

    def test_thinned(self) -> None:
        """Of long scripts the second one has its pictures beside those of the first."""
        steps = [f"@a tint {n % 200}" for n in range(40)]
        texts = [
            "\n".join(["trestle 1", "screen 4 4 map8", "leaf a 4 4 4 4 4 4 solid 7", "root a", "begin", *it, "sync", "end", ""])
            for it in (steps, [*steps[:5], "@a tint 9", *steps[5:]])
        ]
        packs = [pack(str(BUTTON))._replace(script=it.encode(), lines=lines_of(it.encode())) for it in texts]
        first = trace_of_script(packs[0], Asked(7, True))
        second = trace_of_script(packs[1], Asked(7, True, beside=first))
        self.assertEqual([{0, 7, 14, 21, 28, 35, 40}, {0, 8, 15, 22, 29, 36, 41}], [first.pictured(), second.pictured()])
        pairs = pairs_of(first, second)
        self.assertEqual(8, len(pairs))
        self.assertEqual([(-1, 6, ("line",))], [tuple(pair) for pair in pairs if pair.differs])

    def test_outputs(self) -> None:
        text = (TOP / "demos/first.serial").read_text()
        one, other = trace_of_output("a", text), trace_of_output("b", text.replace("0606", "0607"))
        self.assertEqual((2, False), (len(frames(one)), one.is_thinned()))
        self.assertEqual([("picture",)], [pair.differs for pair in pairs_of(one, other) if pair.differs])


class Page(unittest.TestCase):
    """The page as a file."""

    def test_needs_nothing_else(self) -> None:
        with tempfile.TemporaryDirectory() as folder:
            page = Path(folder) / "page.html"
            self.assertEqual((0, ""), call("trace", [str(BUTTON), "-o", str(page)]))
            text = page.read_text()
        self.assertEqual([], re.findall(r"https?:|src=|href=|@import|url\(", text))
        data = re.search(r'<script id="data" type="text/plain">(.*?)</script>', text)
        assert data
        traces = json.loads(zlib.decompress(base64.b64decode(data[1])))["traces"]
        self.assertEqual([line.text for line in lines_of(BUTTON.read_bytes())], traces[0]["lines"])

    def test_wrong_words(self) -> None:
        for words, says in (
            ([str(BUTTON)], "-o"),
            ([str(BUTTON), "-o", "page.png"], "-o takes NAME.html"),
            (["a", "b", "c", "-o", "page.html"], "one FILE or two"),
            (["no_such_file", "-o", "page.html"], "cannot be read"),
            ([str(TOP / "docs/examples/b1_word.txt"), "-o", "page.html"], "refused: line 2 B1; bin/why"),
            ([str(BUTTON), "-o", "/no/such/folder/page.html"], "cannot be written"),
        ):
            with self.subTest(says):
                ended = call("trace", words)
                self.assertEqual(2, ended.status)
                self.assertIn(says, ended.text)


@unittest.skipUnless(browser(), "no browser is installed: apt-get install chromium")
class InBrowser(unittest.TestCase):
    """The page in a browser."""

    browser: Browser

    @classmethod
    def setUpClass(cls) -> None:
        cls.browser = Browser()
        cls.folder = tempfile.TemporaryDirectory()

    @classmethod
    def tearDownClass(cls) -> None:
        cls.browser.close()
        cls.folder.cleanup()

    def page(self, *files: object) -> None:
        """Opens the page of some files."""
        path = Path(self.folder.name) / "page.html"
        ended = call("trace", [*map(str, files), "-o", str(path)])
        self.assertIn(ended.status, (0, 1), ended.text)
        self.browser.call("Page.navigate", url="about:blank")
        self.browser.open(path.as_uri())

    def click(self, h: int, v: int) -> None:
        """Clicks at a point of the picture."""
        west, north, scale = self.browser.evaluate(
            "(() => { const it = document.querySelector('.screen canvas').getBoundingClientRect();"
            " return [it.left, it.top, page.sides[0].scale]; })()"
        )
        self.browser.click(west + (h + 0.5) * scale, north + (v + 0.5) * scale)

    def test_steps(self) -> None:
        """Keys and the slider go from step to step, and the picture is that of the step."""
        self.page(TOP / "demos/desktop.txt")
        trace = trace_of_script(pack(str(TOP / "demos/desktop.txt")), Asked())
        screens = frames(trace)
        for n, moment in enumerate(trace.moments):
            self.browser.wait(f"page.at === {n}")
            shown = self.browser.evaluate("(async () => { await page.go(page.at); return [...page.sides[0].frame.pixels]; })()")
            self.assertEqual(list(screens[moment.count].pixels), shown)
            self.browser.key("ArrowRight")
        self.browser.key("Home")
        self.browser.wait("page.at === 0")
        self.browser.key("End")
        self.browser.wait("page.at === page.last")
        self.assertEqual([], self.browser.errors)

    def test_inboxes(self) -> None:
        """What waits for each window is what the program says."""
        for name in ("demos/cages.txt", "demos/focus.txt", "docs/examples/inbox_full.txt"):
            self.page(TOP / name)
            trace = trace_of_script(pack(str(TOP / name)), Asked())
            for n, moment in enumerate(trace.moments):
                if moment.printed and moment.printed[0].startswith("inbox "):
                    words = moment.printed[0].split(" ")
                    waits = self.browser.evaluate(f"page.sides[0].trace.inbox('{words[1]}', {n})")
                    self.assertEqual({"waiting": list(moment.printed[1:]), "dropped": int(words[5])}, waits)

    def test_click(self) -> None:
        """A click names the window as `where` does, and the line that put it there."""
        self.page(TOP / "demos/first.txt")
        self.browser.key("End")
        self.browser.wait("page.at === page.last")
        self.click(4, 2)
        said = self.browser.wait("document.querySelector('.point').textContent")
        self.assertIn("left, a solid leaf, at its point (1, 0)", said)
        self.assertIn("W E N S 3 7 2 3, put there by line 17", said)
        self.assertIn("where 4 2 leaf left 1 0", said)
        self.assertEqual("17move edge 2 1   = ok", self.browser.wait("document.querySelector('.row.put').textContent"))

    def press(self, line: int) -> None:
        """Opens the page of the press, and goes to a line."""
        script = Path(self.folder.name) / "press.txt"
        script.write_text(PRESS)
        self.page(script)
        self.browser.evaluate(f"page.go(page.stopOfLine({line}))")
        self.browser.wait(f"document.getElementById('where').textContent.endsWith(' line {line}')")

    def test_cursor(self) -> None:
        """A cross is where the last motion that was made put the cursor."""
        self.press(10)
        title = "document.querySelector('.picture p').textContent"
        self.assertIn("; cursor at (17, 2)", self.browser.wait(f"{title}.includes('cursor') && {title}"))
        centre = self.browser.evaluate(
            "(() => { const { marks, scale } = page.sides[0];"
            " return [...marks.getContext('2d').getImageData(17.5 * scale, 2.5 * scale, 1, 1).data]; })()"
        )
        self.assertEqual([0, 0, 0, 255], centre)
        at, off = {"h": 17, "v": 2}, {"h": 40, "v": -3}
        self.assertEqual([None, at, at, at, at, at, off], self.browser.evaluate("[0, 1, 2, 3, 4, 5, 6].map((n) => page.sides[0].trace.cursor(n))"))
        self.browser.evaluate("page.go(page.last)")
        self.browser.wait(f"{title}.includes('; cursor at (40, -3), off the screen')")

    def test_reason_is_whole(self) -> None:
        """The reason of the present step has as many lines as it needs, and the rows below make room."""
        self.press(13)
        self.browser.wait("document.querySelector('.row.now.reason') !== null")
        shown = self.browser.evaluate(
            "(() => { const it = document.querySelector('.row.now.reason'), below = it.nextElementSibling;"
            " return [it.offsetHeight > 18, it.scrollWidth <= it.clientWidth, below.offsetTop - it.offsetTop - it.offsetHeight]; })()"
        )
        self.assertEqual([True, True, 0], shown)

    def test_marks_of_lines(self) -> None:
        """A line can have put the window there and changed the point; of a point of the first picture that is `begin`."""
        self.press(15)
        self.browser.evaluate("page.clickPoint(page.sides[0], 25, 5)")
        self.assertEqual("14move other_of_windows 20 4   = ok", self.browser.wait("(document.querySelector('.row.put.painted') || {}).textContent"))
        self.browser.evaluate("page.clickPoint(page.sides[0], 1, 9)")
        self.browser.wait("document.querySelector('.point').textContent.endsWith('pixel 07 since line 9, the first picture')")
        self.assertEqual(["8root desk", "9begin"], self.browser.evaluate("['put', 'painted'].map((it) => document.querySelector(`.row.${it}`).textContent)"))

    def test_where(self) -> None:
        """At all points of some scripts the page says what the program says."""
        for name in ("demos/layout.txt", "demos/pages.txt", "demos/packed.txt"):
            self.page(TOP / name)
            body = body_of(lines_of((TOP / name).read_bytes()))
            steps = [step.text for step in body.steps()]
            points = [(3 * n % 61 - 1, 7 * n % 37 - 1) for n in range(60)]
            said = played(copy_of(body, [*steps, *(f"where {h} {v}" for h, v in points)])).text().splitlines()
            shown = self.browser.evaluate(f"{json.dumps(points)}.map(([h, v]) => page.sides[0].trace.where({len(steps)}, h, v))")
            self.assertEqual(said, shown)

    def test_not_ok(self) -> None:
        """A button leads from one answer that isn't ok to the next."""
        self.page(TOP / "demos/selections.txt")
        lines = []
        for _ in range(4):
            self.browser.evaluate("document.getElementById('next').click()")
            lines.append(self.browser.evaluate("page.sides[0].trace.moments[page.stops[page.at]].line"))
        self.assertEqual([16, 18, 24, 40], lines)

    def test_first_difference(self) -> None:
        """Two scripts side by side begin at the first difference."""
        missed = Path(self.folder.name) / "missed.txt"
        missed.write_text(BUTTON.read_text().replace("motion 1 9 5", "motion 1 20 10"))
        self.page(BUTTON, missed)
        self.browser.wait("page.sides.length === 2 && page.sides[1].frame")
        self.assertIn("differs: line", self.browser.evaluate("document.getElementById('where').textContent"))
        self.browser.key("n", "n")
        self.browser.wait("document.getElementById('where').textContent.includes('differs: answer')")
        self.assertEqual([], self.browser.errors)


if __name__ == "__main__":
    unittest.main()
