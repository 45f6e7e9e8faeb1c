"""What look and snap do with files."""

import base64
import fcntl
import os
import pty
import re
import struct
import subprocess
import tempfile
import termios
import time
import unittest
import zlib
from pathlib import Path
from typing import Dict, List
from xml.etree import ElementTree

from browser import Browser, browser
from commands_under_test import HERE, TOP, call

DUMPS = b"dump 2 1 map8\n0109\ndump 1 2 mono\n01\n00\n"
RED, BRIGHT_RED, WHITE, BLACK = "cd0000", "ff0000", "ffffff", "000000"


class Folder(unittest.TestCase):
    """A test in a folder of its own."""

    def setUp(self) -> None:
        made = tempfile.TemporaryDirectory()
        self.addCleanup(made.cleanup)
        self.folder = Path(made.name)


def in_terminal(command: str, words: List[str], folder: Path, given: bytes = b"", more: Dict[str, str] = {}) -> bytes:
    """What a command writes to a terminal of 80 columns."""
    leader, follower = pty.openpty()
    fcntl.ioctl(follower, termios.TIOCSWINSZ, struct.pack("HHHH", 24, 80, 0, 0))
    environment = {**os.environ, "TERM": "xterm", **more}
    for name in {"NO_COLOR", "COLUMNS"} - set(more):
        environment.pop(name, None)
    program = [str(TOP / "bin" / command), *words]
    streams = {"stdin": subprocess.PIPE, "stdout": follower, "stderr": follower}
    with subprocess.Popen(program, cwd=folder, env=environment, **streams) as running:
        os.close(follower)
        running.communicate(given)
    written = b""
    while True:
        try:
            piece = os.read(leader, 65536)
        except OSError:
            piece = b""
        if not piece:
            os.close(leader)
            return written
        written += piece


def colours_of(png: bytes) -> list:
    """The pixels of a .png file as look writes it, each as red, green and blue in hex digits."""
    chunks: Dict[bytes, bytes] = {}
    at = 8
    while at < len(png):
        length, name = struct.unpack(">I4s", png[at : at + 8])
        chunks[name] = png[at + 8 : at + 8 + length]
        end = at + 8 + length
        assert zlib.crc32(png[at + 4 : end]) == struct.unpack(">I", png[end : end + 4])[0]
        at = end + 4
    width, height = struct.unpack(">II", chunks[b"IHDR"][:8])
    rows = zlib.decompress(chunks[b"IDAT"])
    assert len(rows) == height * (width + 1)
    palette = chunks[b"PLTE"]
    return [[palette[3 * it : 3 * it + 3].hex() for it in rows[v * (width + 1) + 1 :][:width]] for v in range(height)]


class Look(Folder):
    """look -o."""

    def test_several_dumps_have_numbers(self) -> None:
        ended = call("look", ["-o", "picture.png"], self.folder, DUMPS)
        self.assertEqual((0, "dump 2 1 map8\npicture-1.png\ndump 1 2 mono\npicture-2.png\n"), ended)
        self.assertEqual([[RED, BRIGHT_RED]], colours_of((self.folder / "picture-1.png").read_bytes()))
        self.assertEqual([[WHITE], [BLACK]], colours_of((self.folder / "picture-2.png").read_bytes()))

    def test_one_dump_has_the_name(self) -> None:
        ended = call("look", ["-o", "picture.ppm", "--scale", "2"], self.folder, DUMPS[:19])
        self.assertEqual((0, "dump 2 1 map8\npicture.ppm\n"), ended)
        row = bytes.fromhex(2 * RED + 2 * BRIGHT_RED)
        self.assertEqual(b"P6\n4 2\n255\n" + 2 * row, (self.folder / "picture.ppm").read_bytes())

    def test_all_in_one_file(self) -> None:
        ended = call("look", ["-o", "picture.png", "--together"], self.folder, DUMPS)
        self.assertEqual((0, "dump 2 1 map8\npicture.png\ndump 1 2 mono\n"), ended)
        rows = colours_of((self.folder / "picture.png").read_bytes())
        self.assertEqual([RED, BRIGHT_RED, *[BLACK] * 4, WHITE], rows[0])

    def test_playing_takes_a_tenth_of_a_second_for_each(self) -> None:
        start = time.monotonic()
        self.assertEqual(0, call("look", ["--play"], self.folder, 2 * DUMPS).status)
        self.assertGreater(time.monotonic() - start, 0.3)

    def test_no_dump(self) -> None:
        ended = call("look", ["-o", "picture.png"], self.folder, b"journal 0\n")
        self.assertEqual((2, "look: the input has no dump, so nothing is written\n"), ended)

    def test_a_folder_that_is_not_there(self) -> None:
        ended = call("look", ["-o", "no/picture.png"], self.folder, DUMPS[:19])
        self.assertEqual((2, "look: no/picture.png cannot be written: No such file or directory\n"), ended)

    def test_what_differs_goes_to_a_file(self) -> None:
        words = ["--diff", str(HERE / "look/shown.txt"), str(HERE / "look/other.txt"), "-o", "differs.png"]
        ended = call("look", words, self.folder)
        self.assertEqual(1, ended.status)
        self.assertTrue(ended.text.endswith("differs.png\n"))
        rows = colours_of((self.folder / "differs.png").read_bytes())
        self.assertEqual(["303030", "ff00ff"], rows[1][-2:])

    def test_a_pipe_gets_no_escapes(self) -> None:
        """Into a pipe, or a file of a CI system, dumps are passed on as they are; also where NO_COLOR is set."""
        self.assertEqual((0, DUMPS.decode()), call("look", [], self.folder, DUMPS))
        self.assertEqual((0, DUMPS.decode()), call("look", ["--play", "--color", "never"], self.folder, DUMPS))
        self.assertIn("\033[38;5;1m", call("look", ["--color", "always"], self.folder, DUMPS).text)

    def test_a_terminal_gets_colours_unless_it_says_no(self) -> None:
        self.assertIn(b"\033[38;5;1m", in_terminal("look", [], self.folder, DUMPS))
        for name, value in (("NO_COLOR", "1"), ("TERM", "dumb")):
            self.assertNotIn(b"\033", in_terminal("look", [], self.folder, DUMPS, {name: value}))

    def test_a_picture_wider_than_the_terminal_is_told(self) -> None:
        """A picture of 96 points in a terminal of 80 columns wrapped without a word."""
        wide = b"dump 96 1 map8\n" + 96 * b"01" + b"\n"
        says = b"look: a picture is 96 columns wide, and the terminal has 80, so its lines are broken"
        self.assertIn(says, in_terminal("look", [], self.folder, wide))
        self.assertNotIn(b"columns wide", in_terminal("look", [], self.folder, DUMPS))
        self.assertNotIn(b"columns wide", in_terminal("look", ["-o", "wide.png"], self.folder, wide))

    def test_bytes_that_are_no_output_are_refused(self) -> None:
        """A picture went to the terminal raw, with status 0."""
        call("look", ["-o", "picture.png"], self.folder, DUMPS[:19])
        says = "look: picture.png is a picture (PNG), and no output of trestle\n"
        self.assertEqual((2, says), call("look", ["picture.png"], self.folder))
        stream = bytes.fromhex("01 0001 0001 01 04 00000001")
        says = "look: standard input is a stream of `trestle mirror`, and no output: ./trestle show < STREAM | bin/look\n"
        self.assertEqual((2, says), call("look", [], self.folder, stream))
        says = "look: standard input: line 2 has the byte \\x1b, which no output has\n"
        self.assertEqual((2, says), call("look", [], self.folder, b"peek\n\033[0m\n"))
        ended = call("look", [], self.folder, DUMPS.replace(b"\n", b"\r\n"))
        self.assertEqual(2, ended.status)
        self.assertIn("line 1 has a carriage return, as on Windows: sed -i", ended.text)

    def test_pictures_of_the_docs(self) -> None:
        words = ["-o", "desktop.png", "--together", "--scale", "5", str(TOP / "demos/desktop.serial")]
        self.assertEqual(0, call("look", words, self.folder).status)
        made = colours_of((self.folder / "desktop.png").read_bytes())
        self.assertEqual(made, colours_of((TOP / "docs/desktop.png").read_bytes()))


class Snap(Folder):
    """snap."""

    def setUp(self) -> None:
        super().setUp()
        self.script = self.folder / "lamp.txt"
        self.script.write_bytes((HERE / "lint/fine.txt").read_bytes())

    def change(self, old: str, new: str) -> None:
        """Changes the script."""
        self.script.write_text(self.script.read_text().replace(old, new))

    def test_nothing_is_stored(self) -> None:
        ended = call("snap", ["lamp.txt"], self.folder)
        says = "lamp.txt: no output is stored; bin/snap --update lamp.txt stores it as lamp.serial\n"
        self.assertEqual((1, says + "snap: 1 not as stored, of 1 output of 1 script\n"), ended)

    def test_storing_and_comparing(self) -> None:
        self.assertEqual(0, call("snap", ["--update", "--check", "lamp.txt"], self.folder).status)
        self.assertEqual((0, "snap: 2 outputs of 1 script as stored\n"), call("snap", ["lamp.txt"], self.folder))
        self.change("tint 46", "tint 47")
        ended = call("snap", ["lamp.txt"], self.folder)
        self.assertEqual(1, ended.status)
        self.assertIn("dump 1: 64 of 128 points differ, the first at (0, 0), 2e in A, 2f in B", ended.text)
        self.assertEqual(0, call("snap", ["--update", "lamp.txt"], self.folder).status)
        self.assertEqual(0, call("snap", ["."], self.folder).status)

    def test_a_status_is_not_taken_over(self) -> None:
        call("snap", ["--update", "lamp.txt"], self.folder)
        before = (self.folder / "lamp.serial").read_bytes()
        self.change("tint 46", "tnit 46")
        ended = call("snap", ["--update", "lamp.txt"], self.folder)
        self.assertEqual(1, ended.status)
        refusal = "ends with status 3 (refused: line 8 B1; bin/why says why), where 0 is stored: not stored"
        self.assertIn(refusal, ended.text)
        self.assertEqual(before, (self.folder / "lamp.serial").read_bytes())
        self.assertEqual(1, call("snap", ["--update", "--status", "2", "lamp.txt"], self.folder).status)
        self.assertEqual(0, call("snap", ["--update", "--status", "3", "lamp.txt"], self.folder).status)
        self.assertEqual(b"refused: line 8 B1\n", (self.folder / "lamp.serial").read_bytes())
        self.assertEqual(0, call("snap", ["lamp.txt"], self.folder).status)

    def test_threads(self) -> None:
        self.assertEqual(0, call("snap", ["--update", "--play", "lamp.txt"], self.folder).status)
        self.assertTrue((self.folder / "lamp.play").read_text().endswith("\nplayed threads\n"))
        self.assertEqual((0, "snap: 2 outputs of 1 script as stored\n"), call("snap", ["lamp.txt"], self.folder))
        self.assertEqual(2, call("snap", ["--play", "lamp.txt"], self.folder).status)

    def test_streams(self) -> None:
        stream = self.folder / "one.hex"
        stream.write_text("01 0001 0001 01  03 0000 0000 0001 07\n04 00000001\n")
        self.assertEqual(1, call("snap", ["one.hex"], self.folder).status)
        self.assertEqual(0, call("snap", ["--update", "one.hex"], self.folder).status)
        self.assertEqual("dump 1 1 map8\n07\n", (self.folder / "one.show").read_text())
        self.assertEqual((0, "snap: 1 output of 1 stream as stored\n"), call("snap", ["one.hex"], self.folder))
        stream.write_text("07 oops")
        ended = call("snap", ["one.hex"], self.folder)
        self.assertEqual((2, "snap: one.hex holds other than hex digits and blanks\n"), ended)

    def differing(self) -> None:
        """A script with stored outputs that differ: a dump, and the lines of a long journal."""
        steps = "".join(f"motion {time} {time} 0\n" for time in range(1, 30))
        self.change("end\n", f"{steps}sync\njournal\nend\n")
        call("snap", ["--update", "lamp.txt"], self.folder)
        self.change("tint 46", "tint 47")
        self.change(" 0\nmotion", " 1\nmotion")

    def test_what_differs_has_line_numbers_and_is_cut_short_by_an_option_alone(self) -> None:
        """`and 2 lines more` cut the text, and no option showed them."""
        self.differing()
        lines = call("snap", ["lamp.txt"], self.folder).text.split("\n")
        self.assertEqual("- 11: 1 leaf:lamp win:lamp tint 46 = ok", lines[2])
        self.assertIn("  and 46 lines more; --whole shows all", lines)
        self.assertIn("(the part 0 12 0 8; --whole shows all)", lines)
        whole = call("snap", ["--whole", "lamp.txt"], self.folder).text
        self.assertEqual(58, len(re.findall("^[-+] [0-9]+: ", whole, re.M)))
        self.assertFalse("--whole" in whole)
        self.assertNotIn("\033", whole)
        self.assertIn("\033", call("snap", ["--color", "always", "lamp.txt"], self.folder).text)

    def test_update_shows_what_it_changes(self) -> None:
        """A press that misses by a pixel was stored over the good output without a word."""
        says = "lamp.serial is new: 1 dump, 0 other lines\ndump 16 8 map8\nlamp.serial\n"
        self.assertIn(says, call("snap", ["--update", "."], self.folder).text)
        self.assertNotIn("is new", call("snap", ["--update", "."], self.folder).text)
        self.change("tint 46", "tint 47")
        ended = call("snap", ["--update", "."], self.folder)
        self.assertEqual(0, ended.status)
        self.assertIn("dump 1: 64 of 128 points differ, the first at (0, 0), 2e in A, 2f in B", ended.text)
        self.assertTrue(ended.text.endswith("lamp.serial\nsnap: 1 output of 1 script as stored\n"))

    def test_review_waits_for_a_yes(self) -> None:
        call("snap", ["--update", "lamp.txt"], self.folder)
        before = (self.folder / "lamp.serial").read_bytes()
        self.change("tint 46", "tint 47")
        ended = call("snap", ["--update", "--review", "lamp.txt"], self.folder, b"y\n")
        self.assertEqual(2, ended.status)
        self.assertIn("--review asks in a terminal, and standard input is none; --yes says yes to all", ended.text)
        self.assertEqual(before, (self.folder / "lamp.serial").read_bytes())
        self.assertEqual(1, self.review(b"what?\nn\n"))
        self.assertEqual(1, self.review(b"\n"))
        self.assertEqual(before, (self.folder / "lamp.serial").read_bytes())
        self.assertEqual(0, self.review(b"yes\n"))
        self.assertNotEqual(before, (self.folder / "lamp.serial").read_bytes())
        self.change("tint 47", "tint 46")
        self.assertEqual(0, call("snap", ["--update", "--review", "--yes", "lamp.txt"], self.folder).status)
        self.assertEqual(before, (self.folder / "lamp.serial").read_bytes())

    def review(self, answers: bytes) -> int:
        """The status of a review by somebody who gives these answers in a terminal."""
        leader, follower = pty.openpty()
        os.write(leader, answers)
        program = [str(TOP / "bin/snap"), "--update", "--review", "lamp.txt"]
        ran = subprocess.run(program, stdin=follower, cwd=self.folder, capture_output=True, check=False)
        self.assertIn(b"dump 1: 64 of 128 points differ", ran.stdout)
        os.close(leader)
        os.close(follower)
        return ran.returncode

    def test_outputs_without_a_script_are_named(self) -> None:
        """An output whose script was deleted was passed over silently."""
        call("snap", ["--update", "--check", "lamp.txt"], self.folder)
        self.script.rename(self.folder / "light.txt")
        (self.folder / "notes.out").write_text("something else\n")
        (self.folder / "one.show").write_text("dump 1 1 map8\n07\n")
        ended = call("snap", ["--update", "."], self.folder)
        self.assertEqual(1, ended.status)
        for name, source in (("lamp.serial", "lamp.txt"), ("lamp.check", "lamp.txt"), ("one.show", "one.hex")):
            self.assertIn(f"{name} is an output without a script: there is no {source}\n", ended.text)
        self.assertNotIn("notes", ended.text)
        self.assertIn("snap: 3 not as stored, of 4 outputs of 1 script\n", ended.text)

    def test_an_output_by_its_ending(self) -> None:
        """Only snap stores files that end so, whatever they hold."""
        (self.folder / "orphan.serial").write_text("something else\n")
        ended = call("snap", ["--update", "."], self.folder)
        self.assertEqual(1, ended.status)
        self.assertIn("orphan.serial is an output without a script: there is no orphan.txt\n", ended.text)

    def test_a_folder_without_scripts(self) -> None:
        """It was fine with 0 outputs of 0 scripts, so that a test in CI passed which compared nothing."""
        (self.folder / "empty").mkdir()
        says = "empty has no script NAME.txt and no stream NAME.hex"
        self.assertEqual((2, f"snap: {says}\n"), call("snap", ["empty"], self.folder))
        (self.folder / "empty/some").mkdir()
        self.script.rename(self.folder / "empty/some/lamp.txt")
        (self.folder / "empty/lamp.serial").write_text("dump 1 1 map8\n07\n")
        ended = call("snap", ["--junit", "out.xml", "--report", "page.html", "empty"], self.folder)
        self.assertEqual(2, ended.status)
        self.assertIn("empty/lamp.serial is an output without a script: there is no empty/lamp.txt\n", ended.text)
        says += "; folders in it aren't searched: give empty/some"
        self.assertIn(f"snap: {says}\n", ended.text)
        [error] = ElementTree.parse(self.folder / "out.xml").getroot().iter("error")
        self.assertEqual(says, error.get("message"))
        self.assertIn("folders in it aren&#x27;t searched", (self.folder / "page.html").read_text())

    def test_a_refused_script_without_an_output(self) -> None:
        """snap gave the advice to store it, and --update refused that."""
        self.script.write_text("trestle 1\n")
        says = "lamp.txt: refused: line 2 B8; bin/why lamp.txt says why"
        ended = call("snap", ["--junit", "out.xml", "--report", "page.html", "lamp.txt"], self.folder)
        self.assertEqual((1, f"{says}\nsnap: 1 not as stored, of 1 output of 1 script\n"), ended)
        [failure] = ElementTree.parse(self.folder / "out.xml").getroot().iter("failure")
        self.assertEqual(says, failure.get("message"))
        self.assertIn(f"<p>{says}</p>", (self.folder / "page.html").read_text())
        self.assertIn(f"{says}: not stored\n  (to store it all the same: --status 3)\n", call("snap", ["--update", "lamp.txt"], self.folder).text)

    def test_junit(self) -> None:
        """What CI systems read: a case for each output, and what differs as the text of a failure."""
        self.differing()
        (self.folder / "new.txt").write_bytes((HERE / "lint/fine.txt").read_bytes())
        (self.folder / "broken.hex").write_text("oops <&>")
        self.assertEqual(2, call("snap", ["--junit", "out.xml", "."], self.folder).status)
        top = ElementTree.parse(self.folder / "out.xml").getroot()
        self.assertEqual(["testsuites", "3", "2", "1"], [top.tag, *(top.get(it) for it in ("tests", "failures", "errors"))])
        cases = {case.get("name"): case for case in top.iter("testcase")}
        failure = cases["lamp.serial"].find("failure")
        self.assertEqual("lamp.txt: serial writes another text than lamp.serial", failure.get("message"))
        self.assertIn("- 11: 1 leaf:lamp win:lamp tint 46 = ok\n", failure.text)
        self.assertEqual("not stored", cases["new.serial"].find("failure").get("type"))
        self.assertEqual("broken.hex holds other than hex digits and blanks", cases["broken.show"].find("error").get("message"))
        self.script.unlink()
        self.assertEqual(0, call("snap", ["--update", "--junit", "out.xml", "new.txt"], self.folder).status)
        [case] = ElementTree.parse(self.folder / "out.xml").getroot().iter("testcase")
        self.assertEqual([], list(case))

    def test_report(self) -> None:
        """One page with the pictures in it: stored, now, and what differs."""
        self.differing()
        self.assertEqual(1, call("snap", ["--report", "page.html", "lamp.txt"], self.folder).status)
        page = (self.folder / "page.html").read_text()
        pictures = [base64.b64decode(it) for it in re.findall('src="data:image/png;base64,([^"]*)"', page)]
        self.assertEqual(3, len(pictures))
        self.assertEqual(["ff00ff", "303030"], [colours_of(pictures[2])[0][h] for h in (7, 8)])
        self.assertTrue('<span class="less">- 11: 1 leaf:lamp win:lamp tint 46 = ok</span>' in page)
        self.assertEqual([], re.findall('(?:src|href)="(?!data:|#)', page))
        self.assertEqual(2, call("snap", ["--report", "no/page.html", "lamp.txt"], self.folder).status)

    @unittest.skipUnless(browser(), "no browser is installed: apt-get install chromium")
    def test_report_in_a_browser(self) -> None:
        """The browser shows each picture in whole points, side by side, and reports no error."""
        self.differing()
        call("snap", ["--report", "page.html", "lamp.txt"], self.folder)
        shown = Browser()
        self.addCleanup(shown.close)
        shown.call("Page.navigate", url=(self.folder / "page.html").as_uri())
        shown.wait("document.readyState === 'complete' && document.images.length === 3")
        places = shown.evaluate(
            "[...document.images].map(it => [it.naturalWidth, it.naturalHeight, it.width / it.naturalWidth,"
            " it.height / it.naturalHeight, it.getBoundingClientRect().top])"
        )
        self.assertEqual([[16, 8, 12, 12, places[0][4]]] * 3, places)
        self.assertEqual([], shown.errors)

    def test_scripts_are_played_with_what_they_include(self) -> None:
        self.change("screen", "# include part.txt\nscreen")
        (self.folder / "part.txt").write_text("# A comment.\n")
        self.assertEqual(0, call("snap", ["--update", "lamp.txt"], self.folder).status)
        (self.folder / "part.txt").write_text("oops\n")
        self.assertIn("(refused: line 3 B1; bin/why says why)", call("snap", ["lamp.txt"], self.folder).text)
        (self.folder / "part.txt").unlink()
        says = "snap: lamp.txt, line 2: `# include part.txt`: part.txt cannot be read: No such file or directory\n"
        self.assertEqual((2, says), call("snap", ["lamp.txt"], self.folder))

    def test_wrong_words(self) -> None:
        self.assertEqual(2, call("snap", ["--review", "lamp.txt"], self.folder).status)
        self.assertEqual(2, call("snap", ["--update", "--yes", "lamp.txt"], self.folder).status)
        self.assertEqual((2, "snap: there is no lump.txt\n"), call("snap", ["lump.txt"], self.folder))
        self.assertEqual(2, call("snap", ["--status", "3", "lamp.txt"], self.folder).status)
        self.assertEqual(2, call("snap", [], self.folder).status)


class Help(unittest.TestCase):
    """Each command says what it does."""

    def test_help_has_an_example(self) -> None:
        for command in ("look", "why", "lint", "snap", "pack"):
            ended = call(command, ["--help"])
            self.assertEqual(0, ended.status)
            self.assertRegex(ended.text, r"for example:\n  (\./|bin/)\w")

    def test_examples_start_no_proof(self) -> None:
        """./trestle alone proves for an hour where only the unproved program is built."""
        for command in ("look", "pack", "vnc"):
            self.assertRegex(call(command, ["--help"]).text, r"\./trestle --unproved \w")
            self.assertNotRegex(call(command, ["--help"]).text, r"\./trestle (?!--unproved )")


if __name__ == "__main__":
    unittest.main()
