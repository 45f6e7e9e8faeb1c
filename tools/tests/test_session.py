"""What trestle-session answers: the transcript of docs/SESSION.md, drawn lines beside a slow model and `serial`, pieces, slow
readers, long lines, cuts, and what the class and the game make of it."""

import os
import random
import re
import select
import subprocess
import sys
import tempfile
import threading
import time
import unittest
from pathlib import Path
from typing import Iterator, List, Tuple

from commands_under_test import HAS_SESSION, TOP
from session_model import REPORTS, Model

sys.path[:0] = [str(TOP / "tools"), str(TOP / "judges")]

from model.drawing import bend_word, draw  # noqa: E402
from trestle_tools.program import Trouble, play, session_program  # noqa: E402
from trestle_tools.session import Refused, Session  # noqa: E402
from trestle_tools.stream_reader import Reader  # noqa: E402

OPENING = ["trestle 1", "screen 8 4 map8", "leaf c 0 8 8 0 4 4 canvas", "root c", "begin"]
OPENED = len(OPENING) * "ok 0\n"


def answers(given: bytes) -> bytes:
    """All that a session answers to these bytes, which come at once."""
    ran = subprocess.run([session_program()], input=given, capture_output=True, timeout=60, check=True)
    return ran.stdout


def after_opening(*lines: str) -> str:
    """The answers to lines after the opening."""
    said = answers("".join(line + "\n" for line in [*OPENING, *lines]).encode("latin-1")).decode("latin-1")
    assert said.startswith(OPENED)
    return said[len(OPENED) :]


def transcript() -> Iterator[Tuple[str, List[str]]]:
    """The lines of the page's transcript, each with its answer."""
    block = re.search(r"```\n(> .*?)\n```", (TOP / "docs/SESSION.md").read_text("utf-8"), re.S)
    assert block
    for part in block[1][2:].split("\n> "):
        line, *rest = part.split("\n< ")
        yield line, rest


def drawn(number: int) -> List[str]:
    """Lines of a drawn script, with bad lines, reports and requests between them."""
    chance = random.Random(number)
    lines = []
    for line in draw("session", number, []).split(b"\n"):
        if chance.random() < 0.1:
            lines.append(bend_word(chance, line))
        if chance.random() < 0.15:
            lines.append(chance.choice((b"!save", b"!cut", b"dump", b"peek", b"journal", b"sync", b"", b"# x", b"!x")))
        if line != b"end" or chance.random() < 0.3:
            lines.append(line)
    return [line.decode("latin-1") for line in lines if b"\n" not in line and line != b"!quit"]


@unittest.skipUnless(HAS_SESSION, "no trestle-session is built: ./build --unproved makes one, or TRESTLE_SESSION names one")
class Sessions(unittest.TestCase):
    """The program."""

    def test_transcript(self) -> None:
        """The page's lines have the page's answers."""
        lines = list(transcript())
        self.assertGreater(len(lines), 10)
        with subprocess.Popen([session_program()], stdin=subprocess.PIPE, stdout=subprocess.PIPE) as session:
            for line, wanted in lines:
                session.stdin.write(line.encode() + b"\n")
                session.stdin.flush()
                with self.subTest(line):
                    first = session.stdout.readline().decode().rstrip("\n")
                    self.assertEqual(wanted[0], first)
                    if first.startswith("bytes "):
                        self.assertEqual(wanted[1:], [f"({len(session.stdout.read(int(first[6:])))} bytes)"])
                    else:
                        count = int(first.split()[1]) if first.startswith("ok ") else 0
                        self.assertEqual(wanted[1:], [session.stdout.readline().decode().rstrip("\n") for _ in range(count)])

    def test_beside_a_model(self) -> None:
        """Drawn lines have the answers that a model finds by `serial`; of a cut only its first word is compared."""
        for number in range(30):
            lines, model = drawn(number)[:60], Model()
            with self.subTest(number), subprocess.Popen([session_program()], stdin=subprocess.PIPE, stdout=subprocess.PIPE) as session:
                said = session.communicate("".join(line + "\n" for line in lines).encode("latin-1"))[0]
                for line in lines:
                    wanted = model.answer(line).encode("latin-1")
                    if wanted == b"bytes\n":
                        head, _, said = said.partition(b"\n")
                        self.assertEqual(b"bytes", head.split()[0], line)
                        said = said[int(head.split()[1]) :]
                        continue
                    self.assertEqual(wanted, said[: len(wanted)], line)
                    said = said[len(wanted) :]
                self.assertEqual(b"", said)

    def test_scripts(self) -> None:
        """Each demo, line by line, has the reports that `serial` has, and is saved as it is."""
        for path in sorted((TOP / "demos").glob("*.txt")):
            script, reports = path.read_text("latin-1"), []
            with self.subTest(path.stem), Session() as session:
                for line in script.splitlines():
                    answer = session.ask(line)
                    reports += [answer] if line.split(" ")[0] in REPORTS else []
                self.assertEqual(play(script.encode("latin-1")).output, b"".join(reports))
                self.assertEqual(script, session.save())

    def test_pieces(self) -> None:
        """The answers don't depend on how the bytes come."""
        given = "\n".join([*OPENING, "motion 1 2 1", "bad", "dump", "!cut", "!save", "#" * 2000, "peek", "!quit", "more"]).encode()
        wanted = answers(given)
        for size in (1, 2, 7, 40):
            with subprocess.Popen([session_program()], stdin=subprocess.PIPE, stdout=subprocess.PIPE, bufsize=0) as session:
                for at in range(0, len(given), size):
                    try:
                        session.stdin.write(given[at : at + size])
                    except BrokenPipeError:
                        break
                self.assertEqual(wanted, session.stdout.read(), size)

    def test_lines(self) -> None:
        """1,024 bytes are a line, and one more are refused at the line feed, as are many."""
        self.assertEqual("ok 0\n", after_opening("#" * 1024))
        for count in (1025, 65_535, 65_536, 65_537, 3_000_000):
            self.assertEqual("refused B9\nok 0\n", after_opening("#" * count, "#"))
        self.assertEqual("refused B1\nrefused B9\n", after_opening("x" * 1024, "x" * 1025))

    def test_prompt(self) -> None:
        """An answer comes as soon as its line is whole, and not before, whatever follows."""
        with subprocess.Popen([session_program()], stdin=subprocess.PIPE, stdout=subprocess.PIPE, bufsize=0) as session:
            session.stdin.write(b"trestle 1\nscreen 8 ")
            self.assertEqual(b"ok 0\n", session.stdout.read(100))
            self.assertEqual(([], [], []), select.select([session.stdout], [], [], 0.05))
            session.stdin.write(b"4 map8\n")
            self.assertEqual(b"ok 0\n", session.stdout.read(100))
            session.stdin.close()
            self.assertEqual((b"", 0), (session.stdout.read(), session.wait()))

    def test_slow_reader(self) -> None:
        """Answers of some megabytes wait until they are read, and none is lost."""
        given = "\n".join(["trestle 1", "screen 900 700 map8", *OPENING[2:], *["dump"] * 3, "!quit", ""]).encode()
        with subprocess.Popen([session_program()], stdin=subprocess.PIPE, stdout=subprocess.PIPE, bufsize=0) as session:
            threading.Thread(target=session.stdin.write, args=(given,)).start()
            time.sleep(0.3)
            got = b"".join(iter(lambda: session.stdout.read(30_001), b""))
        self.assertEqual(answers(given), got)
        self.assertGreater(len(got), 3_700_000)

    def test_refused(self) -> None:
        """A refused line declares no name, and changes neither the stage nor the script."""
        said = after_opening("leaf d 0 1 1 0 1 1 solid 1", "@d take", "@c take 1", "bad", "motion 1 2", "peek", "!save")
        self.assertEqual("refused B5\nrefused B3\nrefused B1\nrefused B1\nrefused B1\nok 1\npeek bad 32 waiting 0 stale 0\n", said.partition("ok 7")[0])
        before = "trestle 1\nscreen 8 4 map8\nleaf c 0 8 8 0 4 4 solid 999\nleaf c 0 8 8 0 4 4 canvas\n"
        self.assertEqual(b"ok 0\nok 0\nrefused B2\nok 0\n", answers(before.encode()))

    def test_cuts(self) -> None:
        """A reader has the screen of each cut; after 64 a new stream begins, with a Screen."""
        with Session() as session:
            for line in OPENING:
                session.send(line)
            for number in range(150):
                session.send(f"@c rect 0 8 0 4 {number}")
                dump = session.ask("dump").decode()
                group = session.ask("!cut")
                if number % 64 == 0:
                    stream = Reader()
                    self.assertEqual(1, group[0])
                [frame] = stream.frames([group])
                self.assertEqual(dump, frame.text())

    def test_beyond_a_script(self) -> None:
        """A session goes on where a script ends, and tells that what it saved is no script."""
        self.assertRegex(after_opening(*["peek"] * 65, "!save"), r"(?m)^ok 71 B7$")
        self.assertRegex(after_opening(*["peek"] * 64, "!save"), r"(?m)^ok 70$")


@unittest.skipUnless(HAS_SESSION, "no trestle-session is built: ./build --unproved makes one, or TRESTLE_SESSION names one")
class FromPython(unittest.TestCase):
    """The class, and what uses it."""

    def test_example(self) -> None:
        """The page's example prints what it says."""
        [example] = re.findall(r"```python\n(.*?)```", (TOP / "docs/SESSION.md").read_text("utf-8"), re.S)
        environment = {**os.environ, "PYTHONPATH": str(TOP / "tools"), "TRESTLE_SESSION": session_program()}
        ran = subprocess.run([sys.executable, "-c", example], capture_output=True, env=environment, check=True)
        wanted = re.findall(r"print\(.*\) +# (.*)", example)
        self.assertEqual(wanted, ran.stdout.decode().splitlines())

    def test_ends(self) -> None:
        """A refusal has its code; a session that has ended says so; closing gives the status."""
        with Session() as session:
            self.assertRaises(ValueError, session.send, "two\nlines")
            with self.assertRaises(Refused) as caught:
                session.send("bad")
            self.assertEqual("B1", caught.exception.code)
            self.assertEqual(0, session.close())
        with Session() as session:
            session.send("!quit")
            self.assertRaises(Trouble, session.send, "# more")
        self.assertRaises(Trouble, Session, "/no/such/program")

    def test_game(self) -> None:
        """A click in the square hits, one beside it doesn't, and the game is saved as a script that plays."""
        with tempfile.TemporaryDirectory() as folder:
            environment = {**os.environ, "TRESTLE_SESSION": session_program()}
            ran = subprocess.run(
                [str(TOP / "demos/clicks.py")], input=b"3 3\n20 9\nx\n", cwd=folder, env=environment, capture_output=True, check=True
            )
            self.assertEqual(["hit 1", "missed 1"], re.findall(r"(?m)^(?:hit|missed) .*$", ran.stdout.decode()))
            self.assertEqual(0, play((Path(folder) / "clicks.txt").read_bytes()).status)


if __name__ == "__main__":
    unittest.main()
