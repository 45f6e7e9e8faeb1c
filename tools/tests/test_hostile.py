"""That the second reader and the model of judges/model agree with what is stored of the program, and that what is drawn
is what it says. bench/hostile.sh compares them with the program itself."""

import signal
import sys
import unittest
from pathlib import Path
from typing import Iterator, Optional, Tuple

TOP = Path(__file__).resolve().parents[2]
sys.path[:0] = [str(TOP / "judges"), str(TOP / "tools")]

from model.drawing import draw  # noqa: E402
from model.limits import cases  # noqa: E402
from model.outputs import wrong_check, wrong_output  # noqa: E402
from model.printing import output_of  # noqa: E402
from model.program import Limits, Ran, Runner  # noqa: E402
from model.reader import Refusal, refusal_of  # noqa: E402
from model.worst import SCRIPTS, STREAMS, script  # noqa: E402
from trestle_tools.stream_reader import Reader  # noqa: E402

# What stands behind the scripts of a folder.
STORED = {"demos": ".serial", "docs/examples": ".out"}


def stored() -> Iterator[Tuple[Path, bytes, bytes]]:
    """The scripts of the repository, and what is stored of each."""
    for folder, suffix in STORED.items():
        for file in sorted((TOP / folder).glob("*.txt")):
            output = file.with_suffix(suffix)
            if output.exists():
                yield file, file.read_bytes(), output.read_bytes()


def opening() -> str:
    """The opening that tests/faults puts before its lines."""
    text = (TOP / "tests" / "faults").read_text()
    return next(line for line in text.splitlines() if line.startswith("opening=")).split("'")[1]


def bytes_of(row: str) -> bytes:
    """A text as tests/faults writes it."""
    return row.replace(";", "\n").replace("\\0177", "\x7f").replace("\\t", "\t").replace("\\r", "\r").encode("ascii")


def rows() -> Iterator[Tuple[str, Optional[Refusal]]]:
    """The texts of tests/faults, and why each of them is refused."""
    for part, head, line in (("opening", opening(), 13), ("part", opening() + "begin;", 14)):
        for row in (TOP / "tests" / f"faults.{part}").read_text().splitlines():
            code, text = row.split("|", 1)
            yield head + text, Refusal(line, int(code)) if code != "0" else Refusal(line + 1, 8)
    for row in (TOP / "tests" / "faults.whole").read_text().splitlines():
        (line, code), text = row.split("|", 1)[0].split(" "), row.split("|", 1)[1]
        yield text, None if code == "0" else Refusal(int(line), int(code))


class Readers(unittest.TestCase):
    """The second reader beside what is known."""

    def test_stored_scripts(self) -> None:
        """Each script of the repository is refused as is stored, or what is stored has its form."""
        for file, text, output in stored():
            with self.subTest(file=file.name):
                refusal = refusal_of(text)
                if output.startswith(b"refused: "):
                    self.assertEqual(refusal and refusal.text(), output)
                else:
                    self.assertIsNone(refusal)
                    self.assertIsNone(wrong_output(text, output))
                    self.assertIsNotNone(wrong_output(text, output + b"dump\n"))
                checked = file.with_suffix(".check")
                if checked.exists() and b"refused" not in checked.read_bytes():
                    self.assertIsNone(wrong_check(output, checked.read_bytes()))

    def test_stored_outputs(self) -> None:
        """What is stored of each example that plays is what the model prints."""
        for file, text, output in stored():
            with self.subTest(file=file.name):
                if file.parent.name == "examples" and refusal_of(text) is None:
                    self.assertIn(output_of(text), (output, None))
                    checked = file.with_suffix(".check")
                    if checked.exists() and b"refused" not in checked.read_bytes():
                        self.assertIn(output_of(text, "check"), (checked.read_bytes(), None))

    def test_faults(self) -> None:
        """Each text of tests/faults has the fault that stands there."""
        for text, refusal in rows():
            with self.subTest(text=text[-60:]):
                self.assertEqual(refusal_of(bytes_of(text)), refusal)


class Scripts(unittest.TestCase):
    """What is made to be played."""

    def test_limits(self) -> None:
        """Each script at a limit is refused as its case says."""
        for case in cases():
            if case.word != "check":
                with self.subTest(case=case.name):
                    self.assertEqual(refusal_of(case.script), case.refusal)

    def test_worst(self) -> None:
        """The dearest scripts are scripts, and the dearest streams are streams."""
        for name in SCRIPTS:
            with self.subTest(script=name):
                self.assertIsNone(refusal_of(script(name, 0.005)))
        for name in STREAMS:
            with self.subTest(stream=name):
                self.assertEqual(2, len(list(Reader().frames([script(name, 2 / 64)]))))

    def test_drawn(self) -> None:
        """A seed and a number give the same script each time, and some of them play."""
        scripts = [draw("1", number, []) for number in range(40)]
        self.assertEqual(scripts, [draw("1", number, []) for number in range(40)])
        self.assertIn(None, map(refusal_of, scripts))


class Runs(unittest.TestCase):
    """What is told of a run."""

    def setUp(self) -> None:
        self.runner = Runner(sys.executable)
        self.addCleanup(self.runner.close)

    def python(self, text: str, given: bytes = b"", **more: object) -> Ran:
        """Runs a program in Python."""
        return self.runner.run(["-ISc", text], given, **more)

    def test_memory(self) -> None:
        """The memory is the program's own, however much its caller has."""
        caller = b"\1" * (256 << 20)
        little = self.python("").kilobytes
        much = self.python("bytearray(64 << 20)").kilobytes
        self.assertLess(little, 64 << 10)
        self.assertLess(abs(much - little - (64 << 10)), 8 << 10)
        del caller

    def test_streams(self) -> None:
        """It reads what it is given, and what it writes and its status are told."""
        ran = self.python("import sys; sys.stderr.write(sys.stdin.read() + '!'); print(sys.argv); sys.exit(7)", b"read")
        self.assertEqual((ran.status, ran.output, ran.errors), (7, b"['-c']\n", b"read!"))
        ran = self.python("import os; print(os.environ['NAME'])", environment={"NAME": "it's $1"})
        self.assertEqual((ran.status, ran.output, ran.errors), (0, b"it's $1\n", b""))

    def test_limits(self) -> None:
        """It is ended where it takes too much time."""
        self.assertEqual(self.python("while True: pass", limits=Limits(seconds=1)).status, -signal.SIGXCPU)
        self.assertEqual(self.python("import time; time.sleep(60)", limits=Limits(patience=1)).status, -signal.SIGKILL)


if __name__ == "__main__":
    unittest.main()
