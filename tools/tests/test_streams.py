"""What `mirror`, `show` and the plain reader do with whole scripts and with broken streams, and how snap prints a stream."""

import os
import random
import subprocess
import sys
import unittest
from pathlib import Path
from typing import Iterator

from commands_under_test import TOP

sys.path[:0] = [str(TOP / "tools"), str(TOP / "bench")]

from streams import differs, drawn, limits, plain, spoiled  # noqa: E402
from trestle_tools.commands.snap import hex_lines  # noqa: E402
from trestle_tools.outputs import take_apart  # noqa: E402
from trestle_tools.program import PLAYED, REFUSED, play  # noqa: E402
from trestle_tools.stream_reader import MOST_BYTES, Reader, Refused  # noqa: E402


PROGRAM = os.environ["TRESTLE"]


def scripts() -> Iterator[Path]:
    """The demos, and the examples of docs/SCRIPT.md that are played."""
    for folder in ("demos", "docs/examples"):
        yield from sorted((TOP / folder).glob("*.txt"))


class Streams(unittest.TestCase):
    """Streams."""

    def test_show_of_mirror_is_the_dumps_of_serial(self) -> None:
        for script in scripts():
            with self.subTest(script.stem):
                serial, mirror = [play(script.read_bytes(), word) for word in ("serial", "mirror")]
                self.assertEqual(serial.status, mirror.status)
                if serial.status == REFUSED:
                    self.assertEqual(serial, mirror)
                    continue
                show = play(mirror.output, "show")
                self.assertEqual(PLAYED, show.status)
                dumps = [dump._replace(line=0) for dump in take_apart(serial.text()).dumps()]
                shown = [dump._replace(line=0) for dump in take_apart(show.text()).dumps()]
                self.assertEqual(dumps, shown)

    def test_plain_reader_shows_scripts(self) -> None:
        """The streams of scripts, whole and in pieces."""
        numbers = random.Random(1)
        for script in scripts():
            with self.subTest(script.stem):
                stream = play(script.read_bytes(), "mirror").output
                self.assertFalse(differs(PROGRAM, stream, numbers))

    def test_plain_reader_answers_as_show(self) -> None:
        """The examples of SCRIPT, streams at limits, and such that are drawn and spoiled; `bench/streams.py` tries more."""
        numbers = random.Random(3)
        examples = [bytes.fromhex(file.read_text()) for file in sorted((TOP / "docs/examples").glob("*.hex"))]
        for stream in [*examples, *limits()[:-2], *(spoiled(numbers, drawn(numbers)) for _ in range(150))]:
            with self.subTest(stream[:80].hex()):
                self.assertFalse(differs(PROGRAM, stream, numbers))

    def test_plain_reader_gives_each_cut_at_once(self) -> None:
        """A cut is there when its last byte is, before more is asked for, and also where a fault follows."""
        stream = (b"\1\0\1\0\1\0" + b"\4\0\0\0\1", b"\4\0\0\0\2" + b"\5", b"\5")
        asked = []
        frames = Reader().frames(asked.append(piece) or piece for piece in stream)
        self.assertEqual([(1, 1, "mono", b"\0")] * 2, [next(frames), next(frames)])
        self.assertEqual(2, len(asked))
        with self.assertRaises(Refused) as raised:
            next(frames)
        self.assertEqual(("byte 16 M1", 2), (str(raised.exception), len(asked)))

    def test_plain_reader_ends_at_the_limit(self) -> None:
        with self.assertRaises(Refused) as raised:
            list(Reader().frames([bytes(MOST_BYTES + 1)]))
        self.assertEqual("byte 0 M5", str(raised.exception))

    def test_plain_reader_as_a_program(self) -> None:
        """It stands alone, prints as `show`, and the cuts before a fault, too."""
        stream = bytes.fromhex("010001000101 0400000001")
        for more, status, text in ((b"", 0, ""), (b"\5", 3, "refused: byte 11 M1\n"), (b"\1", 3, "refused: byte 11 M4\n")):
            words = [sys.executable, "-I", str(TOP / "tools/trestle_tools/stream_reader.py")]
            ran = subprocess.run(words, input=stream + more, stdout=subprocess.PIPE, check=False)
            self.assertEqual((status, "dump 1 1 map8\n00\n" + text), (ran.returncode, ran.stdout.decode()))

    def test_drawn_streams_have_each_fault(self) -> None:
        numbers = random.Random(3)
        answers = [plain([spoiled(numbers, drawn(numbers))]) for _ in range(150)]
        self.assertEqual({0, 3}, {status for status, _ in answers})
        codes = {text.decode().split()[-1] for status, text in answers if status}
        self.assertEqual({"M1", "M2", "M3", "M4"}, codes)

    def test_hex_lines(self) -> None:
        self.assertEqual("", hex_lines(b""))
        self.assertEqual("00000000: 41                                       A\n", hex_lines(b"A"))
        lines = hex_lines(bytes(range(0x18, 0x2B)))
        first = "00000000: 1819 1a1b 1c1d 1e1f 2021 2223 2425 2627  ........ !\"#$%&'\n"
        self.assertEqual(first + "00000010: 2829 2a                                  ()*\n", lines)


if __name__ == "__main__":
    unittest.main()
