"""What bin/vnc shows to a viewer: a small one, which is written here."""

import random
import shutil
import socket
import struct
import subprocess
import sys
import tempfile
import threading
import unittest
from pathlib import Path
from typing import Dict, List, Optional, Tuple
from unittest import mock

from commands_under_test import TOP, call

sys.path.insert(0, str(TOP / "tools"))

from trestle_tools import rfb  # noqa: E402
from trestle_tools.commands.vnc import stream_in  # noqa: E402
from trestle_tools.pictures import UNMARKED, palette, picture_of  # noqa: E402
from trestle_tools.program import play  # noqa: E402
from trestle_tools.rfb import OURS, Broken, Format, Server, Show, Timing, format_of  # noqa: E402
from trestle_tools.stream_reader import Frame  # noqa: E402
from trestle_tools.streams import dump_of, frames_of  # noqa: E402

COLOURS = [tuple(colour) for colour in palette()]
Pixels = List[List[Tuple[int, ...]]]


def frames(script: str = "demos/desktop.txt") -> List[Frame]:
    """The cuts of a script."""
    return list(frames_of(play((TOP / script).read_bytes(), "mirror").output))


def wanted(frame: Frame, width: int, height: int, scale: int = 1) -> Pixels:
    """The picture of a cut on a screen of some size."""
    rows = [[COLOURS[it] for it in row] for row in picture_of(dump_of(frame)).rows]
    rows = [row + [COLOURS[UNMARKED]] * (width - len(row)) for row in rows]
    rows += [[COLOURS[UNMARKED]] * width] * (height - len(rows))
    return [[pixel for pixel in row for _ in range(scale)] for row in rows for _ in range(scale)]


class Client:
    """A viewer."""

    def __init__(self, address: Tuple[str, int], version: bytes = b"RFB 003.008\n"):
        self.socket = socket.create_connection(address, 60)
        self.greeting = self.read(12)
        self.socket.sendall(version)
        if version >= b"RFB 003.007\n":
            self.security = self.read(1 + 1)
            self.socket.sendall(b"\1")
        else:
            self.security = self.read(4)
        self.result = self.read(4) if version >= b"RFB 003.008\n" else None
        self.socket.sendall(b"\1")
        self.width, self.height, data, length = struct.unpack(">HH16sI", self.read(24))
        self.format = format_of(data)
        self.name = self.read(length).decode()
        self.pixels: Pixels = [[(0, 0, 0)] * self.width for _ in range(self.height)]
        self.areas: List[Tuple[int, ...]] = []
        self.map: Dict[int, Tuple[int, ...]] = {}

    def read(self, count: int) -> bytes:
        """Reads so many bytes."""
        data = b""
        while len(data) < count:
            piece = self.socket.recv(count - len(data))
            if not piece:
                raise EOFError
            data += piece
        return data

    def ask(self, is_changed: bool, area: Optional[Tuple[int, ...]] = None) -> None:
        """Asks for an area, or for the changes in it."""
        self.socket.sendall(struct.pack(">BBHHHH", 3, is_changed, *(area or (0, 0, self.width, self.height))))

    def take(self) -> None:
        """Takes an update, and the colours of a map before it."""
        sort = self.read(1)[0]
        if sort == 1:
            first, count = struct.unpack(">xHH", self.read(5))
            for number in range(first, first + count):
                self.map[number] = tuple(part >> 8 for part in struct.unpack(">HHH", self.read(6)))
            return self.take()
        assert sort == 0, sort
        self.areas = []
        for _ in range(struct.unpack(">xH", self.read(3))[0]):
            west, north, width, height, encoding = struct.unpack(">HHHHi", self.read(12))
            assert encoding == 0 and west + width <= self.width and north + height <= self.height
            self.areas.append((west, north, width, height))
            size = self.format.bits // 8
            data = self.read(width * height * size)
            for at in range(width * height):
                pixel = int.from_bytes(data[at * size : (at + 1) * size], "big" if self.format.is_big else "little")
                self.pixels[north + at // width][west + at % width] = self.colour(pixel)
        return None

    def colour(self, pixel: int) -> Tuple[int, ...]:
        """Red, green and blue of a pixel."""
        if not self.format.is_true:
            return self.map[pixel]
        return tuple(pixel >> shift & most for most, shift in zip(self.format.maxima, self.format.shifts))

    def wants(self, format_: Format) -> None:
        """Wants other pixels."""
        self.socket.sendall(b"\0\0\0\0" + format_.data())
        self.format = format_

    def key(self, key: int) -> None:
        """Presses a key and releases it."""
        for is_down in (1, 0):
            self.socket.sendall(struct.pack(">BBxxI", 4, is_down, key))

    def is_over(self) -> bool:
        """Whether the server has ended the connection."""
        try:
            return self.socket.recv(1) == b""
        except ConnectionResetError:
            return True


class Served(unittest.TestCase):
    """A server in this process."""

    def serve(self, cuts: List[Frame], timing: Timing = Timing(None), scale: int = 1) -> Tuple[str, int]:
        """Serves some cuts; the address."""
        server = Server(Show("desktop", cuts, scale), timing, 0)
        threading.Thread(target=server.serve_forever, kwargs={"poll_interval": 0.02}, daemon=True).start()
        self.addCleanup(server.server_close)
        self.addCleanup(server.shutdown)
        self.assertEqual("127.0.0.1", server.server_address[0])
        return "127.0.0.1", server.server_address[1]

    def client(self, address: Tuple[str, int], version: bytes = b"RFB 003.008\n") -> Client:
        """A viewer that goes at the end of the test."""
        client = Client(address, version)
        self.addCleanup(client.socket.close)
        return client


class Views(Served):
    """What a viewer sees."""

    def test_greeting(self) -> None:
        address = self.serve(frames())
        for version, security, result in (
            (b"RFB 003.008\n", b"\1\1", b"\0\0\0\0"), (b"RFB 003.889\n", b"\1\1", b"\0\0\0\0"),
            (b"RFB 003.007\n", b"\1\1", None), (b"RFB 003.003\n", b"\0\0\0\1", None), (b"RFB 003.005\n", b"\0\0\0\1", None),
        ):
            with self.subTest(version):
                client = self.client(address, version)
                self.assertEqual((b"RFB 003.008\n", security, result), (client.greeting, client.security, client.result))
                self.assertEqual((64, 48, OURS, "desktop"), (client.width, client.height, client.format, client.name))

    def test_cuts_by_key(self) -> None:
        """Each cut, by what changed; then back, to the last, and to the first one."""
        cuts = frames("demos/resize.txt")
        width, height = max(it.width for it in cuts), max(it.height for it in cuts)
        self.assertGreater(len(cuts), 2)
        client = self.client(self.serve(cuts))
        client.ask(False)
        client.take()
        self.assertEqual([(0, 0, width, height)], client.areas)
        self.assertEqual(wanted(cuts[0], width, height), client.pixels)
        for cut in cuts[1:]:
            client.ask(True)
            client.key(0x20)
            client.take()
            self.assertEqual(wanted(cut, width, height), client.pixels)
        for key, number in ((0xFF51, len(cuts) - 2), (0xFF50, 0), (0xFF57, len(cuts) - 1)):
            client.ask(True)
            client.key(key)
            client.take()
            self.assertEqual(wanted(cuts[number], width, height), client.pixels)

    def test_what_changed(self) -> None:
        """Only what changed is sent, and nothing where nothing has."""
        one = Frame(6, 4, "map8", bytes(24))
        pixels = bytearray(24)
        pixels[7] = pixels[8] = pixels[14] = pixels[23] = 9
        client = self.client(self.serve([one, Frame(6, 4, "map8", bytes(pixels))], scale=2))
        client.ask(False)
        client.take()
        client.ask(True)
        client.socket.settimeout(0.3)
        self.assertRaises(OSError, client.read, 1)
        client.socket.settimeout(60)
        client.key(0xFF53)
        client.take()
        self.assertEqual([(2, 2, 4, 4), (10, 6, 2, 2)], client.areas)
        self.assertEqual(wanted(Frame(6, 4, "map8", bytes(pixels)), 6, 4, 2), client.pixels)

    def test_parts(self) -> None:
        """A part of the screen at a time, which cuts points of three by three in two."""
        cuts = frames()
        client = self.client(self.serve(cuts, scale=3))
        drawn = random.Random(1)
        client.key(0x20)
        for _ in range(60):
            client.ask(drawn.random() < 0.5, (drawn.randrange(192), drawn.randrange(144), drawn.randrange(1, 90), drawn.randrange(1, 90)))
        client.ask(False, (0, 0, 1, 1))
        for _ in range(200):
            client.take()
            if client.areas == [(0, 0, 1, 1)]:
                break
        client.ask(True)
        client.take()
        self.assertEqual(wanted(cuts[1], 64, 48, 3), client.pixels)
        client.ask(False, (500, 500, 9, 9))
        client.take()
        self.assertEqual([], client.areas)

    def test_formats(self) -> None:
        cuts = frames()
        address = self.serve(cuts)
        truth = wanted(cuts[0], 64, 48)
        for name, wants in (
            ("big", Format(32, 24, 1, 1, (255, 255, 255), (0, 8, 16))),
            ("sixteen", Format(16, 16, 0, 1, (31, 63, 31), (11, 5, 0))),
            ("sixteen, big", Format(16, 15, 1, 1, (31, 31, 31), (10, 5, 0))),
            ("eight", Format(8, 8, 0, 1, (7, 7, 3), (0, 3, 6))),
            ("map", Format(8, 8, 0, 0, (0, 0, 0), (0, 0, 0))),
        ):
            with self.subTest(name):
                client = self.client(address)
                client.wants(wants)
                client.ask(False)
                client.take()
                parts = [[tuple((part * most + 127) // 255 for part, most in zip(it, wants.maxima)) for it in row] for row in truth]
                self.assertEqual(parts if wants.is_true else truth, client.pixels)

    def test_timed(self) -> None:
        cuts = frames()
        truth = [wanted(cut, 64, 48) for cut in cuts]
        client = self.client(self.serve(cuts, Timing(0.5)))
        client.ask(False)
        client.take()
        while client.pixels != truth[-1]:
            self.assertIn(client.pixels, truth)
            client.ask(True)
            client.take()
        client = self.client(self.serve(cuts, Timing(0.5, True)))
        client.ask(False)
        client.take()
        for _ in range(3):
            before = client.pixels and [list(row) for row in client.pixels]
            client.ask(True)
            client.take()
            self.assertIn(client.pixels, truth)
            self.assertNotEqual(before, client.pixels)

    def test_other_messages(self) -> None:
        """Encodings, the mouse and texts are taken."""
        client = self.client(self.serve(frames()))
        client.socket.sendall(struct.pack(">BxHiii", 2, 3, 16, 7, -223) + struct.pack(">BBHH", 5, 1, 3, 3) + struct.pack(">BxxxI", 6, 5) + b"hello")
        client.ask(False)
        client.take()
        self.assertEqual(wanted(frames()[0], 64, 48), client.pixels)


class Hostile(Served):
    """Messages that are broken end their connection alone."""

    def test_broken(self) -> None:
        address = self.serve(frames())
        other = self.client(address)
        for data in (
            b"\7", b"\1", b"\xff" * 100, b"GET / HTTP/1.1\r\n\r\n", struct.pack(">BxxxI", 6, 0xFFFFFFFF), struct.pack(">BxxxI", 6, (1 << 20) + 1),
            b"\0\0\0\0" + Format(24, 24, 0, 1, (255, 255, 255), (16, 8, 0)).data(), b"\0\0\0\0" + Format(0, 0, 0, 1, (0, 0, 0), (0, 0, 0)).data(),
            b"\0\0\0\0" + Format(8, 8, 0, 1, (255, 255, 255), (16, 8, 0)).data(), b"\0\0\0\0" + Format(32, 24, 0, 0, (0, 0, 0), (0, 0, 0)).data(),
            b"\0\0\0\0" + Format(32, 24, 0, 1, (0, 0, 0), (16, 8, 0)).data(),
        ):
            with self.subTest(data[:24]):
                client = self.client(address)
                client.socket.sendall(data)
                self.assertTrue(client.is_over())
        other.ask(False)
        other.take()
        self.assertEqual(wanted(frames()[0], 64, 48), other.pixels)

    def test_greetings(self) -> None:
        """Whoever doesn't greet as a viewer does is left."""
        address = self.serve(frames())
        for data in (b"GET / HTTP/1.1\r\n", b"RFB 004.000\n", b"RFB 003.00x\n", b"RFB 003.008\n\0", b"RFB 003.008\n\2"):
            with self.subTest(data):
                with socket.create_connection(address, 60) as connection:
                    connection.sendall(data)
                    said = b""
                    try:
                        for piece in iter(lambda: connection.recv(100), b""):
                            said += piece
                    except ConnectionResetError:
                        pass
                self.assertTrue(said.startswith(b"RFB 003.008\n"))
                if data.startswith(b"RFB 003.008\n"):
                    self.assertIn(b"\0\0\0\1\0\0\0\x19there is no such security", said)

    def test_half_a_message(self) -> None:
        """Half a message that isn't followed by the rest, and a viewer that goes within one."""
        address = self.serve(frames())
        with mock.patch.object(rfb, "PATIENCE", 1.0):
            client = self.client(address)
            client.socket.sendall(struct.pack(">BBH", 3, 0, 0))
            self.assertTrue(client.is_over())
            with socket.create_connection(address, 60) as connection:
                self.assertEqual(b"RFB 003.008\n", connection.recv(12))
                self.assertEqual(b"", connection.recv(1))
        client = self.client(address)
        client.socket.sendall(struct.pack(">BxxxI", 6, 1000) + b"half")
        client.socket.close()
        self.client(address).ask(False)

    def test_drawn(self) -> None:
        """Drawn bytes behind the greeting; the server serves on."""
        address = self.serve(frames())
        drawn = random.Random(2)
        for _ in range(40):
            client = self.client(address)
            client.socket.sendall(bytes(drawn.choice((0, 0, 1, 2, 3, 4, 5, 6, 255)) for _ in range(drawn.randrange(1, 60))))
            client.socket.close()
        last = self.client(address)
        last.ask(False)
        last.take()
        self.assertEqual(wanted(frames()[0], 64, 48), last.pixels)

    def test_many(self) -> None:
        """Viewers over a number are sent away at once."""
        address = self.serve(frames())
        held = [self.client(address) for _ in range(rfb.AT_ONCE)]
        with socket.create_connection(address, 60) as late:
            self.assertEqual(b"", late.recv(1))
        held[0].ask(False)
        held[0].take()

    def test_format_of(self) -> None:
        self.assertEqual(OURS, format_of(OURS.data()))
        self.assertRaises(Broken, format_of, bytes(16))


class Words(unittest.TestCase):
    """The words of the command, and its streams."""

    def test_streams(self) -> None:
        """A stream as it is, and as snap stores it."""
        stored = (TOP / "docs/examples/stream.mirror").read_bytes()
        stream = play((TOP / "docs/examples/stream.txt").read_bytes(), "mirror").output
        self.assertEqual([stream, stream], [stream_in(stored), stream_in(stream)])
        self.assertEqual(b"", stream_in(b""))

    def test_wrong(self) -> None:
        with tempfile.TemporaryDirectory() as folder:
            broken, empty = Path(folder) / "broken", Path(folder) / "empty"
            broken.write_bytes(b"\1\0\2\0\2\1")
            empty.write_bytes(b"")
            for words, says in (
                ([str(broken)], "is refused: byte 6 M4"), ([str(empty)], "has no cut"), ([str(TOP / "demos/first.txt")], "byte 0 M1"),
                ([str(empty), "--scale", "99"], "--scale is 1 to 32"), ([str(empty), "--seconds", "-1"], "seconds"),
                ([str(empty), "--port", "99999"], "--port is 0 to 65535"), ([], "STREAM"), ([str(folder)], "cannot be read"),
            ):
                with self.subTest(words):
                    ended = call("vnc", words)
                    self.assertEqual(2, ended.status)
                    self.assertIn(says, ended.text)

    def test_serves(self) -> None:
        """The command itself, to a viewer, and to a real one where it is installed."""
        stream = play((TOP / "demos/desktop.txt").read_bytes(), "mirror").output
        words = [sys.executable, str(TOP / "bin/vnc"), "-", "--keys", "--port", "0", "--scale", "1"]
        with subprocess.Popen(words, stdin=subprocess.PIPE, stdout=subprocess.PIPE) as ran, tempfile.TemporaryDirectory() as folder:
            assert ran.stdin and ran.stdout
            ran.stdin.write(stream)
            ran.stdin.close()
            said = ran.stdout.readline().decode()
            port = int(said.rsplit("::", 1)[1])
            self.assertEqual(f"vnc: 2 cuts at 127.0.0.1::{port}\n", said)
            client = Client(("127.0.0.1", port))
            client.ask(False)
            client.take()
            self.assertEqual(wanted(frames()[0], 64, 48), client.pixels)
            client.socket.close()
            if shutil.which("vncsnapshot"):
                picture = Path(folder) / "cut.jpg"
                subprocess.run(["vncsnapshot", "-quiet", f"127.0.0.1:{port - 5900}", str(picture)], check=True, timeout=30, capture_output=True)
                self.assertEqual(b"\xff\xd8\xff", picture.read_bytes()[:3])
            ran.terminate()


if __name__ == "__main__":
    unittest.main()
