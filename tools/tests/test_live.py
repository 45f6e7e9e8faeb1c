"""What bin/live records, and whom it answers."""

import http.client
import json
import re
import socket
import subprocess
import sys
import tempfile
import threading
import time
import unittest
import zlib
from pathlib import Path
from typing import Any, Callable, Dict, Optional, Tuple
from unittest import mock

from browser import Browser, browser
from commands_under_test import HAS_SESSION, TOP, call

sys.path.insert(0, str(TOP / "tools"))

from trestle_tools import recordings, serving  # noqa: E402
from trestle_tools.program import PLAYED, play  # noqa: E402
from trestle_tools.recordings import STARTER, Recording, Refusal  # noqa: E402
from trestle_tools.serving import Server  # noqa: E402
from trestle_tools.stream_reader import Frame  # noqa: E402
from trestle_tools.streams import frames_of  # noqa: E402
from trestle_tools.traces import Trace  # noqa: E402

CLICK = ["motion 1 20 15", "mouse 2 down 1", "mouse 3 up 1"]


def pictures(trace: Trace) -> Dict[int, Frame]:
    """The screen after each number of steps that has a picture."""
    return {
        count: frame for chunk in trace.chunks for count, frame in zip(chunk.counts, frames_of(zlib.decompress(chunk.packed)))
    }


class InFolder(unittest.TestCase):
    """Tests that have a folder of their own."""

    def setUp(self) -> None:
        folder = tempfile.TemporaryDirectory()
        self.addCleanup(folder.cleanup)
        self.folder = Path(folder.name)
        self.path = self.folder / "button.txt"

    def opened(self, path: Optional[Path] = None) -> Recording:
        """A recording, whose sessions end with the test."""
        recording = Recording(path or self.path)
        self.addCleanup(recording.close)
        return recording

    def click(self, recording: Recording) -> None:
        """Clicks at the button."""
        recording.mouse("down", 1, 20, 15)
        recording.mouse("up", 1, 20, 15)


class Recordings(InFolder):
    """The lines of a recording."""

    def test_replays(self) -> None:
        """A session is written as a script that gives the same bytes each time, and the pictures that were seen."""
        recording = self.opened()
        self.click(recording)
        recording.add_line("@button take")
        recording.key(65)
        recording.motion(4, 4)
        for report in ("inbox button", "dump", "journal"):
            recording.add_line(report)
        recording.save(False)
        wanted = [*CLICK, "sync", "@button take", "sync", "key 4 65", "motion 5 4 4", "sync", "inbox button", "dump", "journal", "end"]
        self.assertEqual(STARTER.splitlines() + wanted, self.path.read_text().splitlines())
        first, second = play(self.path.read_bytes()), play(self.path.read_bytes())
        self.assertEqual(PLAYED, first.status)
        self.assertEqual(first, second)
        self.assertIn("took mouse 2 firstdown 1 8 4", first.text())
        again = self.opened()
        self.assertEqual((recording.trace.moments, recording.trace.numbers), (again.trace.moments, again.trace.numbers))
        self.assertEqual(0, call("snap", ["--update", str(self.path)]).status)
        self.assertEqual(first.output, self.path.with_suffix(".serial").read_bytes())

    def test_by_threads(self) -> None:
        """A sync between two actors makes a recording the same by threads."""
        recording = self.opened()
        self.click(recording)
        recording.add_line("@button take")
        recording.add_line("move button 2 2")
        recording.add_line("dump")
        recording.add_line("inbox button")
        self.assertEqual(play(recording.script()).text() + "played threads\n", play(recording.script(), "play").text())

    def test_the_hint_is_legal(self) -> None:
        """The page's hint was a command of another widget, so that whoever typed it was refused."""
        [hint] = re.findall('placeholder="a line of the script, as ([^"]*)"', (TOP / "tools/trestle_tools/page.html").read_text("utf-8"))
        recording = self.opened()
        recording.add_line(hint)
        self.assertEqual([hint], recording.lines[len(STARTER.splitlines()) :])

    def test_files_come_out_as_they_are(self) -> None:
        for script in [*sorted((TOP / "demos").glob("*.txt")), *sorted((TOP / "docs/examples").glob("testing_*.txt"))]:
            with self.subTest(script.stem):
                recording = self.opened(script)
                self.assertEqual(script.read_bytes(), recording.script())
                self.assertTrue(recording.is_stored())

    def test_undo(self) -> None:
        recording = self.opened()
        begin = recording.script()
        self.click(recording)
        recording.add_line("dump")
        self.assertEqual([*CLICK, "sync", "dump"], recording.lines[7:])
        recording.undo()
        self.assertEqual(CLICK, recording.lines[7:])
        recording.undo()
        self.assertEqual(CLICK[:2], recording.lines[7:])
        self.assertEqual(((20, 15), ("1",)), recording.hand()[1:])
        recording.undo()
        recording.undo()
        self.assertEqual(begin, recording.script())
        self.assertRaises(Refusal, recording.undo)
        self.path.write_text((TOP / "demos/first.txt").read_text())
        recording = self.opened()
        for last in ("journal", "dump", "peek", "sync", "move edge 2 1", "@left tint 6", "mouse 2 down 1", "motion 1 7 3", "dump"):
            self.assertEqual(last, [line for line in recording.lines if not line.startswith("#")][-1])
            recording.undo()

    def test_refused(self) -> None:
        """A line that is refused changes nothing, and is explained."""
        recording = self.opened()
        before = recording.script(), recording.version
        for text, says in (
            ("@button tnit 3", "`tnit` is no step of a leaf; perhaps `tint` is meant"),
            ("@button tint 3", "button is a canvas leaf"),
            ("move knob 3 3", "knob"),
            ("end", "is written by itself"),
            ("dump\npeek", "one line at a time"),
            ("node desk z 3", "the name desk is taken"),
        ):
            with self.subTest(text):
                with self.assertRaises(Refusal) as refused:
                    recording.add_line(text)
                self.assertIn(says, "\n".join(refused.exception.says))
                self.assertEqual(before, (recording.script(), recording.version))

    def test_opening(self) -> None:
        """A line of the opening comes before `begin`."""
        recording = self.opened()
        self.click(recording)
        recording.add_line("leaf lamp 8 8 8 8 8 8 solid 11")
        recording.add_line("put lamp desk 2 2")
        self.assertEqual(["put lamp desk 2 2", "begin", *CLICK], recording.lines[-5:])
        self.assertIn("lamp", recording.trace.windows)
        recording.undo()
        recording.undo()
        self.assertEqual(STARTER.splitlines() + CLICK, recording.lines)
        (self.folder / "glyphs.txt").write_text("glyph 41 183c66667e666600\n")
        recording.add_line("# include glyphs.txt")
        self.assertEqual(["# include glyphs.txt", "begin"], recording.lines[6:8])
        self.assertIn("glyph 41 183c66667e666600", recording.trace.lines)
        recording.save(False)
        self.assertIn("# include glyphs.txt\nbegin\n", self.path.read_text())
        self.assertEqual(recording.trace.lines, self.opened().trace.lines)

    def test_buttons(self) -> None:
        """A button that is down doesn't go down again."""
        recording = self.opened()
        recording.mouse("up", 1, 3, 3)
        recording.mouse("down", 1, 3, 3)
        recording.mouse("down", 1, 4, 4)
        recording.mouse("down", 2, 3, 3)
        self.assertEqual(["motion 1 3 3", "mouse 2 down 1", "mouse 3 down 2"], recording.lines[7:])
        self.assertEqual((3, (3, 3), ("1", "2")), recording.hand())

    def test_somebody_else_writes(self) -> None:
        recording = self.opened()
        recording.save(False)
        self.path.write_text("mine\n")
        self.assertRaises(Refusal, recording.save, False)
        self.assertEqual("mine\n", self.path.read_text())
        recording.save(True)
        self.assertEqual(recording.script(), self.path.read_bytes())

    def test_completion(self) -> None:
        recording = self.opened()
        lines, forms = recording.completions("@b")
        self.assertEqual(["@button"], lines)
        self.assertIn("@LEAF take", forms)
        self.assertEqual(["@button read", "@button rect"], recording.completions("@button re")[0])
        self.assertEqual([], recording.completions("@button tin")[0])
        self.assertEqual(["move button", "move desk"], recording.completions("move ")[0])
        self.assertEqual(["motion 1"], recording.completions("motion ")[0])
        self.assertEqual(["mouse 1 down", "mouse 1 up"], recording.completions("mouse 1 ")[0])
        self.assertEqual(["motion", "mouse", "move"], recording.completions("mo")[0])


@unittest.skipUnless(HAS_SESSION, "no trestle-session is built: ./build --unproved makes one, or TRESTLE_SESSION names one")
class Followed(InFolder):
    """Recordings that go on by sessions."""

    def follow(self, script: Path) -> Recording:
        """A recording of the script's opening that goes on with the other lines, and plays none of them again."""
        texts = script.read_text("latin-1").splitlines()
        begin = texts.index("begin") + 1
        self.path.write_text("".join(text + "\n" for text in [*texts[:begin], "end"]))
        recording = self.opened()
        with mock.patch.object(recordings, "play", side_effect=AssertionError("it was played again")):
            for text in texts[begin : texts.index("end")]:
                recording.take([[*recording.lines, text]])
        self.assertTrue(recording.follower)
        return recording

    def test_same_as_a_replay(self) -> None:
        """Line by line the moments, the pictures, the numbers and the places are those of a script that is played at once."""
        for name in ("demos/first", "demos/lag", "demos/focus", "docs/examples/testing_covered", "docs/examples/faults_of_edits"):
            with self.subTest(name):
                script = TOP / f"{name}.txt"
                trace, fresh = self.follow(script).trace, Recording(script).trace
                self.assertEqual((fresh.lines, fresh.moments, fresh.numbers), (trace.lines, trace.moments, trace.numbers))
                self.assertEqual((pictures(fresh), fresh.places), (pictures(trace), trace.places))

    def test_goes_on_from_a_file(self) -> None:
        """A file is played once, and the sessions go on with it."""
        first = (TOP / "demos/first.txt").read_text().splitlines()
        self.path.write_text("\n".join([*first[:-5], "end", ""]))
        recording = self.opened()
        for text in first[-5:-1]:
            recording.take([[*recording.lines, text]])
        self.assertTrue(recording.follower)
        trace, fresh = recording.trace, Recording(TOP / "demos/first.txt").trace
        self.assertEqual((fresh.moments, fresh.numbers, fresh.places), (trace.moments, trace.numbers, trace.places))

    def test_what_only_a_replay_tells(self) -> None:
        """The script is played again after an undo, a line of the opening and a fault, and where a session has ended."""
        recording = self.opened()
        self.click(recording)
        sessions = recording.follower
        recording.add_line("dump")
        self.assertTrue(sessions)
        self.assertIs(sessions, recording.follower)
        for change in (recording.undo, lambda: recording.add_line("leaf lamp 8 8 8 8 8 8 solid 11")):
            change()
            self.assertIsNone(recording.follower)
            recording.add_line("@button take")
            self.assertTrue(recording.follower)
        for text, code in (("@button tnit 3", "B1"), ("!quit", "B1"), ("@nobody take", "B3")):
            with self.assertRaisesRegex(Refusal, code):
                recording.add_line(text)
        recording.add_line("@button take")
        recording.follower.painting.process.kill()
        recording.add_line("move button 3 3")
        self.assertIsNone(recording.follower)
        self.assertEqual(["took mouse 3 lastup 1 8 4", "empty", "ok"], [moment.answer for moment in recording.trace.moments[-3:]])

    def test_without_sessions(self) -> None:
        """Where no session is there each line is played with all before it, and the trace is the same."""
        traces = []
        for is_there in (True, False):
            with mock.patch.object(recordings, "has_session", return_value=is_there):
                recording = self.opened()
                self.click(recording)
                recording.add_line("move button 3 3")
                recording.add_line("peek")
                self.assertEqual(is_there, recording.follower is not None)
                traces.append(recording.trace)
        self.assertEqual(traces[0].moments, traces[1].moments)
        self.assertEqual((traces[0].numbers, traces[0].places), (traces[1].numbers, traces[1].places))
        self.assertEqual(pictures(traces[0]), pictures(traces[1]))

    def test_limits(self) -> None:
        """A session doesn't count reports, but a script has 64 at most."""
        recording = self.opened()
        for _ in range(64):
            recording.add_line("peek")
        self.assertTrue(recording.follower)
        with self.assertRaisesRegex(Refusal, "B7"):
            recording.add_line("peek")


class Served(InFolder):
    """A server in this process."""

    def setUp(self) -> None:
        super().setUp()
        self.recording = self.opened()
        self.server = Server(self.recording, 0)
        thread = threading.Thread(target=self.server.serve_forever, kwargs={"poll_interval": 0.02}, daemon=True)
        thread.start()
        self.addCleanup(self.server.server_close)
        self.addCleanup(self.server.shutdown)
        self.host = f"127.0.0.1:{self.server.server_port}"
        self.act = f"/{self.server.token}/act"

    def raw(self, text: str, wait: float = 60) -> str:
        """The answer to some bytes."""
        with socket.create_connection(self.server.server_address[:2], wait) as connection:
            data = b""
            try:
                connection.sendall(text.encode("latin-1"))
                for piece in iter(lambda: connection.recv(1 << 16), b""):
                    data += piece
            except (BrokenPipeError, ConnectionResetError):
                pass
        return data.decode("latin-1")

    def status(self, method: str, path: str, headers: Dict[str, str], body: str = "", host: str = "") -> int:
        """The status of a request."""
        lines = [f"{method} {path} HTTP/1.1", f"Host: {host or self.host}", *(f"{name}: {value}" for name, value in headers.items())]
        answer = self.raw("\r\n".join(lines) + "\r\n\r\n" + body)
        return int(answer.split(" ")[1]) if answer else 0

    def post(self, asked: Any, **more: str) -> Tuple[int, Any]:
        """A call, and its answer."""
        connection = http.client.HTTPConnection(self.host, timeout=60)
        connection.request("POST", self.act, json.dumps(asked), {"Content-Type": "application/json", **more})
        answer = connection.getresponse()
        text = answer.read()
        connection.close()
        return answer.status, json.loads(text) if answer.status == 200 else None


class Calls(Served):
    """What the page calls."""

    def test_calls(self) -> None:
        version = 1
        for asked, lines in (
            ({"do": "mouse", "way": "down", "button": 1, "h": 20, "v": 15}, CLICK[:2]),
            ({"do": "mouse", "way": "up", "button": 1, "h": 20, "v": 15}, CLICK),
            ({"do": "undo"}, CLICK[:2]),
            ({"do": "line", "text": "dump"}, [*CLICK[:2], "sync", "dump"]),
            ({"do": "state"}, [*CLICK[:2], "sync", "dump"]),
        ):
            status, answer = self.post({**asked, "version": version})
            self.assertEqual(200, status)
            self.assertEqual(lines, self.recording.lines[7:])
            self.assertGreaterEqual(answer["trace"]["from"], 1)
            version = answer["version"]
        self.assertEqual(0, self.post({"do": "state", "version": 2})[1]["trace"]["from"])
        self.assertFalse(self.path.exists())
        self.assertIn("is written", self.post({"do": "save"})[1]["said"][0])
        self.assertEqual(self.recording.script(), self.path.read_bytes())
        self.assertEqual(["motion", "mouse", "move"], self.post({"do": "complete", "text": "mo"})[1]["lines"])

    def test_said(self) -> None:
        """An answer that isn't ok is told in words."""
        said = self.post({"do": "line", "text": "lift desk"})[1]["said"]
        self.assertIn("lift desk: N6: desk is the root", said[0])

    def test_page(self) -> None:
        answer = self.raw(f"GET /{self.server.token}/ HTTP/1.1\r\nHost: {self.host}\r\n\r\n")
        self.assertIn("200 OK", answer)
        self.assertIn("frame-ancestors 'none'", answer)
        self.assertIn('<script id="data"', answer)


class Hostile(Served):
    """Requests that the page doesn't make: each has an error, and changes nothing."""

    def setUp(self) -> None:
        super().setUp()
        self.recording.save(False)
        (self.folder / "secret").write_text("a secret")
        self.good = {"Content-Type": "application/json", "Content-Length": "13"}

    def tearDown(self) -> None:
        self.assertEqual((1, STARTER + "end\n"), (self.recording.version, self.path.read_text()))
        self.assertEqual(["button.txt", "secret"], sorted(it.name for it in self.folder.iterdir()))
        self.assertEqual(200, self.status("GET", f"/{self.server.token}/", {}))

    def test_loopback(self) -> None:
        self.assertEqual("127.0.0.1", self.server.server_address[0])

    def test_hosts(self) -> None:
        port = self.server.server_port
        self.assertEqual(200, self.status("GET", f"/{self.server.token}/", {}, host=f"localhost:{port}"))
        for host in ("evil.example", f"evil.example:{port}", "127.0.0.1", f"127.0.0.1:{port + 1}", f"127.0.0.1:{port}.evil.example", "[::1]"):
            with self.subTest(host):
                self.assertEqual(403, self.status("GET", f"/{self.server.token}/", {}, host=host))
                self.assertEqual(403, self.status("POST", self.act, self.good, '{"do":"undo"}', host))
        twice = f"GET /{self.server.token}/ HTTP/1.1\r\nHost: {self.host}\r\nHost: evil.example\r\n\r\n"
        self.assertIn(" 403 ", self.raw(twice).split("\r\n")[0])
        self.assertIn(" 403 ", self.raw(f"GET /{self.server.token}/ HTTP/1.0\r\n\r\n").split("\r\n")[0])

    def test_origins(self) -> None:
        for origin in ("http://evil.example", "null", f"https://{self.host}", f"http://localhost:{self.server.server_port}", "", "file://"):
            with self.subTest(origin):
                self.assertEqual(403, self.status("POST", self.act, {**self.good, "Origin": origin}, '{"do":"undo"}'))

    def test_paths(self) -> None:
        """No path leads to a file, and none is answered without the token."""
        token = self.server.token
        for path in (
            "/", "/act", "/../secret", f"/{token}", f"/{token}/../secret", f"/{token}/secret", f"/{token}/button.txt",
            f"/{token}/%2e%2e/secret", f"/{token}/?x=1", f"/{token[:-1]}/", f"/{token}x/", "/etc/passwd",
            f"http://{self.host}/{token}/../secret", f"/{token}/act", "/favicon.ico", "*", f"/{token}/\\..\\secret", "/\xff",
        ):
            with self.subTest(path):
                self.assertEqual(404, self.status("GET", path, {}))
        for path in ("/act", f"/{token}/", f"/{token}/../act", f"/{token}/act/", "/%2e%2e/act"):
            with self.subTest(path):
                self.assertEqual(404, self.status("POST", path, self.good, '{"do":"undo"}'))

    def test_methods(self) -> None:
        for method in ("PUT", "DELETE", "OPTIONS", "HEAD", "TRACE", "CONNECT", "get"):
            with self.subTest(method):
                self.assertEqual(501, self.status(method, self.act, self.good, '{"do":"undo"}'))

    def test_bodies(self) -> None:
        undo = '{"do":"undo"}'
        for headers, body, status in (
            ({"Content-Type": "application/json"}, undo, 411),
            ({**self.good, "Content-Length": "-1"}, undo, 411),
            ({**self.good, "Content-Length": "1e3"}, undo, 411),
            ({**self.good, "Content-Length": "65537"}, undo, 413),
            ({**self.good, "Content-Length": "9" * 4000}, undo, 413),
            ({**self.good, "Transfer-Encoding": "chunked"}, "d\r\n" + undo + "\r\n0\r\n\r\n", 411),
            ({**self.good, "Content-Type": "text/plain"}, undo, 415),
            ({**self.good, "Content-Type": "application/x-www-form-urlencoded"}, undo, 415),
            ({**self.good, "Content-Length": "5"}, "[1,2]", 400),
            ({**self.good, "Content-Length": "4"}, '{"d"', 400),
            ({**self.good, "Content-Length": "2"}, "\xff\xfe", 400),
            ({**self.good, "Content-Length": "60000"}, "[" * 60000, 400),
        ):
            with self.subTest(f"{headers} {body[:20]}"):
                self.assertEqual(status, self.status("POST", self.act, headers, body))

    def test_endless(self) -> None:
        """A body that doesn't end, and one that doesn't come, are given up; others are answered meanwhile."""
        self.assertIn(self.status("POST", self.act, {**self.good, "Content-Length": "99999999"}, "x" * 5_000_000), (0, 413))
        with mock.patch.object(serving, "PATIENCE", 1.0), mock.patch.object(serving.Handler, "timeout", 1.0):
            self.slow()
        self.assertIn(" 414 ", self.raw("GET /" + "x" * 70000 + "\r\n").split("\r\n")[0])

    def slow(self) -> None:
        """Requests that come too slowly, or not whole."""
        head = f"POST {self.act} HTTP/1.1\r\nHost: {self.host}\r\nContent-Type: application/json\r\nContent-Length: 13\r\n\r\n"
        self.assertIn(" 408 ", self.raw(head + '{"do"').split("\r\n")[0])
        self.assertEqual("", self.raw("POST " + "x" * 100))
        with socket.create_connection(self.server.server_address[:2], 60) as slow:
            begun = time.monotonic()
            with self.assertRaises(OSError):
                while time.monotonic() < begun + 60:
                    slow.sendall(b"x")
                    time.sleep(0.2)

    def test_many(self) -> None:
        """Connections over a number are closed at once."""
        held = [socket.create_connection(self.server.server_address[:2], 60) for _ in range(serving.AT_ONCE)]
        late = socket.create_connection(self.server.server_address[:2], 60)
        self.assertEqual(b"", late.recv(1))
        for connection in [*held, late]:
            connection.close()
        for _ in range(200):
            if self.status("GET", f"/{self.server.token}/", {}):
                return
        self.fail("nobody is answered any more")

    def test_calls(self) -> None:
        """A call with other values than it may have is refused."""
        for asked in (
            {}, {"do": "format"}, {"do": "key"}, {"do": "key", "code": 256}, {"do": "key", "code": True}, {"do": "key", "code": "65"},
            {"do": "motion", "h": 8192, "v": 0}, {"do": "motion", "h": 1.5, "v": 0}, {"do": "mouse", "way": "left", "button": 1, "h": 0, "v": 0},
            {"do": "mouse", "way": "down", "button": 6, "h": 0, "v": 0}, {"do": "line"}, {"do": "line", "text": "\t"},
            {"do": "line", "text": "dump\nend"}, {"do": "line", "text": "x" * 5000}, {"do": ["undo"]}, {"do": "complete", "text": None},
            {"do": "line", "text": "# include /etc/passwd"}, {"do": "line", "text": "# include ../../../../etc/passwd"},
        ):
            with self.subTest(asked):
                status, answer = self.post(asked)
                self.assertEqual((200, ["refused"]), (status, list(answer)))


@unittest.skipUnless(browser(), "no browser is installed: apt-get install chromium")
class InBrowser(InFolder):
    """A session in a browser."""

    def test_session(self) -> None:
        """Clicks, keys and typed lines are recorded; the written script gives the bytes that the page showed."""
        self.live(self.session)
        lines = self.path.read_text().splitlines()[7:]
        self.assertEqual([*CLICK, "key 4 65", "sync", "@button take", "@button flush", "sync", "dump", "end"], lines)
        self.assertEqual(self.shown, play(self.path.read_bytes()).text().replace("\n", "")[len("dump 48 32 map8") :])

    def test_drag(self) -> None:
        """While a button is down, a cursor that rests is recorded; and so it is with `moves`."""
        self.live(self.drag)
        wanted = ["motion 1 20 15", "mouse 2 down 1", "motion 3 30 18", "motion 4 40 2", "mouse 5 up 1", "motion 6 3 3", "sync", "end"]
        self.assertEqual(wanted, self.path.read_text().splitlines()[7:])

    def live(self, session: Callable[[Browser], None]) -> None:
        """Has a session with the command itself."""
        command = [sys.executable, str(TOP / "bin/live"), str(self.path)]
        with subprocess.Popen(command, stdout=subprocess.PIPE, text=True) as live:
            assert live.stdout
            found = re.search(r"http://127\.0\.0\.1:\d+/\S+", live.stdout.readline())
            assert found
            window = Browser()
            try:
                window.open(found[0])
                session(window)
                window.evaluate("document.getElementById('save').click()")
                window.wait("document.getElementById('save').textContent === 'Saved'")
                self.assertEqual([], window.errors)
            finally:
                window.close()
                live.terminate()

    def drag(self, window: Browser) -> None:
        """Drags from the button to another place, with a rest on the way, and rests somewhere else."""
        west, north, scale = self.screen(window)
        at = [(west + (h + 0.5) * scale, north + (v + 0.5) * scale) for h, v in ((20, 15), (30, 18), (40, 2), (9, 9), (3, 3))]
        window.mouse("mouseMoved", *at[0], "none")
        window.mouse("mousePressed", *at[0], held=1)
        window.mouse("mouseMoved", *at[1], held=1)
        window.wait("page.sides[0].trace.lines.includes('motion 3 30 18')")
        window.mouse("mouseMoved", *at[2], held=1)
        window.mouse("mouseReleased", *at[2])
        window.wait("page.sides[0].trace.lines.includes('mouse 5 up 1')")
        window.evaluate("document.getElementById('moves').click()")
        window.mouse("mouseMoved", *at[3], "none")
        window.mouse("mouseMoved", *at[4], "none")
        window.wait("page.sides[0].trace.lines.includes('motion 6 3 3')")

    def screen(self, window: Browser) -> Tuple[float, ...]:
        """Where the picture is in the page, and its scale."""
        return window.wait(
            "page.sides[0].scale && (() => { const it = document.querySelector('.screen canvas').getBoundingClientRect();"
            " return [it.left, it.top, page.sides[0].scale]; })()"
        )

    def session(self, window: Browser) -> None:
        """Clicks at the button, presses a key, and types two lines, one of them wrong."""
        west, north, scale = self.screen(window)
        window.click(west + 20.5 * scale, north + 15.5 * scale)
        window.wait("page.sides[0].trace.lines.includes('mouse 3 up 1')")
        window.key("A", "A", 65)
        window.wait("page.sides[0].trace.lines.includes('key 4 65')")
        window.evaluate("document.querySelector('[data-line=\"@button take\"]').click()")
        window.wait("page.sides[0].trace.lines.includes('@button take')")
        self.type(window, "@button tnit 3")
        window.wait("document.getElementById('said').textContent.includes('perhaps `tint` is meant')")
        self.type(window, "@button flush")
        window.wait("page.sides[0].trace.lines.includes('@button flush')")
        window.evaluate("document.querySelector('[data-line=\"peek\"]').click()")
        window.wait("page.sides[0].trace.lines.includes('peek')")
        window.evaluate("document.getElementById('undo').click()")
        window.wait("!page.sides[0].trace.lines.includes('peek')")
        window.evaluate("document.querySelector('[data-line=\"dump\"]').click()")
        window.wait("page.sides[0].trace.lines.includes('dump')")
        hexed = "[...page.sides[0].frame.pixels].map((it) => it.toString(16).padStart(2, '0')).join('')"
        self.shown = window.evaluate(hexed)

    def type(self, window: Browser, text: str) -> None:
        """Types a line."""
        window.evaluate("document.getElementById('line').value = ''; document.getElementById('line').focus()")
        for letter in text:
            window.key(letter, letter)
        window.key("Enter", "\r", 13)


class Words(InFolder):
    """The words of the command."""

    def test_wrong(self) -> None:
        self.path.write_text("trestle 1\nscren 4 4 map8\n")
        for words, says in (
            (["-"], "live writes it"), ([], "FILE"), ([str(self.path)], "perhaps `screen` is meant"),
            ([str(self.path), "--port", "70000"], "N is 0 to 65535"), ([str(self.folder)], "cannot be read"),
        ):
            with self.subTest(words):
                ended = call("live", words)
                self.assertEqual(2, ended.status)
                self.assertIn(says, ended.text)


if __name__ == "__main__":
    unittest.main()
