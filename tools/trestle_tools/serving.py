"""Serves the page of a recording to a browser on the same machine, and to nobody else.

Pages of another origin can send requests to a server on the loopback: by a form, by the address of a picture, or under
a name of their own that leads to 127.0.0.1. So a request must name this server as its host and, if it has an origin,
as its origin. Its path must have the random token. A call is JSON of limited length. No path leads to a file, and the
server writes only the file of the script."""

import hmac
import json
import secrets
import socket
import threading
import time
from http.server import BaseHTTPRequestHandler, ThreadingHTTPServer
from typing import Any, Callable, Dict, List, Optional, Tuple

from .pages import page, packed, trace_data
from .program import Trouble
from .recordings import Recording, Refusal
from .traces import shared

MOST_BYTES = 64 << 10
# So many seconds a request may take to come, and so many may come at once.
PATIENCE = 10
AT_ONCE = 32
DEVICE_RANGE = range(-8192, 8192)

HEADERS = {
    "Cache-Control": "no-store",
    "Referrer-Policy": "no-referrer",
    "X-Content-Type-Options": "nosniff",
    "X-Frame-Options": "DENY",
    "Cross-Origin-Opener-Policy": "same-origin",
    "Cross-Origin-Resource-Policy": "same-origin",
}


class Wrong(Exception):
    """A request that isn't answered, with its status and why."""

    def __init__(self, status: int, says: str):
        super().__init__(says)
        self.status = status


class Server(ThreadingHTTPServer):
    """A server for one recording, on the loopback alone."""

    daemon_threads = True
    allow_reuse_address = True

    def __init__(self, recording: Recording, port: int):
        super().__init__(("127.0.0.1", port), Handler)
        self.recording = recording
        self.token = secrets.token_urlsafe(18)
        self.lock = threading.Lock()
        self.room = threading.BoundedSemaphore(AT_ONCE)

    @property
    def hosts(self) -> Tuple[str, str]:
        """The names that a request may call this server by."""
        return f"127.0.0.1:{self.server_port}", f"localhost:{self.server_port}"

    def address(self) -> str:
        """The address of the page."""
        return f"http://{self.hosts[0]}/{self.token}/"

    def process_request(self, request: Any, client_address: Any) -> None:
        """Answers a request in a thread of its own, as long as there are few."""
        if not self.room.acquire(blocking=False):
            self.shutdown_request(request)
            return
        super().process_request(request, client_address)

    def process_request_thread(self, request: Any, client_address: Any) -> None:
        """Answers a request."""
        try:
            super().process_request_thread(request, client_address)
        finally:
            self.room.release()

    def handle_error(self, request: Any, client_address: Any) -> None:
        """A connection that breaks is nothing to tell."""


class Handler(BaseHTTPRequestHandler):
    """Answers one request, and closes the connection."""

    timeout = PATIENCE
    server: Server

    def setup(self) -> None:
        """Gives the head of a request so many seconds in all, however its bytes come."""
        super().setup()
        self.watch = threading.Timer(PATIENCE, self.give_up)
        self.watch.daemon = True
        self.watch.start()

    def give_up(self) -> None:
        """Ends the connection."""
        try:
            self.connection.shutdown(socket.SHUT_RDWR)
        except OSError:
            pass

    def finish(self) -> None:
        """Ends the watch, too."""
        self.watch.cancel()
        super().finish()

    def do_GET(self) -> None:  # pylint: disable=invalid-name
        """The page."""
        self.answer(self.page)

    def do_POST(self) -> None:  # pylint: disable=invalid-name
        """A call."""
        self.answer(self.call)

    def answer(self, make: Callable[[], Tuple[bytes, Dict[str, str]]]) -> None:
        """Answers a request that is allowed; another one gets its status and a line."""
        self.watch.cancel()
        try:
            self.check()
            body, headers = make()
            status = 200
        except Wrong as wrong:
            status, body, headers = wrong.status, f"{wrong}\n".encode("ascii", "replace"), {"Content-Type": "text/plain"}
        self.send_response(status)
        for name, value in {**HEADERS, **headers, "Content-Length": str(len(body)), "Connection": "close"}.items():
            self.send_header(name, value)
        self.end_headers()
        self.wfile.write(body)
        self.close_connection = True

    def check(self) -> None:
        """That a request comes from the page itself, or from whoever opens it by its address."""
        hosts = self.headers.get_all("Host", [])
        if len(hosts) != 1 or hosts[0] not in self.server.hosts:
            raise Wrong(403, "this server has another name")
        origins = self.headers.get_all("Origin", [])
        if any(origin != f"http://{hosts[0]}" for origin in origins):
            raise Wrong(403, "pages of another origin are not answered")
        wanted = f"/{self.server.token}/" + ("act" if self.command == "POST" else "")
        if not hmac.compare_digest(self.path.encode("utf-8", "replace"), wanted.encode()):
            raise Wrong(404, "there is nothing here")

    def page(self) -> Tuple[bytes, Dict[str, str]]:
        """The present page."""
        nonce = secrets.token_urlsafe(18)
        with self.server.lock:
            recording = self.server.recording
            live = {"address": f"/{self.server.token}/act", "version": recording.version, "isStored": recording.is_stored()}
            text = page([recording.trace], (), live, nonce)
        policy = f"default-src 'none'; script-src 'nonce-{nonce}'; style-src 'unsafe-inline'; connect-src 'self'; "
        policy += "base-uri 'none'; form-action 'none'; frame-ancestors 'none'"
        return text.encode(), {"Content-Type": "text/html; charset=utf-8", "Content-Security-Policy": policy}

    def call(self) -> Tuple[bytes, Dict[str, str]]:
        """A call of the page, as JSON, and its answer."""
        asked = self.body()
        with self.server.lock:
            answer = called(self.server.recording, asked)
        return json.dumps(answer).encode("ascii"), {"Content-Type": "application/json"}

    def body(self) -> Dict[str, Any]:
        """The JSON object of a call."""
        lengths = self.headers.get_all("Content-Length", [])
        if self.headers.get("Transfer-Encoding") or len(lengths) != 1 or not lengths[0].isdecimal():
            raise Wrong(411, "a call says its length")
        if len(lengths[0]) > 9 or int(lengths[0]) > MOST_BYTES:
            raise Wrong(413, f"a call has at most {MOST_BYTES} bytes")
        if self.headers.get_content_type() != "application/json":
            raise Wrong(415, "a call is JSON")
        try:
            asked = json.loads(self.read(int(lengths[0])))
        except (ValueError, RecursionError):
            raise Wrong(400, "the call is no JSON")
        if not isinstance(asked, dict):
            raise Wrong(400, "the call is no object")
        return asked

    def read(self, length: int) -> bytes:
        """Reads so many bytes, as long as they come in time."""
        end = time.monotonic() + PATIENCE
        data = b""
        while len(data) < length:
            try:
                piece = self.rfile.read1(length - len(data))
            except OSError:
                piece = b""
            if not piece or time.monotonic() > end:
                raise Wrong(408, "the call came too slowly, or not whole")
            data += piece
        return data

    def log_message(self, *_words: Any) -> None:
        """Nothing is told of a request."""


# ---- Calls


def called(recording: Recording, asked: Dict[str, Any]) -> Dict[str, Any]:
    """Does a call, and answers with the new state."""
    said: List[str] = []
    before = recording.version
    try:
        more = done(recording, asked)
    except Refusal as refusal:
        return {"refused": refusal.says}
    except Trouble as trouble:
        return {"refused": [str(trouble)]}
    if more is not None:
        return more
    if recording.version != before:
        said = [f"{recording.trace.lines[it.line - 1]}: {it.says}" for it in recording.news() if it.says]
    return {"said": said, **state(recording, asked.get("version"), before)}


def done(recording: Recording, asked: Dict[str, Any]) -> Optional[Dict[str, Any]]:
    """Does a call. Some calls have an answer of their own."""
    what = asked.get("do")
    if what == "motion":
        recording.motion(*point(asked))
    elif what == "mouse" and asked.get("way") in ("down", "up"):
        recording.mouse(asked["way"], number(asked, "button", range(1, 6)), *point(asked))
    elif what == "key":
        recording.key(number(asked, "code", range(256)))
    elif what == "line":
        recording.add_line(text(asked))
    elif what == "undo":
        recording.undo()
    elif what == "save":
        recording.save(asked.get("force") is True)
        stored = f"{recording.path} is written; bin/snap --update {recording.path} stores what it prints"
        return {"said": [stored], "isStored": True, "version": recording.version}
    elif what == "complete":
        lines, forms = recording.completions(text(asked))
        return {"lines": lines[:40], "forms": forms[:40]}
    elif what != "state":
        raise Refusal(["no such call"])
    return None


def number(asked: Dict[str, Any], name: str, allowed: range) -> int:
    """A number of a call."""
    value = asked.get(name)
    if not isinstance(value, int) or isinstance(value, bool) or value not in allowed:
        raise Refusal([f"{name} is {allowed.start} to {allowed.stop - 1}"])
    return value


def point(asked: Dict[str, Any]) -> Tuple[int, int]:
    """A place of the cursor."""
    return number(asked, "h", DEVICE_RANGE), number(asked, "v", DEVICE_RANGE)


def text(asked: Dict[str, Any]) -> str:
    """A line of a call."""
    value = asked.get("text")
    if not isinstance(value, str) or len(value) > 4096 or not all(" " <= it <= "~" for it in value):
        raise Refusal(["a line has printable bytes of ASCII alone"])
    return value


def state(recording: Recording, has: Any, before: int) -> Dict[str, Any]:
    """The state for a page that has a version: everything, or only the new moments."""
    trace, begin = recording.trace, 0
    if has == recording.version:
        begin = len(trace.moments)
    elif has == before and recording.last and recording.version == before + 1:
        begin = shared(trace, recording.last)
    last = trace.moments[begin - 1].count if begin else -1
    new = [chunk for chunk in trace.chunks if chunk.counts[0] > last]
    data = {**trace_data(trace, begin), "chunks": [chunk.counts for chunk in new]}
    chunks = [packed(chunk.packed) for chunk in new]
    return {"trace": data, "texts": chunks, "version": recording.version, "isStored": recording.is_stored()}
