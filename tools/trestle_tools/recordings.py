"""A script that grows while it is played: by sessions where trestle-session is there, else each new line plays it again."""

from pathlib import Path
from typing import Iterator, List, NamedTuple, Optional, Tuple

from .commands.why import explained
from .following import Follower
from .grammar import COMMANDS, FORMS, OPENING, REPORTS, WIDGET_COMMANDS, Form, Slot
from .include import INCLUDE, Packed, Packer
from .outputs import REFUSAL
from .program import PLAYED, REFUSED, Trouble, has_session, play, read_bytes
from .scripts import LINES, SYNCS, TEXT_BYTES, texts_of
from .scripts import REPORTS as MOST_REPORTS
from .session import Refused
from .traces import Asked, Moment, Trace, going_on, trace_of_script
from .windows import Windows

# The beginning of a new script: a desk with a canvas, which answers a press.
STARTER = """trestle 1
screen 48 32 map8
node desk z 8
leaf button 24 24 24 10 10 10 canvas
put button desk 12 11
root desk
begin
"""
DEVICES = ("mouse", "motion", "key")
# So many of the syncs of a script a recorder adds by itself; the others are left to whoever writes.
OWN_SYNCS = SYNCS * 9 // 10


class Refusal(Exception):
    """Why a line isn't taken, in some lines."""

    def __init__(self, says: List[str]):
        super().__init__(says[0])
        self.says = says


class Hand(NamedTuple):
    """The last state of the devices: the time, the place of the cursor, and the buttons that are down."""

    time: int
    at: Tuple[int, int]
    down: Tuple[str, ...]


class Recording:
    """A script without its `end`, which is added when it is played or written."""

    def __init__(self, path: Path):
        self.path = path
        self.is_new = not path.exists()
        # The bytes of the file when it was last read or written.
        self.stored = b"" if self.is_new else read_bytes(str(path))
        texts = texts_of(self.stored) if not self.is_new else STARTER.splitlines()
        self.lines, self.tail = cut_at_end(texts)
        self.before: List[List[str]] = []
        # The sessions that have played the lines, if there are any.
        self.follower: Optional[Follower] = None
        self.trace: Trace = self.replayed(self.packed(self.script()), None)
        self.version = 1
        # The trace of the version before this one.
        self.last: Optional[Trace] = None

    def script(self, lines: Optional[List[str]] = None) -> bytes:
        """The script with its end."""
        lines = self.lines if lines is None else lines
        between = ["sync"] if needs_sync(lines) else []
        return "".join(line + "\n" for line in [*lines, *between, "end", *self.tail]).encode("latin-1")

    def is_stored(self) -> bool:
        """Whether the file holds what would be written."""
        return self.stored == self.script()

    def packed(self, script: bytes) -> Packed:
        """The script with what it includes."""
        packer = Packer(self.path)
        packer.add(script, self.path, "")
        return Packed(str(self.path), "".join(line.text + "\n" for line in packer.lines).encode("latin-1"), packer.lines)

    def played(self, lines: List[str]) -> Trace:
        """The trace of a script. It takes over parts of the present one."""
        packed = self.packed(self.script(lines))
        return self.followed(packed) or self.replayed(packed, self.trace)

    def followed(self, packed: Packed) -> Optional[Trace]:
        """The trace of a script by sessions; None where only a replay tells it: the script doesn't go on behind the lines
        that were played, or no session can play it."""
        follower, self.follower = self.follower, None
        known, now = [cut_at_end(texts)[0] for texts in (self.trace.lines, [line.text for line in packed.lines])]
        try:
            if now[: len(known)] == known and self.trace.can_go_on() and is_for_session(packed) and has_session():
                follower = follower or Follower(self.trace, packed.lines[: len(known)])
                trace = self.follow(follower, packed, range(len(known), len(now)))
                self.follower, follower = follower, None
                return trace
        except (Refused, Trouble):
            pass
        finally:
            if follower:
                follower.close()
        return None

    def follow(self, follower: Follower, packed: Packed, places: range) -> Trace:
        """The trace that goes on with some lines."""
        trace = going_on(self.trace, packed)
        for line in (packed.lines[place] for place in places):
            try:
                follower.add(trace, line)
            except Refused as refused:
                if refused.code == "memory":
                    raise
                raise Refusal(explained(packed.name, packed, line.number, refused.code))
        return trace

    def close(self) -> None:
        """Ends the sessions."""
        if self.follower:
            self.follower.close()
            self.follower = None

    def replayed(self, packed: Packed, known: Optional[Trace]) -> Trace:
        """The trace of a script that is played from its first line. It takes over parts of one that is known."""
        result = play(packed.script)
        refusal = REFUSAL.match(result.text())
        if result.status == REFUSED and refusal:
            raise Refusal(explained(packed.name, packed, int(refusal[1]), refusal[2]))
        if result.status != PLAYED:
            raise Trouble(f"the program ended with status {result.status}")
        return trace_of_script(packed, Asked(), known)

    def take(self, states: List[List[str]]) -> None:
        """Plays the last of some states of the lines, and keeps the present one and the others for `undo`."""
        trace = self.played(states[-1])
        self.before += [self.lines, *states[:-1]]
        self.lines, self.last, self.trace = states[-1], self.trace, trace
        self.version += 1

    # ---- Actions

    def add(self, texts: List[str]) -> None:
        """Adds lines, each behind a sync where one is needed."""
        states: List[List[str]] = []
        lines = self.lines
        for text in texts:
            lines = [*lines, *(["sync"] if wants_sync(lines, text) else []), text]
            states.append(lines)
        self.take(states)

    def add_line(self, text: str) -> None:
        """Adds a line that was typed; one of the opening comes before `begin`."""
        first = text.split(" ")[0]
        if "\n" in text or "\r" in text:
            raise Refusal(["one line at a time"])
        if first == "end":
            raise Refusal(["the script's `end` is written by itself"])
        if first in OPENING or text.startswith(INCLUDE):
            if "begin" not in self.lines:
                raise Refusal(["`begin` is in another file, which is included: write the line there"])
            at = self.lines.index("begin")
            self.take([[*self.lines[:at], text, *self.lines[at:]]])
        else:
            self.add([text])

    def motion(self, h: int, v: int) -> None:
        """Moves the cursor, unless it is there."""
        hand = self.hand()
        if hand.at != (h, v):
            self.add([f"motion {hand.time + 1} {h} {v}"])

    def mouse(self, way: str, button: int, h: int, v: int) -> None:
        """A button goes down or up at a place, unless it is so."""
        hand = self.hand()
        if (str(button) in hand.down) == (way == "down"):
            return
        moved = [f"motion {hand.time + 1} {h} {v}"] if hand.at != (h, v) else []
        self.add([*moved, f"mouse {hand.time + 1 + len(moved)} {way} {button}"])

    def key(self, code: int) -> None:
        """A key."""
        self.add([f"key {self.hand().time + 1} {code}"])

    def undo(self) -> None:
        """Takes the last line away: one that was added here, or the last one of the file."""
        if self.before:
            lines = self.before[-1]
        else:
            last = max(at for at, line in enumerate(self.lines) if line and not line.startswith("#"))
            if self.lines[last] == "begin":
                raise Refusal(["there is no step to take away"])
            lines = self.lines[:last]
        trace = self.played(lines)
        del self.before[-1:]
        self.lines, self.last, self.trace = lines, self.trace, trace
        self.version += 1

    def save(self, is_forced: bool) -> None:
        """Writes the script into its file, unless somebody else has written into it meanwhile."""
        try:
            there = self.path.read_bytes() if self.path.exists() else b""
            if there != self.stored and not is_forced:
                raise Refusal([f"{self.path} was changed by somebody else since it was read"])
            script = self.script()
            self.path.write_bytes(script)
        except OSError as error:
            raise Refusal([f"{self.path} cannot be written: {error.strerror}"])
        self.stored = script

    # ---- State

    def hand(self) -> Hand:
        """The last state of the devices."""
        time, at, down = 0, (-1, -1), []
        for moment in self.trace.moments:
            words = self.trace.lines[moment.line - 1].split(" ")
            if words[0] not in DEVICES or moment.answer != "ok":
                continue
            time = int(words[1])
            if words[0] == "motion":
                at = int(words[2]), int(words[3])
            elif words[0] == "mouse":
                down = [it for it in down if it != words[3]] + ([words[3]] if words[2] == "down" else [])
        return Hand(time, at, tuple(down))

    def news(self) -> List[Moment]:
        """The moments that are new in this version."""
        return self.trace.moments[len(self.last.moments) if self.last else 0 :]

    def completions(self, text: str) -> Tuple[List[str], List[str]]:
        """Texts that complete the last word of this one, and the forms that the line may have."""
        windows = Windows()
        for line in self.packed(self.script()).lines:
            windows.add(line)
        return completions(text, windows, self.hand().time + 1)


def is_for_session(packed: Packed) -> bool:
    """Whether a session takes the lines as a script. It doesn't count, and takes a line that begins with ! for a request."""
    words = [line.texts()[0] for line in packed.lines]
    is_short = len(words) <= LINES and len(packed.script) <= TEXT_BYTES
    are_few = words.count("sync") <= SYNCS and sum(word in REPORTS for word in words) <= MOST_REPORTS
    return is_short and are_few and not any(word.startswith("!") for word in words)


def cut_at_end(texts: List[str]) -> Tuple[List[str], List[str]]:
    """The lines before `end`, without the sync that it alone needs, and those behind it."""
    if "end" not in texts:
        return texts, []
    at = texts.index("end")
    before = texts[:at]
    is_needed = bool(before) and before[-1] == "sync" and needs_sync(before[:-1])
    return before[:-1] if is_needed else before, texts[at + 1 :]


def last_word(lines: List[str]) -> str:
    """The first word of the last line that means something."""
    return next((line.split(" ")[0] for line in reversed(lines) if line and not line.startswith("#")), "")


def needs_sync(lines: List[str]) -> bool:
    """Whether a report needs a sync after these lines: they end with a step."""
    return last_word(lines) not in (*REPORTS, "sync", *OPENING, "")


def wants_sync(lines: List[str], text: str) -> bool:
    """Whether a sync comes before a line: a report behind a step, or a step of another actor than the one before it,
    so that the script gives the same by threads."""
    if not text or text.startswith("#") or text == "sync" or not needs_sync(lines):
        return False
    if text.split(" ")[0] in REPORTS:
        return True
    return actor(last_word(lines)) != actor(text.split(" ")[0]) and lines.count("sync") < OWN_SYNCS


def actor(first: str) -> str:
    """Who makes a step that begins with a word: a leaf's client, or the desk."""
    return first if first.startswith("@") else "desk"


# ---- Completion


def completions(text: str, windows: Windows, time: int) -> Tuple[List[str], List[str]]:
    """Texts that complete the last word of this one, and the forms that the line may have."""
    *done, last = text.split(" ")
    forms = [form for form in FORMS if fits(form, done, windows)]
    found = {word for form in forms for word in options(form, done, windows, time) if word.startswith(last)}
    begun = "".join(word + " " for word in done)
    usages = [form.usage() for form in forms if not last or any(it.startswith(last) for it in options(form, done, windows, time))]
    return [begun + word for word in sorted(found)], list(dict.fromkeys(usages or [form.usage() for form in forms if done]))


def fits(form: Form, done: List[str], windows: Windows) -> bool:
    """Whether a line of this form may begin with these words."""
    if form.is_newer and windows.version == 1 or len(done) > len(form.slots):
        return False
    for place, (slot, word) in enumerate(zip(form.slots, done)):
        known = values(slot, place, form, windows)
        if known is not None and word not in known:
            return False
    if form.first == "@" and done and form.slots[1].name in WIDGET_COMMANDS:
        return form.slots[1].name in COMMANDS[windows.names[done[0][1:]].kind]
    return True


def values(slot: Slot, place: int, form: Form, windows: Windows) -> Optional[List[str]]:
    """The words that a place allows, or None if it takes a number, digits or a text."""
    if slot.sort == "fixed":
        return [slot.name]
    if slot.sort == "word":
        return [it for it in slot.options if windows.version > 1 or it not in slot.newer]
    if slot.sort == "leaf":
        names = [name for name, window in windows.names.items() if window.is_leaf]
        return [f"@{name}" for name in names] if form.first == "@" and place == 0 else names
    return list(windows.names) if slot.sort == "name" else None


def options(form: Form, done: List[str], windows: Windows, time: int) -> Iterator[str]:
    """The words that may come next."""
    if len(done) >= len(form.slots):
        return
    slot = form.slots[len(done)]
    if slot.name == "T" and form.first in DEVICES:
        yield str(time)
    yield from values(slot, len(done), form, windows) or []
