"""What is legal in a script and yet hardly meant, line by line."""

from typing import Dict, Generator, Iterator, List, Optional, Tuple

from .answers import meaning
from .contents import WIDGETS, Content
from .grammar import REPORTS, WIDGET_COMMANDS
from .instruments import Body, answers, is_step, peeks
from .looks import Finding, Looks
from .orders import orders
from .outputs import Entry
from .places import Layout
from .scripts import Line, places_of
from .visible import from_leaf, nearest, point_of
from .windows import Window, Windows

# A comment that begins so says that the line below it is meant.
MEANT = "# meant"
# Comments that look as if they included a file.
NEARLY_INCLUDE = ("#include ", "# include:", "#Include ", "# Include ", "# INCLUDE ")
# The widgets that answer a press with a command.
PRESSED = ("canvas",)
# The edits that change one setting of a window, and the others.
SETTINGS = ("tint", "border", "offset", "fix", "move", "turn", "shapes")


# What is said of a step, and in the end why it changes nothing, if so.
Says = Generator[str, None, Optional[str]]


class Press:
    """The last press: its line, where the cursor was, the leaf that got it, if any, and whether its place was told."""

    def __init__(self, line: Line, at: Tuple[int, int], leaf: str):
        self.line, self.at, self.leaf = line, at, leaf
        self.is_told = not leaf


class Play:
    """A script as it is played: its windows, what they hold, which buttons are down, and what nobody has seen."""

    def __init__(self, body: Body):
        self.windows = Windows()
        for line in body.opening:
            self.windows.add(line)
        declared = {line.number: line for line in body.opening}
        self.declared: Dict[str, Line] = {it.name: declared[it.line] for it in self.windows.names.values()}
        self.leaves = [window for window in self.windows.names.values() if window.is_leaf]
        self.contents: Dict[str, Content] = {leaf.name: WIDGETS[leaf.kind](leaf.initial) for leaf in self.leaves}
        self.looks = Looks(self.windows, self.contents, self.declared)
        self.cursor = (-1, -1)
        self.is_moved = False
        self.down: Dict[str, Line] = {}
        self.press: Optional[Press] = None
        # The presses that each leaf was sent, by the event's words, as long as no output tells of them.
        self.presses: Dict[str, Dict[str, Line]] = {}
        # The lines of the devices, and those that own a selection, which were refused, with the answer.
        self.refused: List[Tuple[Line, str]] = []

    # ---- Steps

    def step(self, line: Line, entry: Entry) -> Iterator[str]:
        """Takes over a step, and says what of it is hardly meant."""
        words = line.texts()
        wrong = self.answered(line, entry, words)
        if wrong:
            yield wrong
            self.looks.step(line, False)
            return
        self.made(words)
        if words[0].startswith("@"):
            same = yield from self.client_step(line, words, entry)
        else:
            same = yield from self.desk_step(line, words, entry)
        self.looks.step(line, not same)
        for event in entry.events:
            yield from self.sent(line, event)

    def answered(self, line: Line, entry: Entry, words: List[str]) -> Optional[str]:
        """What is to be said of a step that was not made: why, or on which other line that hangs."""
        wrong = meaning(entry, words, self.windows)
        if not wrong:
            return None
        before = self.cause_before(entry, words)
        if words[0] in ("mouse", "motion", "key") or words[1:2] == ["own"]:
            self.refused.append((line, entry.answer.split(" ")[0]))
        if before:
            return f"{entry.answer}: it follows from {before[0].at()}, which was not made ({before[1]})"
        return self.none_waits(words) if entry.answer == "empty" else wrong

    def cause_before(self, entry: Entry, words: List[str]) -> Optional[Tuple[Line, str]]:
        """The line that was refused before, if this answer follows from it."""
        code = entry.answer.split(" ")[0]
        for line, answer in reversed(self.refused):
            refused = line.texts()
            if code == "empty" and refused[0] == "motion":
                return line, answer
            if code in ("N8", "N9") and refused[0] == "mouse" and refused[3] == words[3] and refused[2] != words[2]:
                return line, answer
            if code == "N10" and answer == "N7" and refused[0] in ("mouse", "key") and refused[1] == words[3]:
                return line, answer
            if code in ("N11", "N12") and refused[1:2] == ["own"] and refused[2] == words[2]:
                return line, answer
            is_last = not self.press or line.number > self.press.line.number
            if code == "empty" and answer == "N7" and refused[0] in ("mouse", "key") and is_last:
                return line, answer
        return None

    def none_waits(self, words: List[str]) -> str:
        """Why a take finds no event: the press before it went elsewhere, or all events were taken."""
        leaf = self.windows.names[words[0][1:]]
        says = f"empty: no event waits for {leaf.name}"
        press = self.press
        if not press or press.leaf == leaf.name:
            return f"{says}: one `take` takes one event"
        says += f", since the press of {press.line.at()} went to {press.leaf or 'nobody'}"
        if not press.is_told:
            layout = Layout(self.windows)
            beside = from_leaf(layout, leaf, *press.at)
            says += ": " + point_of(layout, *press.at) + (f", {beside}" if beside else "")
            press.is_told = True
        return says

    def client_step(self, line: Line, words: List[str], entry: Entry) -> Says:
        """A step of a leaf. It gives back whether it changes nothing."""
        leaf = self.windows.names[words[0][1:]]
        content = self.contents[leaf.name]
        before = content.state()
        same = None
        if words[1] in WIDGET_COMMANDS:
            same = content.change(words[1:])
            if same:
                yield f"it changes nothing: {same}"
        elif words[1] == "take":
            event = entry.answer.split(" ", 1)[1]
            self.taken(leaf, event)
            command = content.answer(event.split(" "))
            if command:
                content.change(command)
        elif words[1] == "cage" and not (int(words[2]) < int(words[3]) and int(words[4]) < int(words[5])):
            says = f"the cage `{' '.join(words[2:6])}` has no point, so that it tells at once"
            yield says + ": the order is W E N S, W below E, N below S"
        if before != content.state():
            undone = self.looks.changed(line, ("content", leaf.name), before, content.state(), False)
            if undone:
                yield undone
        return same

    def desk_step(self, line: Line, words: List[str], entry: Entry) -> Says:
        """A step of the desk. It gives back whether it changes nothing."""
        if words[0] == "mouse":
            yield from self.button(line, words, entry)
        elif words[0] == "motion":
            self.cursor, self.is_moved = (int(words[2]), int(words[3])), True
        elif words[0] == "key":
            yield from self.key(entry)
        else:
            return (yield from self.edit(line, words, entry))
        return None

    def edit(self, line: Line, words: List[str], entry: Entry) -> Says:
        """An edit of the tree. It gives back whether it changes nothing."""
        key = (words[0] if words[0] in SETTINGS else "tree", words[1] if words[0] in SETTINGS else "")
        before = self.value_of(key)
        same = self.windows.edit(words)
        if same:
            yield f"it changes nothing: {same}"
        elif before != self.value_of(key):
            undone = self.looks.changed(line, key, before, self.value_of(key), bool(entry.events))
            if undone:
                yield undone
        return same

    def value_of(self, key: Tuple[str, str]) -> object:
        """What an edit changes: a setting of a window, or the tree and the screen."""
        if key[0] in SETTINGS:
            return tuple(self.windows.names[key[1]].settings.get(key[0], ()))
        children = {it.name: tuple(child.name for child in it.children) for it in self.windows.names.values()}
        shown = tuple((it.name, it.shown()) for it in self.windows.names.values() if it.kind == "t")
        places = tuple((it.name, tuple(it.settings["move"])) for it in self.windows.names.values() if it.parent)
        return tuple(children.items()), shown, places, tuple(self.windows.screen), self.windows.kind

    def key(self, entry: Entry) -> Iterator[str]:
        """A key."""
        if entry.events:
            return
        says = "the key goes to nobody, since no leaf owns the selection `key`"
        owning = [it for it in self.refused if it[0].texts()[1:3] == ["own", "key"]]
        if owning:
            yield f"{says}: it follows from {owning[-1][0].at()}, which was not made ({owning[-1][1]})"
        else:
            yield f"{says}: a leaf owns it by `@LEAF own key T`"

    def button(self, line: Line, words: List[str], entry: Entry) -> Iterator[str]:
        """A button goes down or up."""
        if words[2] == "up":
            self.down.pop(words[3], None)
            return
        if not self.down:
            self.press = Press(line, self.cursor, entry.events[0].split(" ")[0] if entry.events else "")
            if not entry.events:
                yield "the press goes to nobody: " + self.miss()
        self.down[words[3]] = line

    def miss(self) -> str:
        """Where the cursor is when a press goes to nobody."""
        refused = [it for it in self.refused if it[0].texts()[0] == "motion"]
        if refused:
            return f"it follows from {refused[-1][0].at()}, which was not made ({refused[-1][1]})"
        if not self.is_moved:
            return "the cursor is off the screen, where it is before the first `motion T H V`: put one before it"
        layout = Layout(self.windows)
        near = nearest(layout, self.leaves, *self.cursor)
        return point_of(layout, *self.cursor) + (f", {near}" if near else "; no leaf is seen")

    def made(self, words: List[str]) -> None:
        """A step that was made: what was refused of the same button or selection before is no cause any more."""
        if words[0] == "mouse":
            self.refused = [it for it in self.refused if it[0].texts()[0] != "mouse" or it[0].texts()[3] != words[3]]
        elif words[0] == "motion":
            self.refused = [it for it in self.refused if it[0].texts()[0] != "motion"]
        elif words[1:2] == ["own"]:
            self.refused = [it for it in self.refused if it[0].texts()[1:3] != ["own", words[2]]]

    def sent(self, line: Line, event: str) -> Iterator[str]:
        """An event that a step sent."""
        name, words = event.split(" ", 1)
        if words.startswith("dropped "):
            yield f"the event for {name} was dropped: 64 wait for it already, and `@{name} take` takes one"
        elif words.startswith("mouse ") and words.split(" ")[2] == "firstdown":
            self.presses.setdefault(name, {})[words] = line

    # ---- What tells of a press

    def taken(self, leaf: Window, event: str) -> None:
        """A leaf takes an event; where it answers a press, the picture tells."""
        if leaf.kind in PRESSED:
            self.presses.get(leaf.name, {}).pop(event, None)

    def report(self, line: Line, words: List[str]) -> None:
        """A report: a journal tells of all presses, an inbox of those of a leaf."""
        if words[0] == "journal":
            self.presses.clear()
        elif words[0] == "inbox":
            self.presses.pop(words[1], None)
        self.looks.report(line, words)

    # ---- The end

    def end(self) -> Iterator[Finding]:
        """What is hardly meant when all is over."""
        for button, line in self.down.items():
            yield Finding(line, f"button {button} is still down at the end: " + self.never_up(button, line))
        for name, presses in self.presses.items():
            for line in presses.values():
                yield Finding(line, unseen(self.windows.names[name]))
        for window in self.windows.names.values():
            if window.name not in self.windows.placed:
                yield Finding(self.declared[window.name], unplaced(window))
        yield from self.looks.end()

    def never_up(self, button: str, down: Line) -> str:
        """Why a button never goes up."""
        for line, answer in self.refused:
            if line.number > down.number and line.texts()[0] == "mouse" and line.texts()[2:] == ["up", button]:
                return f"{line.at()} was not made ({answer})"
        return f"`mouse T up {button}` is missing"


def unseen(leaf: Window) -> str:
    """That no output hangs on a press."""
    why = f"{leaf.name} doesn't take it" if leaf.kind in PRESSED else f"{leaf.title()}, and answers no press"
    says = f"no output tells whether the press reached {leaf.name}: {why}"
    return says + f"; put `inbox {leaf.name}` or `journal` behind it"


def unplaced(window: Window) -> str:
    """That a window was never below the root."""
    top = list(window.above())[-1]
    where = f", since {top.name} wasn't" if top is not window else ""
    return f"{window.name} was never put below the root{where}, so it shows nowhere: `put {top.name} PARENT`"


def findings_of(lines: List[Line], body: Body) -> Tuple[List[Finding], List[str]]:
    """All that is hardly meant, in the order of the lines, and what was not looked at; what a comment above says is meant
    is left out."""
    play = Play(body)
    made = answers(body)
    entries = iter(made)
    found: List[Finding] = list(comments(lines))
    for line in body.lines:
        if is_step(line):
            found += [Finding(line, says) for says in play.step(line, next(entries))]
        else:
            play.report(line, line.texts())
    found += play.end()
    found += no_report(lines, body)
    hanging, untried = orders(body, made)
    found += hanging
    meant = {line.number + 1 for line in lines if line.text.startswith(MEANT)}
    found = [it for it in found if it.line.number not in meant]
    found += in_one([it for it in lagging_dumps(body) if it.line.number not in meant])
    return sorted(dict.fromkeys(found), key=lambda it: it.line.number), untried


def comments(lines: List[Line]) -> Iterator[Finding]:
    """Comments that look as if they included a file."""
    for line in lines:
        if line.text.startswith(NEARLY_INCLUDE):
            yield Finding(line, "it includes nothing: the line is `# include FILE`")


def no_report(lines: List[Line], body: Body) -> Iterator[Finding]:
    """That nothing is looked at."""
    if all(line.texts()[0] not in REPORTS for line in body.lines):
        end = [line for line in lines if line.text == "end"][-1]
        yield Finding(end, "the script has no report, so it prints nothing: put a `dump` before it")


def lagging_dumps(body: Body) -> Iterator[Finding]:
    """Dumps before which something waits or is stale, and no peek tells so."""
    items = body.steps_and_dumps()
    peeked = peeked_dumps(body)
    places = {place for place, line in enumerate(items) if line.text == "dump" and line.number not in peeked}
    for place, peek in sorted(peeks(body, places).items()) if places else ():
        lag = lag_of(peek.waiting, peek.stale)
        if lag:
            yield Finding(items[place], f"before this dump {lag}, which it shows as painted")


def in_one(dumps: List[Finding]) -> List[Finding]:
    """The first of these dumps, with the lines of the others: the remedy is the same for all."""
    if not dumps:
        return []
    more = places_of([it.line for it in dumps[1:]])
    before = f" (so also before the dump{'s' * (len(dumps) > 2)} of {more})" if more else ""
    remedy = ": put `peek` before it, or paint by `@LEAF flush` and `sync`"
    return [Finding(dumps[0].line, dumps[0].says + before + remedy)]


def lag_of(waiting: int, stale: int) -> Optional[str]:
    """What isn't painted yet, in words."""
    commands = "1 paint command waits" if waiting == 1 else f"{waiting} paint commands wait"
    points = "1 point is stale" if stale == 1 else f"{stale} points are stale"
    return " and ".join([commands] * (waiting > 0) + [points] * (stale > 0)) or None


def peeked_dumps(body: Body) -> List[int]:
    """The lines of dumps that follow a peek, with nothing but reports between."""
    found, peeked = [], False
    for line in body.lines:
        word = line.texts()[0]
        if word == "dump" and peeked:
            found.append(line.number)
        peeked = word == "peek" or peeked and word in REPORTS
    return found
