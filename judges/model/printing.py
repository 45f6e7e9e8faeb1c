"""What a script prints, by a plain and slow model: each point of the screen for itself.

It is written from docs/SCRIPT.md, as `reader` is, and shares nothing with the program. It knows no pixels: of each point
it keeps whether it is bad, and of each window the content that it shows and what waits to be painted. Meant for small
screens; `output_of` answers nothing for larger ones."""

from typing import Dict, Iterator, List, NamedTuple, Optional, Set, Tuple

from .widgets import WIDGETS, Paint, Rect, Widget, effect, has, is_opaque, meet, rect_of, whole

Point = Tuple[int, int]
# A point's window: a leaf with its point, its size and the kind, or a frame with its tint and the kind.
Spot = Tuple[object, ...]

EMPTY: Rect = (0, 0, 0, 0)
OFF: Spot = ("off",)
MOST = 4096
INBOX = 64
FILTERS = ("border", "rigid", "translate")
# So many points a screen may have here.
POINTS = 1000
REPORTS = ("dump", "peek", "where", "inbox", "journal")
BOTH_LOCKS = ("mark", "take", "cage", "free", "own", "disown", "read")


class TooLarge(Exception):
    """The screen is too large for the model."""


class Fault(Exception):
    """Why a step is refused, as the journal has it."""


class Node:
    """A window: a node with its kind and its values, or a leaf."""

    def __init__(self, name: str, kind: str, tint: int, values: List[str]):
        self.name = name
        self.kind = kind
        self.tint = tint
        self.values = values
        self.parent: Optional[Node] = None
        self.children: List[Node] = []
        self.at = (0, 0)
        self.page = 0
        self.shown: Optional[Node] = None
        self.lengths = (0, 0, 0, 0, 0, 0)
        self.leaf: Optional[int] = None

    def top_down(self) -> Iterator["Node"]:
        """It, and what is below it."""
        yield self
        for child in self.children:
            yield from child.top_down()

    def depth(self) -> int:
        """How deep it hangs, from 1."""
        return 1 if self.parent is None else 1 + self.parent.depth()

    def height(self) -> int:
        """How many levels it has."""
        return 1 + max((child.height() for child in self.children), default=0)


# ---- Shapes: the least, the preferred and the greatest length, across and then down


def shape(node: Node) -> Tuple[int, ...]:
    """What a node wants."""
    found = raw_shape(node, [shape(child) for child in node.children])
    return tuple(min(MOST, length) for length in found)


def raw_shape(node: Node, shapes: List[Tuple[int, ...]]) -> List[int]:
    """What a node wants whose children want these, before it is cut to the greatest length."""
    sums = [sum(it[k] for it in shapes) for k in range(6)]
    most = [max((it[k] for it in shapes), default=0) for k in range(6)]
    if node.leaf is not None:
        return list(node.lengths)
    if node.kind == "h":
        return sums[:3] + most[3:]
    if node.kind == "v":
        return most[:3] + sums[3:]
    if node.kind in ("z", "t"):
        return most
    if node.kind == "page":
        return most[:3] + [int(node.values[0]) * length for length in most[3:]]
    if node.kind == "border":
        return [length + 2 * int(node.values[0]) for length in most]
    if node.kind == "rigid":
        return [int(node.values[0])] * 3 + [int(node.values[1])] * 3
    if node.kind == "translate":
        return [0, most[1], MOST, 0, most[4], MOST]
    return packed_shape(node, sums, most)


def packed_shape(node: Node, sums: List[int], most: List[int]) -> List[int]:
    """What a pack wants."""
    if not node.children:
        return [0] * 6
    gaps = int(node.values[1]) * (len(node.children) - 1)
    if node.values[0] == "across":
        return [most[0], sums[1] + gaps, MOST, most[3], most[4], MOST]
    return [most[0], most[1], MOST, most[3], sums[4] + gaps, MOST]


# ---- Places


def cut(west: int, east: int, north: int, south: int) -> Rect:
    """A rectangle; all without a point are one."""
    return (west, east, north, south) if west < east and north < south else EMPTY


def places(node: Node, room: Rect) -> List[Rect]:
    """Where the children of a node lie that lies there."""
    shapes = [shape(child) for child in node.children]
    if room == EMPTY or not shapes:
        return [EMPTY] * len(shapes)
    west, east, north, south = room
    if node.kind == "h":
        return [cut(a, b, north, south) for a, b in dealt(west, east - west, [it[:3] for it in shapes])]
    if node.kind == "v":
        return [cut(west, east, a, b) for a, b in dealt(north, south - north, [it[3:] for it in shapes])]
    if node.kind == "z":
        return [sized((west + child.at[0], north + child.at[1]), it) for child, it in zip(node.children, shapes)]
    if node.kind == "t":
        shown = node.shown or (node.children[0] if node.children else None)
        return [room if child is shown else EMPTY for child in node.children]
    if node.kind == "page":
        return paged(node, room)
    if node.kind == "border":
        wide = int(node.values[0])
        return [cut(west + wide, east - wide, north + wide, south - wide)] * len(shapes)
    if node.kind == "rigid":
        return [room] * len(shapes)
    if node.kind == "translate":
        return [sized((west + int(node.values[0]), north + int(node.values[1])), it) for it in shapes]
    if node.values[0] == "across":
        return packed(room, [(it[1], it[4]) for it in shapes], int(node.values[1]))
    turned = packed((north, south, west, east), [(it[4], it[1]) for it in shapes], int(node.values[1]))
    return [EMPTY if it == EMPTY else (it[2], it[3], it[0], it[1]) for it in turned]


def sized(corner: Point, wanted: Tuple[int, ...]) -> Rect:
    """A rectangle of the preferred size."""
    return cut(corner[0], corner[0] + wanted[1], corner[1], corner[1] + wanted[4])


def dealt(begin: int, left: int, wanted: List[Tuple[int, ...]]) -> List[Tuple[int, int]]:
    """Lengths that are dealt out in three rounds, one behind another."""
    lengths = [0] * len(wanted)
    for place in range(3):
        for child, it in enumerate(wanted):
            more = min(left, it[place] - lengths[child]) if it[place] > lengths[child] else 0
            lengths[child] += more
            left -= more
    ends = [begin + sum(lengths[: child + 1]) for child in range(len(wanted))]
    return [(end - length, end) for end, length in zip(ends, lengths)]


def paged(node: Node, room: Rect) -> List[Rect]:
    """The children of the page that is shown, in strips."""
    west, east, north, south = room
    per = int(node.values[0])
    high = (south - north) // per
    found = []
    for number in range(len(node.children)):
        strip = number - node.page * per
        begin = north + strip * high
        found.append(cut(west, east, begin, begin + high) if 0 <= strip < per else EMPTY)
    return found


def packed(room: Rect, wanted: List[Tuple[int, int]], gap: int) -> List[Rect]:
    """Children in rows from west to east."""
    west, east, north, south = room
    found: List[Rect] = []
    across, down, tallest, is_first = west, north, 0, True
    for wide, high in wanted:
        wide = min(wide, east - west)
        if not is_first and across + gap + wide > east:
            down, across, tallest, is_first = min(down + tallest + gap, south), west, 0, True
        begin = across if is_first else across + gap
        found.append(meet(cut(begin, begin + wide, down, down + high), room))
        across, tallest, is_first = begin + wide, max(tallest, high), False
    return found


# ---- The tree


class Tree:
    """All windows, and which window each point of the screen belongs to."""

    def __init__(self) -> None:
        self.nodes: Dict[str, Node] = {}
        self.leaves: List[Node] = []
        self.root: Optional[Node] = None
        self.size = (0, 0)
        self.kind = "map8"
        self.domains: Dict[str, Rect] = {}
        self.spots: Dict[Point, Spot] = {}

    def add(self, node: Node) -> None:
        """Adds a window."""
        self.nodes[node.name] = node

    def lay_out(self) -> None:
        """Finds all places, and the window of each point."""
        if self.size[0] * self.size[1] > POINTS:
            raise TooLarge()
        self.domains = {name: EMPTY for name in self.nodes}
        if self.root is not None:
            self.place(self.root, (0, self.size[0], 0, self.size[1]))
        self.spots = {(h, v): self.spot_from(self.root, (h, v)) for v in range(self.size[1]) for h in range(self.size[0])}

    def place(self, node: Node, room: Rect) -> None:
        """Places a node, and what is below it."""
        self.domains[node.name] = room
        for child, rect in zip(node.children, places(node, room)):
            self.place(child, rect)

    def spot_from(self, node: Optional[Node], p: Point) -> Spot:
        """Whose point it is, by a walk from a node that has it."""
        assert node is not None
        if node.leaf is not None:
            domain = self.domains[node.name]
            return ("leaf", node.leaf, p[0] - domain[0], p[1] - domain[2], size_of(domain), self.kind)
        for child in node.children:
            if has(self.domains[child.name], p):
                return self.spot_from(child, p)
        return ("frame", node.name, node.tint, self.kind)

    def spot(self, p: Point) -> Spot:
        """Whose point it is."""
        return self.spots.get(p, OFF)

    def leaf_size(self, leaf: int) -> Point:
        """The size of a leaf."""
        return size_of(self.domains[self.leaves[leaf].name])

    def origin(self, leaf: int) -> Point:
        """The corner of a leaf."""
        domain = self.domains[self.leaves[leaf].name]
        return domain[0], domain[2]


def size_of(rect: Rect) -> Point:
    """The size of a rectangle."""
    return rect[1] - rect[0], rect[3] - rect[2]


def attach_fault(tree: Tree, child: Node, parent: Node) -> Optional[int]:
    """Why a window can't become a child of another."""
    if parent.leaf is not None:
        return 1
    if parent in child.top_down():
        return 2
    if parent.kind in FILTERS and parent.children:
        return 3
    if child.parent is not None or child is tree.root:
        return 4
    return 5 if parent.depth() + child.height() > 16 else None


def attach(child: Node, parent: Node, at: Point) -> None:
    """Makes a window a child."""
    child.parent, child.at = parent, at
    parent.children.insert(0 if parent.kind == "z" else len(parent.children), child)


class Event(NamedTuple):
    """An event, by its text; a mouse or key event with its time, by which a window may own a selection."""

    text: str
    time: Optional[int] = None


class Cage(NamedTuple):
    """A rectangle, and whether the cursor may be here, gone, or both."""

    rect: Rect
    where: str

    def holds(self, at: Point, is_gone: bool) -> bool:
        """Whether a position is nothing new."""
        return has(self.rect, at) and self.where in ("both", "gone" if is_gone else "here")


class Leaf:
    """What the model keeps of a leaf."""

    def __init__(self, content: Widget):
        self.shown = content
        self.content = content
        self.batch: List[Paint] = []
        self.inbox: List[Event] = []
        self.dropped = 0
        self.cage: Optional[Cage] = None
        self.last = 0


class Model:
    """Plays a script."""

    def __init__(self, is_check: bool) -> None:
        self.is_check = is_check
        self.tree = Tree()
        self.font: Dict[int, List[int]] = {}
        self.leaves: List[Leaf] = []
        self.bad: Set[Point] = set()
        self.cursor = (-1, -1)
        self.time = 0
        self.held: Set[int] = set()
        self.focus: Optional[int] = None
        self.owners: Dict[str, int] = {}
        self.journal: List[str] = []
        self.sent: List[str] = []
        self.output: List[str] = []
        self.is_open = True

    # ---- Lines

    def line(self, text: str) -> None:
        """Follows a line of the script."""
        words = text.split(" ")
        if self.is_open:
            self.declare(words, text)
        elif words[0].startswith("@"):
            self.client(words[0][1:], text.split(" ", 1)[1])
        elif words[0] in REPORTS:
            self.report(words, text)
        elif words[0] == "sync":
            self.enter("player", "mu", "sync", "ok", is_quiet=True)
        elif words[0] != "end":
            self.desk(words)

    def declare(self, words: List[str], text: str) -> None:
        """A line of the opening."""
        tree, first = self.tree, words[0]
        if first == "screen":
            tree.size, tree.kind = (int(words[1]), int(words[2])), words[3]
        elif first == "glyph":
            self.font[int(words[1], 16)] = list(bytes.fromhex(words[2]))
        elif first == "node":
            tree.add(Node(words[1], words[2], int(words[3]), words[4:]))
        elif first == "leaf":
            node = Node(words[1], words[8], 0, [])
            node.lengths = tuple(map(int, words[2:8]))
            node.leaf = len(tree.leaves)
            tree.add(node)
            tree.leaves.append(node)
            self.leaves.append(Leaf(WIDGETS[words[8]](text.split(" ", 9)[9:])))
        elif first == "put":
            attach(tree.nodes[words[1]], tree.nodes[words[2]], point_of(words[3:] or ["0", "0"]))
        elif first == "root":
            tree.root = tree.nodes[words[1]]
        elif first == "begin":
            self.is_open = False
            tree.lay_out()
            self.bad = set(tree.spots)

    def enter(self, actor: str, levels: str, step: str, answer: str, is_quiet: bool = False) -> None:
        """Writes an entry of the journal, and for a check how far the screen lags."""
        number = len(self.journal) + 1
        sent = "".join(f"; {it}" for it in self.sent)
        self.sent = []
        self.journal.append(f"{number} {actor} {levels} {step} = {answer}{sent}")
        if self.is_check and not is_quiet:
            self.output.append(f"step {number} bad {len(self.bad)} stale {self.stale()} outside 0")

    # ---- Clients

    def client(self, name: str, text: str) -> None:
        """A line of a client."""
        node = self.tree.nodes[name]
        word, words = text.split(" ")[0], text.split(" ")
        levels = f"mu,win:{name}" if word in BOTH_LOCKS else "mu" if word in ("flush", "force") else f"win:{name}"
        assert node.leaf is not None
        leaf = self.leaves[node.leaf]
        if word in ("mark", "cage"):
            rect = rect_of(words[1:5])
            text = " ".join([word, *map(str, rect), *words[5:]])
        elif word not in (*BOTH_LOCKS, "flush", "force"):
            text = leaf.content.printed(text)
        try:
            answer = self.client_step(node.leaf, word, words, text)
        except Fault as fault:
            answer = str(fault)
        self.enter(f"leaf:{name}", levels, text, answer)

    def client_step(self, number: int, word: str, words: List[str], text: str) -> str:
        """Makes a client's step; what it is answered."""
        leaf = self.leaves[number]
        if word == "mark":
            area = meet(rect_of(words[1:5]), whole(self.tree.leaf_size(number)))
            self.wait(leaf, [("spoil", area)])
        elif word == "flush":
            self.flush(number)
        elif word == "force":
            self.repaint(number)
        elif word == "take":
            return self.take(number)
        elif word in ("cage", "free"):
            leaf.cage = Cage(rect_of(words[1:5]), words[5]) if word == "cage" else None
            self.tell_positions()
        elif word == "own":
            self.own(number, words[1], int(words[2]))
        elif word == "disown":
            if self.owners.get(words[1]) != number:
                raise Fault("N11")
            del self.owners[words[1]]
        elif word == "read":
            if words[1] not in self.owners:
                raise Fault("N12")
            value = self.leaves[self.owners[words[1]]].content.value()
            return f"value {value}" if value else "value"
        else:
            self.act(number, text)
        return "ok"

    def act(self, number: int, text: str) -> None:
        """Changes a content; the painting waits."""
        leaf = self.leaves[number]
        size = self.tree.leaf_size(number)
        changed = leaf.content.changed(text)
        self.wait(leaf, leaf.content.patch(text, changed, size) if size != (0, 0) else [])
        leaf.content = changed

    def wait(self, leaf: Leaf, paints: List[Paint]) -> None:
        """Paint commands wait, but for those without a point."""
        leaf.batch += [paint for paint in paints if paint[1] != EMPTY]

    def take(self, number: int) -> str:
        """Takes an event, and obeys what the widget makes of it."""
        leaf = self.leaves[number]
        if not leaf.inbox:
            return "empty"
        event = leaf.inbox.pop(0)
        command = leaf.content.answer(event.text.split(" "))
        if command is not None:
            self.act(number, command)
        return f"took {event.text}"

    def own(self, number: int, selection: str, time: int) -> None:
        """Owns a selection."""
        last = self.leaves[number].last
        if time != self.time or time != last:
            raise Fault(f"N10 {self.time} {last}")
        old = self.owners.get(selection)
        self.owners[selection] = number
        if old not in (None, number):
            self.send(old, Event(f"lost {selection}"))

    # ---- Painting

    def visible(self, number: int) -> Dict[Point, Point]:
        """The visible points of a leaf, each with its point of the leaf."""
        return {p: (spot[2], spot[3]) for p, spot in self.tree.spots.items() if spot[:2] == ("leaf", number)}

    def flush(self, number: int) -> None:
        """Executes what waits: which points are known then."""
        leaf, visible = self.leaves[number], self.visible(number)
        seen = set(visible.values())
        known = {q for p, q in visible.items() if p not in self.bad}
        for paint in leaf.batch:
            known = known_after(paint, known, seen)
        for p, q in visible.items():
            self.bad.discard(p)
            if q not in known:
                self.bad.add(p)
        leaf.batch, leaf.shown = [], leaf.content

    def repaint(self, number: int) -> None:
        """Executes what waits, and paints what is bad."""
        self.flush(number)
        self.bad -= set(self.visible(number))

    def settle(self) -> None:
        """The painter's steps before a dump."""
        leaves = [
            number
            for number, leaf in enumerate(self.leaves)
            if leaf.batch or not self.bad.isdisjoint(self.visible(number))
        ]
        frames = {p for p, spot in self.tree.spots.items() if spot[0] == "frame"} & self.bad
        for number in leaves:
            self.repaint(number)
            self.enter("painter", "mu", f"repaint {self.tree.leaves[number].name}", "ok")
        if frames:
            self.bad -= frames
            self.enter("painter", "mu", "frame", "ok")

    def stale(self) -> int:
        """How many good points show an old picture."""
        count = 0
        for number, leaf in enumerate(self.leaves):
            if leaf.content is not leaf.shown:
                size = self.tree.leaf_size(number)
                for p, q in self.visible(number).items():
                    if p not in self.bad:
                        count += self.colour(leaf.shown, size, q) != self.colour(leaf.content, size, q)
        return count

    def colour(self, content: Widget, size: Point, q: Point) -> int:
        """The colour of a point of a content."""
        return content.picture(self.tree.kind, self.font, size, q)

    def wanted(self, p: Point) -> int:
        """The colour of a point of the screen, painted from nothing."""
        spot = self.tree.spots[p]
        if spot[0] == "leaf":
            return self.colour(self.leaves[spot[1]].content, spot[4], (spot[2], spot[3]))
        return effect(self.tree.kind, ("set", spot[2]), 0)

    # ---- The desk

    def desk(self, words: List[str]) -> None:
        """A line of the input devices, or an edit."""
        text = " ".join(words)
        if words[0] == "attach" and len(words) == 3:
            text += " 0 0"
        try:
            if words[0] in ("mouse", "motion", "key"):
                self.device(words)
            else:
                self.edit(words)
            answer = "ok"
        except Fault as fault:
            answer = str(fault)
        self.enter("desk", "mu", text, answer)

    def device(self, words: List[str]) -> None:
        """An input device."""
        time = int(words[1])
        if time < self.time:
            raise Fault(f"N7 {self.time}")
        if words[0] == "mouse":
            self.mouse(time, words[2] == "down", int(words[3]))
            return
        self.time = time
        if words[0] == "motion":
            self.cursor = point_of(words[2:])
            self.tell_positions()
        elif "key" in self.owners:
            self.send(self.owners["key"], Event(f"key {time} {words[2]}", time))

    def mouse(self, time: int, is_down: bool, button: int) -> None:
        """A button."""
        if is_down == (button in self.held):
            raise Fault("N8" if is_down else "N9")
        self.time = time
        before = bool(self.held)
        self.held ^= {button}
        if is_down:
            click = "otherdown" if before else "firstdown"
        else:
            click = "otherup" if self.held else "lastup"
        if click == "firstdown":
            spot = self.tree.spot(self.cursor)
            self.focus = spot[1] if spot[0] == "leaf" else None
        if self.focus is not None:
            h, v = self.from_corner(self.focus)
            self.send(self.focus, Event(f"mouse {time} {click} {button} {h} {v}", time))
        if click == "lastup":
            self.focus = None

    def from_corner(self, number: int) -> Point:
        """The cursor, relative to a leaf's corner."""
        corner = self.tree.origin(number)
        return self.cursor[0] - corner[0], self.cursor[1] - corner[1]

    def tell_positions(self) -> None:
        """Tells each leaf that waits for it that the cursor has left its cage."""
        spot = self.tree.spot(self.cursor)
        for number, leaf in enumerate(self.leaves):
            at, is_gone = self.from_corner(number), spot[:2] != ("leaf", number)
            if leaf.cage is not None and not leaf.cage.holds(at, is_gone):
                leaf.cage = None
                self.send(number, Event(f"position {self.time} {at[0]} {at[1]} {'gone' if is_gone else 'here'}"))

    def send(self, number: int, event: Event) -> None:
        """Sends an event to a leaf."""
        leaf, name = self.leaves[number], self.tree.leaves[number].name
        if len(leaf.inbox) >= INBOX:
            leaf.dropped += 1
            self.sent.append(f"{name} dropped {event.text}")
            return
        leaf.inbox.append(event)
        self.sent.append(f"{name} {event.text}")
        if event.time is not None:
            leaf.last = event.time

    # ---- Edits

    def edit(self, words: List[str]) -> None:
        """An edit of the tree, and what becomes of the screen."""
        fault = self.edit_fault(words)
        if fault is not None:
            raise Fault(f"N{fault}")
        tree = self.tree
        old_spots, old_kind = tree.spots, tree.kind
        old_domains = dict(tree.domains)
        moved = self.moved_child(words)
        self.change(words)
        tree.lay_out()
        below = {node.name for node in moved.top_down()} if moved is not None else set()
        delta = (0, 0)
        if moved is not None:
            was, now = old_domains[moved.name], tree.domains[moved.name]
            delta = (now[0] - was[0], now[2] - was[2])
        good = {p for p, spot in tree.spots.items() if self.stays_good(p, spot, old_spots, below, delta, old_kind)}
        self.bad = set(tree.spots) - good
        for number, leaf in enumerate(self.leaves):
            size = tree.leaf_size(number)
            if size != size_of(old_domains[tree.leaves[number].name]) or tree.kind != old_kind:
                leaf.shown, leaf.batch = leaf.content, []
                self.send(number, Event(f"reshape {size[0]} {size[1]} {tree.kind}"))
        self.tell_positions()

    def stays_good(self, p: Point, spot: Spot, old: Dict[Point, Spot], below: Set[str], delta: Point, kind: str) -> bool:
        """Whether a point of the new screen is good."""
        name = self.tree.leaves[spot[1]].name if spot[0] == "leaf" else spot[1]
        source = (p[0] - delta[0], p[1] - delta[1]) if name in below else p
        if source not in old or source in self.bad:
            return False
        was = old[source]
        if was == spot:
            return True
        if kind != self.tree.kind or spot[0] != "leaf" or was[:4] != spot[:4]:
            return False
        leaf, q = self.leaves[spot[1]], (spot[2], spot[3])
        return has(leaf.content.keeps(was[4], spot[4]), q) and not any(has(paint[1], q) for paint in leaf.batch)

    def moved_child(self, words: List[str]) -> Optional[Node]:
        """The child that an edit moves, where it has points."""
        node = None
        if words[0] == "move":
            node = self.tree.nodes[words[1]]
        elif words[0] == "offset":
            node = next(iter(self.tree.nodes[words[1]].children), None)
        return node if node is not None and self.tree.domains[node.name] != EMPTY else None

    def edit_fault(self, words: List[str]) -> Optional[int]:
        """Why an edit is refused."""
        word, nodes = words[0], self.tree.nodes
        if word in ("resize", "rescreen"):
            return None
        node = nodes[words[1]]
        if word == "attach":
            return attach_fault(self.tree, node, nodes[words[2]])
        if word == "detach":
            return 6 if node.parent is None else None
        if word == "tint":
            return 1 if node.leaf is not None else None
        if word in ("border", "offset", "fix", "turn"):
            wanted = {"border": "border", "offset": "translate", "fix": "rigid", "turn": "page"}[word]
            return 1 if node.leaf is not None or node.kind != wanted else None
        if word in ("move", "lift"):
            return 6 if node.parent is None else 1 if node.parent.kind != "z" else None
        if word == "show":
            if node.leaf is not None or node.kind != "t":
                return 1
            return 6 if nodes[words[2]].parent is not node else None
        return 1 if node.leaf is None else None

    def change(self, words: List[str]) -> None:
        """Makes an edit that has no fault."""
        word, tree = words[0], self.tree
        if word == "resize":
            tree.size = point_of(words[1:])
            return
        if word == "rescreen":
            tree.kind = words[1]
            return
        node = tree.nodes[words[1]]
        if word == "attach":
            attach(node, tree.nodes[words[2]], point_of(words[3:] or ["0", "0"]))
        elif word == "detach":
            self.detach(node)
        elif word == "tint":
            node.tint = int(words[2])
        elif word in ("border", "offset", "fix"):
            node.values = words[2:]
        elif word == "turn":
            node.page = int(words[2])
        elif word == "move":
            node.at = point_of(words[2:])
        elif word == "lift":
            assert node.parent is not None
            node.parent.children.remove(node)
            node.parent.children.insert(0, node)
        elif word == "show":
            node.shown = tree.nodes[words[2]]
        else:
            node.lengths = tuple(map(int, words[2:8]))

    def detach(self, node: Node) -> None:
        """A window hangs nowhere."""
        parent = node.parent
        assert parent is not None
        parent.children.remove(node)
        if parent.shown is node:
            parent.shown = None
        node.parent = None

    # ---- Reports

    def report(self, words: List[str], text: str) -> None:
        """A report, and its entry."""
        if words[0] == "dump":
            self.settle()
        getattr(self, f"tell_{words[0]}")(words)
        self.enter("player", "mu", text, "ok", is_quiet=True)

    def tell_dump(self, _words: List[str]) -> None:
        """The screen."""
        wide, high = self.tree.size
        self.output.append(f"dump {wide} {high} {self.tree.kind}")
        for v in range(high):
            self.output.append("".join(f"{self.wanted((h, v)):02x}" for h in range(wide)))

    def tell_peek(self, _words: List[str]) -> None:
        """How far the screen lags."""
        waiting = sum(len(leaf.batch) for leaf in self.leaves)
        self.output.append(f"peek bad {len(self.bad)} waiting {waiting} stale {self.stale()}")

    def tell_where(self, words: List[str]) -> None:
        """Whose point it is."""
        spot = self.tree.spot(point_of(words[1:]))
        told = "off"
        if spot[0] == "leaf":
            told = f"leaf {self.tree.leaves[spot[1]].name} {spot[2]} {spot[3]}"
        elif spot[0] == "frame":
            told = f"frame {spot[1]}"
        self.output.append(f"{' '.join(words)} {told}")

    def tell_inbox(self, words: List[str]) -> None:
        """What waits for a leaf."""
        number = self.tree.nodes[words[1]].leaf
        assert number is not None
        leaf = self.leaves[number]
        self.output.append(f"inbox {words[1]} waiting {len(leaf.inbox)} dropped {leaf.dropped}")
        self.output += [event.text for event in leaf.inbox]

    def tell_journal(self, _words: List[str]) -> None:
        """All entries so far."""
        self.output.append(f"journal {len(self.journal)}")
        self.output += self.journal


def known_after(paint: Paint, known: Set[Point], seen: Set[Point]) -> Set[Point]:
    """Which points are known after a paint command, of those that are seen."""
    area = {q for q in seen if has(paint[1], q)}
    if paint[0] == "spoil":
        return known - area
    if paint[0] == "scroll":
        dh, dv = paint[2]
        return (known - area) | {q for q in area if (q[0] - dh, q[1] - dv) in known}
    return known | area if is_opaque(paint) else known


def point_of(words: List[str]) -> Point:
    """A point by two words."""
    return int(words[0]), int(words[1])


def output_of(script: bytes, word: str = "serial") -> Optional[bytes]:
    """What a script prints that is one; None where its screen is too large."""
    model = Model(word == "check")
    try:
        for line in script.decode("ascii").split("\n"):
            if line and not line.startswith("#"):
                model.line(line)
    except TooLarge:
        return None
    return "".join(line + "\n" for line in model.output).encode("ascii")
