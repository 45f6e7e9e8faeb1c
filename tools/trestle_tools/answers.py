"""What an answer of the journal means for the line that it answers, and what to do."""

from typing import Callable, Dict, List, Optional

from .grammar import form_for
from .outputs import Entry
from .scripts import DEPTH
from .windows import Window, Windows

# What a window must be for an edit, by the edit's word.
NEEDED = {
    "border": "a border",
    "offset": "a translate",
    "fix": "a rigid",
    "turn": "a page",
    "show": "a t",
    "shapes": "a leaf",
    "tint": "a node: a leaf has no frame; its colour is its widget's, as `@{name} tint N` of a solid",
}


def meaning(entry: Entry, words: List[str], windows: Windows) -> Optional[str]:
    """Why a step was not answered with ok, as a sentence; None where it was."""
    code, *numbers = entry.answer.split(" ")
    teller = TELLERS.get(code)
    return f"{entry.answer}: {teller(words, windows, numbers)}" if teller else None


def other_kind(words: List[str], windows: Windows, _numbers: List[str]) -> str:
    """N1: an edit asks a window for what its kind doesn't have."""
    window = windows.names[words[1]]
    if words[0] == "attach":
        return f"{windows.names[words[2]].title()}, and a leaf has no children"
    if words[0] in ("move", "lift"):
        parent = window.parent
        return f"only a child of a z has a place and an order; {parent.title() if parent else window.title()}"
    return f"{window.title()}, and `{words[0]}` wants " + NEEDED[words[0]].format(name=window.name)


def no_parent(words: List[str], windows: Windows, _numbers: List[str]) -> str:
    """N6: an edit of a child that is none."""
    window = windows.names[words[1]]
    if words[0] == "show":
        return f"{words[2]} is no child of {words[1]}: `attach {words[2]} {words[1]}` comes first"
    what = "is the root, and" if window is windows.root else "is in no window, and"
    return f"{window.name} {what} `{words[0]}` is for a window that is in another"


def below_itself(words: List[str], _windows: Windows, _numbers: List[str]) -> str:
    """N2: a window would be below itself."""
    if words[1] == words[2]:
        return f"{words[1]} would be in itself"
    return f"{words[2]} is in {words[1]}, which would so be below itself"


def second_child(words: List[str], windows: Windows, _numbers: List[str]) -> str:
    """N3: a filter has its child."""
    parent = windows.names[words[2]]
    child = parent.children[0].name
    return f"{parent.title()} for one child, and has {child}: `detach {child}` first"


def has_parent(words: List[str], windows: Windows, _numbers: List[str]) -> str:
    """N4: the child has a parent, or is the root."""
    window = windows.names[words[1]]
    if not window.parent:
        return f"{window.name} is the root, which is in no window"
    return f"{window.name} is in {window.parent.name} already: `detach {window.name}` first"


def too_deep(words: List[str], _windows: Windows, _numbers: List[str]) -> str:
    """N5: the tree would be too deep."""
    return f"with {words[1]} in {words[2]} the tree would be deeper than {DEPTH} windows"


def time_goes_back(words: List[str], _windows: Windows, numbers: List[str]) -> str:
    """N7: a time that has passed by."""
    now = numbers[0]
    return f"the time {words[1]} goes back, since the devices are at {now}; nothing happened: write {now} or more"


def is_down(words: List[str], _windows: Windows, _numbers: List[str]) -> str:
    """N8: a button goes down twice."""
    return f"button {words[3]} is down already: `mouse {words[1]} up {words[3]}` comes before it"


def is_up(words: List[str], _windows: Windows, _numbers: List[str]) -> str:
    """N9: a button goes up twice."""
    return f"button {words[3]} is not down: `mouse {words[1]} down {words[3]}` comes before it"


def wrong_time(words: List[str], _windows: Windows, numbers: List[str]) -> str:
    """N10: a selection is owned by an event of another time."""
    now, last = numbers
    leaf = words[0][1:]
    if last == "0":
        return f"{leaf} has had no mouse or key event yet: a press in it, or a key for it, comes before"
    if now == last:
        return f"the last event of {leaf} is of {now}, and so are the devices: write `{words[0]} own {words[2]} {now}`"
    return f"the last event of {leaf} is of {last}, and the devices are at {now}: own at the moment of an event"


def no_owner(words: List[str], _windows: Windows, _numbers: List[str]) -> str:
    """N11: another one owns the selection, or nobody."""
    return f"{words[0][1:]} doesn't own `{words[2]}`, so it can't give it up"


def nobody_owns(words: List[str], _windows: Windows, _numbers: List[str]) -> str:
    """N12: a selection without an owner is read."""
    return f"nobody owns `{words[2]}`: a leaf owns it by `@LEAF own {words[2]} T` at the time of a press in it"


def none_waits(words: List[str], _windows: Windows, _numbers: List[str]) -> str:
    """A take without an event."""
    return f"no event waits for {words[0][1:]}: one `take` takes one event"


TELLERS: Dict[str, Callable[[List[str], Windows, List[str]], str]] = {
    "N1": other_kind,
    "N2": below_itself,
    "N3": second_child,
    "N4": has_parent,
    "N5": too_deep,
    "N6": no_parent,
    "N7": time_goes_back,
    "N8": is_down,
    "N9": is_up,
    "N10": wrong_time,
    "N11": no_owner,
    "N12": nobody_owns,
    "empty": none_waits,
}
