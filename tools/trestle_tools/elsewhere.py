"""Words of other tools, and what to write in a script instead."""

from typing import Dict, Optional

CLICK = "a click is `motion T H V`, `mouse T down B` and `mouse T up B`"
DRAG = (
    "a drag is `motion T H V`, `mouse T down B`, further motions and `mouse T up B`: "
    "the window of the press hears of the release"
)
HOVER = "a window hears of the cursor where it asks: `@LEAF cage W E N S WHERE`"
WAIT = "there is no time to wait for: `sync` waits until all steps are done"
SHOT = "the screen is printed by `dump`"
EXPECT = "a script expects nothing: `bin/snap --update FILE` stores what it writes, and `bin/snap FILE` compares"
KEY = "a key is `key T CODE`, with the code of its letter, as 72 for H; it goes to the leaf that owns the selection `key`"
GONE = "a window is taken away by `detach CHILD`"
OFFER = "a leaf offers its value by `@LEAF own source T`, and another one reads it by `@LEAF read source`"
MOVE = "the cursor is moved by `motion T H V`"
FONT = "a letter's picture is a line `glyph HH HEX16`; a line `# include FILE` brings a font, as demos/fonts/ascii.txt"
WINDOW = (
    "a window is declared by `leaf NAME LO PREF HI LO PREF HI WIDGET ..` with content, "
    "or by `node NAME KIND TINT ..` for others in it"
)

WORDS: Dict[str, str] = {
    **dict.fromkeys(("click", "tap", "press", "doubleclick", "dblclick"), CLICK),
    **dict.fromkeys(("drag", "drop", "swipe", "grab", "capture"), DRAG),
    **dict.fromkeys(("hover", "enter", "leave", "mouseover"), HOVER),
    **dict.fromkeys(("wait", "sleep", "delay", "pause", "timeout", "flush_all", "idle"), WAIT),
    **dict.fromkeys(("screenshot", "snapshot", "shot", "snap", "print", "picture"), SHOT),
    **dict.fromkeys(("expect", "assert", "verify", "check", "test"), EXPECT),
    **dict.fromkeys(("type", "keypress", "keydown", "keyup", "send_keys"), KEY),
    **dict.fromkeys(("hide", "remove", "delete", "destroy", "unmap", "close"), GONE),
    **dict.fromkeys(("clipboard", "cut"), OFFER),
    **dict.fromkeys(("mousemove", "cursor", "pointer", "moveto"), MOVE),
    **dict.fromkeys(("font", "include", "import", "#include"), FONT),
    **dict.fromkeys(("window", "widget", "button", "panel", "box", "container"), WINDOW),
    "mousedown": "a button goes down by `mouse T down B`",
    "mouseup": "a button goes up by `mouse T up B`",
    "release": "a button goes up by `mouse T up B`",
    "focus": "the keys go to the leaf that owns the selection `key`: `@LEAF own key T`",
    "scroll": "a typescript scrolls by `@LEAF line STR`; the child of a `translate` moves by `offset NODE DH DV`",
    "raise": "a child of a `z` comes to the front by `lift CHILD`",
    "log": "each step and its answer is printed by `journal`",
    "trace": "each step and its answer is printed by `journal`",
    "row": "a row is `node NAME h TINT`",
    "column": "a column is `node NAME v TINT`",
    "quit": "a script ends by `end`",
    "exit": "a script ends by `end`",
}


def elsewhere(word: str) -> Optional[str]:
    """What to write instead of a word of other tools."""
    return WORDS.get(word.lower())
