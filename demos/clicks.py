#!/usr/bin/env python3
"""A game of clicks: hit the square. It drives the core by a session, and the core decides whether a click hits the square's
window. Type two numbers for each click, across and down; an empty line ends the game.

    demos/clicks.py                  plays with you
    printf '5 3\\n9 2\\n' | demos/clicks.py"""

import random
import sys
from pathlib import Path

TOP = Path(__file__).resolve().parents[1]
# (in a checkout, and where it was installed)
sys.path[:0] = [str(TOP / "tools"), str(TOP / "../../lib/trestle/tools")]

from trestle_tools.session import Refused, Session  # noqa: E402

WIDTH, HEIGHT, SIDE = 24, 10, 4

OPENING = f"""trestle 1
screen {WIDTH} {HEIGHT} map8
node field z 0
leaf score 0 {WIDTH} {WIDTH} 0 1 1 canvas
leaf square 0 {SIDE} {SIDE} 0 {SIDE} {SIDE} solid 2
put score field 0 {HEIGHT - 1}
put square field 2 2
root field
begin"""


class Game:
    """The square, and the number of hits."""

    def __init__(self, session: Session):
        self.session = session
        self.time = 0
        self.hits = 0
        for line in OPENING.splitlines():
            session.send(line)

    def click(self, across: int, down: int) -> bool:
        """Clicks, and returns whether the click hit the square."""
        self.time += 1
        self.session.send(f"motion {self.time} {across} {down}")
        sent = self.session.send(f"mouse {self.time} down 1")
        self.session.send(f"mouse {self.time} up 1")
        hit = any(line.startswith("square mouse") for line in sent)
        if hit:
            self.hits += 1
            # (64 events wait at most; more are dropped)
            while self.session.send("@square take") != ["empty"]:
                pass
            self.session.send(f"@score rect {2 * self.hits - 2} {2 * self.hits - 1} 0 1 3")
            self.session.send(f"move square {random.randrange(WIDTH - SIDE)} {random.randrange(HEIGHT - SIDE - 1)}")
        return hit

    def picture(self) -> str:
        """The screen as characters. A dump has the painter bring it up to date first."""
        self.session.send("dump")
        screen = self.session.screen()
        return "\n".join("".join(".?#=?????"[pixel] for pixel in screen.row(v)) for v in range(screen.height))


def main() -> None:
    """Plays until an empty line."""
    random.seed(1)
    with Session() as session:
        game = Game(session)
        print(game.picture())
        for line in sys.stdin:
            if not line.strip():
                break
            try:
                across, down = map(int, line.split())
                print("hit" if game.click(across, down) else "missed", game.hits)
            except (ValueError, Refused) as problem:
                print(problem)
            print(game.picture())
        Path("clicks.txt").write_text(session.save())


if __name__ == "__main__":
    main()
