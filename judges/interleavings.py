#!/usr/bin/env python3
"""Plays random scripts by `play`, several at once, and judges by `serial` each that has room for a journal at its end.

    judges/interleavings.py PROGRAM [COUNT [SEED]]
    judges/interleavings.py --write NUMBER

PROGRAM is a linked trestle. The scripts have the numbers from SEED on, 1 if it is left out, and there are COUNT of them, 2,000
if it is left out; `--write` prints the script of a number. Each gets a journal at its end, and how that judges it stands in
judges/model/threads.py.

It prints how many scripts were played, how many of them ended with `played threads`, which one thread can do too, and how
many in another order than the script's. The status is 1 if one is judged wrong, which is left in a file beside what was
written, and if there are twenty or more and none has another order."""

import concurrent.futures
import os
import random
import subprocess
import sys
import tempfile
from pathlib import Path
from typing import Dict, List, Tuple

TOP = Path(__file__).resolve().parents[1]
sys.path[:0] = [str(TOP / "judges"), str(TOP / "tools")]

from model.drawing import Pen  # noqa: E402
from model.reader import refusal_of  # noqa: E402
from model.threads import Cut, Ended, FEW_STEPS, Judged, Part, judge, text_of  # noqa: E402

# So many seconds a run may take, on a busy machine too. A run that waits for ever shows by this alone.
PATIENCE = 120
ENOUGH = 20


class Scene:
    """A random tree of windows, and random lines of their clients and of the desk."""

    def __init__(self, draw: random.Random):
        self.draw, self.time = draw, 1
        self.version = draw.choice((1, 2))
        self.kinds = ["mono", "map8"] + ["map4"] * (self.version == 2)
        widgets = ["solid 7", "board 8040201008040201 0 0", "label hi", "lines", "canvas", "meter 4"] + ["edit"] * (self.version == 2)
        # (a few have as many windows as there can be)
        self.leaves = [(f"w{i}", draw.choice(widgets)) for i in range(draw.choice([1, 2, 3, 4, 5, 6] * 10 + [32]))]
        self.nodes: Dict[str, str] = {}

    def opening(self) -> List[str]:
        """The opening, up to its begin."""
        draw = self.draw
        lines = [f"trestle {self.version}", f"screen {draw.randint(1, 40)} {draw.randint(1, 30)} {draw.choice(self.kinds)}"]
        lines.append("glyph 41 3c66667e66666600")
        for name, widget in self.leaves:
            wide, high = draw.randint(1, 20), draw.randint(1, 16)
            lines.append(f"leaf {name} {draw.randint(0, wide)} {wide} {wide + draw.randint(0, 9)} 0 {high} 4096 {widget}")
        kind = draw.choice(["z 1", "h 2", "v 3", "t 4", "page 5 2"])
        lines.append(f"node top {kind}")
        self.nodes["top"] = kind[0]
        for name, _ in self.leaves:
            above = "top"
            if draw.random() < 0.4:
                frame = f"f{name[1:]}"
                lines.append(f"node {frame} " + draw.choice(["border 9 1", "translate 8 1 0", "rigid 6 12 9"]))
                self.nodes[frame] = lines[-1].split()[2]
                lines.append(f"put {name} {frame}")
                name = frame
            lines.append(f"put {name} {above} {draw.randint(-3, 20)} {draw.randint(-3, 15)}")
        return lines + ["root top", "begin"]

    def rectangle(self) -> str:
        """A rectangle about a window."""
        west, north = self.draw.randint(-2, 20), self.draw.randint(-2, 16)
        return f"{west} {west + self.draw.randint(0, 12)} {north} {north + self.draw.randint(0, 9)}"

    def of_client(self, name: str, widget: str) -> str:
        """A line of a client."""
        draw, word = self.draw, widget.split()[0]
        if draw.random() < 0.35:
            return f"@{name} " + draw.choice([f"mark {self.rectangle()}", "flush", "force", "take", f"cage {self.rectangle()} both",
                f"cage {self.rectangle()} here", "free", f"own {draw.choice(['key', 'source', 'target'])} {draw.randint(1, max(1, self.time))}",
                "disown key", "read source", "read target"])
        return f"@{name} " + draw.choice({
            "solid": [f"tint {draw.randint(0, 255)}"],
            "board": [f"shift {draw.randint(-4, 4)} {draw.randint(-4, 4)}", "tile 00ff00ff00ff00ff"],
            "label": ["text A", "text", "text AxA"],
            "lines": ["line A", "line AA xA", "line", "clear"],
            "canvas": [f"rect {self.rectangle()} {draw.randint(0, 255)}", f"swap {self.rectangle()}", "undo"],
            "meter": [f"bar {draw.randint(0, 5)} {draw.randint(0, 20)}"],
            "edit": ["insert A", "erase", "split", f"goto {draw.randint(0, 5)} {draw.randint(0, 5)}", "copy 0 2", "paste"],
        }[word])

    def of_desk(self) -> str:
        """A line of the desk."""
        draw = self.draw
        self.time += draw.randint(0, 2)
        node, leaf = draw.choice([*self.nodes]), draw.choice(self.leaves)[0]
        return draw.choice([f"motion {self.time} {draw.randint(0, 40)} {draw.randint(0, 30)}"] * 4
            + [f"mouse {self.time} {draw.choice(['down', 'up'])} {draw.randint(1, 2)}"] * 3
            + [f"key {self.time} {draw.choice([65, 8, 13, 33])}"] * 3
            + [f"move {leaf} {draw.randint(-3, 20)} {draw.randint(-3, 15)}", f"lift {leaf}", f"tint {node} {draw.randint(0, 255)}",
                f"border {node} {draw.randint(0, 3)}", f"offset {node} {draw.randint(-2, 4)} {draw.randint(-2, 4)}", f"show top {leaf}",
                f"turn {node} {draw.randint(0, 2)}", f"resize {draw.randint(1, 40)} {draw.randint(1, 30)}", f"rescreen {draw.choice(self.kinds)}",
                f"detach {leaf}", f"attach {leaf} top"])

    def report(self) -> str:
        """A report in the middle of a script."""
        return self.draw.choice(["dump", "dump", "peek", "where 3 2", f"inbox {self.draw.choice(self.leaves)[0]}"])

    def part(self) -> Part:
        """A part: its reports, and its other lines with who makes them."""
        draw = self.draw
        steps: List[Tuple[bytes, bytes]] = []
        for _ in range(draw.choice([5, 20, 60, 300])):
            if draw.random() < 0.25:
                steps.append((b"desk", self.of_desk().encode()))
            else:
                name, widget = draw.choice(self.leaves)
                steps.append((f"leaf:{name}".encode(), self.of_client(name, widget).encode()))
        return Part([self.report().encode() for _ in range(draw.randint(0, 3))], steps)

    def lonely(self) -> Part:
        """A part in which one client, or the desk, has so many steps that one thread makes them."""
        draw = self.draw
        steps: List[Tuple[bytes, bytes]] = []
        name, widget = draw.choice([("", ""), *self.leaves])
        for _ in range(draw.randint(FEW_STEPS + 1, FEW_STEPS + 100)):
            if widget:
                steps.append((f"leaf:{name}".encode(), self.of_client(name, widget).encode()))
            else:
                steps.append((b"desk", self.of_desk().encode()))
        return Part([], steps)


def drawn(number: int) -> bytes:
    """The script of a number: every other one is drawn as those of judges/model are, with short parts and much to hear of."""
    script = Pen(random.Random(number)).script() if number % 2 else b""
    return script if script and refusal_of(script) is None else long_script(Scene(random.Random(number)))


def long_script(scene: Scene) -> bytes:
    """The script of a scene, with some long parts. In one of ten a last part has the steps of one actor alone."""
    opening = [line.encode() for line in scene.opening()]
    parts = [scene.part() for _ in range(scene.draw.randint(1, 4))]
    if scene.draw.random() < 0.1:
        parts.append(scene.lonely())
    # (reports stand before the steps of their part, so the last steps need one part more)
    return text_of(Cut(opening, [*parts, Part([], [])]))


def run(program: str, word: str, script: bytes) -> Ended:
    """A run. One that doesn't end is ended, with a status that the program hasn't."""
    try:
        ran = subprocess.run([program, word], input=script, stdout=subprocess.PIPE, timeout=PATIENCE, check=False)
    except subprocess.TimeoutExpired:
        return Ended(-1, f"{word} doesn't end in {PATIENCE} seconds\n".encode())
    return Ended(ran.returncode, ran.stdout)


class Trial:
    """Judges the scripts of numbers."""

    def __init__(self, program: str):
        self.program = program

    def __call__(self, number: int) -> Judged:
        """Judges one. What is wrong is left in a file, with all that was written for it."""
        script = drawn(number)
        runs: List[Tuple[str, bytes, Ended]] = []

        def noted(word: str, given: bytes) -> Ended:
            runs.append((word, given, run(self.program, word, given)))
            return runs[-1][2]

        judged = judge(noted, script)
        return judged._replace(problem=f"{judged.problem}; {kept(number, runs)}") if judged.problem else judged


def kept(number: int, runs: List[Tuple[str, bytes, Ended]]) -> str:
    """Where the runs of a script are told."""
    with tempfile.NamedTemporaryFile("wb", prefix=f"interleaving-{number}-", suffix=".txt", delete=False) as file:
        for word, given, ended in runs:
            file.write(b"---- %s ends with %d\n%s---- and writes\n%s" % (word.encode(), ended.status, given, ended.output))
    return f"what was played lies in {file.name}"


def main(words: List[str]) -> int:
    """Judges all scripts."""
    if len(words) == 2 and words[0] == "--write":
        sys.stdout.buffer.write(drawn(int(words[1])))
        return 0
    if not words or words[0].startswith("-"):
        print(__doc__, file=sys.stderr)
        return 2
    program = os.path.abspath(words[0])
    count = int(words[1]) if len(words) > 1 else 2000
    first = int(words[2]) if len(words) > 2 else 1
    counts: Dict[str, int] = {"threads": 0, "other": 0, "wrong": 0}
    with concurrent.futures.ThreadPoolExecutor(2 * (os.cpu_count() or 1)) as pool:
        numbers = range(first, first + count)
        for number, judged in zip(numbers, pool.map(Trial(program), numbers)):
            counts["threads"] += judged.by_threads
            counts["other"] += judged.is_other
            if judged.problem:
                counts["wrong"] += 1
                print(f"interleavings: script {number}: {judged.problem}", flush=True)
    threads, others, wrong = counts.values()
    order = f"{others} in another order than the script's"
    print(f"interleavings: {count} scripts, {threads} played by threads to their end, {order}, {wrong} wrong")
    return 1 if wrong or (count >= ENOUGH and not others) else 0


if __name__ == "__main__":
    sys.exit(main(sys.argv[1:]))
