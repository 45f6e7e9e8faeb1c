"""That ./build --unproved makes a program of these sources, and that it checks itself while it runs. It compiles for minutes:
TRESTLE_TRIES_BUILD=1 has it tried."""

import os
import shutil
import subprocess
import tempfile
import unittest
from pathlib import Path

from commands_under_test import TOP

WARNING = b"trestle: this program is unproved: its run-time checks find only some mistakes\n"
# A program that reads beyond the end of an array where its input has a line of three bytes.
WRONG = """#![tactic(auto)]

use std::io;

fn main(rt: HostRuntime) -> io::Result<()> {
    let table: [u8; 3] = [1, 2, 3];
    for line in rt.lines(rt.alloc()) {
        let number = line?.as_str().len();
        let found = table[number];
        println!(rt; "{found}")?;
    }
    Ok(())
}
"""


@unittest.skipUnless(os.environ.get("TRESTLE_TRIES_BUILD"), "TRESTLE_TRIES_BUILD=1 has the unproved program compiled")
class Unproved(unittest.TestCase):
    """The unproved program."""

    def test_program(self) -> None:
        """It plays the demos as is stored of them, and says at each call that it is unproved."""
        self.assertEqual(0, subprocess.run([str(TOP / "build"), "--unproved"], check=False).returncode)
        for script in sorted((TOP / "demos").glob("*.serial")):
            with self.subTest(script.stem):
                given = script.with_suffix(".txt").read_bytes()
                ran = subprocess.run([str(TOP / "trestle"), "--unproved", "serial"], input=given, capture_output=True, check=False)
                self.assertEqual((0, script.read_bytes(), WARNING), (ran.returncode, ran.stdout, ran.stderr))

    def test_checks(self) -> None:
        """A program that would read beyond an array is stopped there."""
        kit = Path(os.path.realpath(shutil.which("rt") or "")).parents[1]
        with tempfile.TemporaryDirectory() as folder:
            source = Path(folder) / "crates/trestle/src/main.rt"
            source.parent.mkdir(parents=True)
            source.write_text(WRONG)
            (Path(folder) / "crates.txt").write_text("trestle:\n")
            words = [str(TOP / "tools/compile_unproved.sh"), str(kit), folder, "crates/trestle"]
            subprocess.run(words, cwd=folder, check=True)
            ran = [subprocess.run([f"{folder}/trestle"], input=it, capture_output=True, check=False) for it in (b"ab\n", b"abc\n")]
        self.assertEqual((0, b"3\n"), (ran[0].returncode, ran[0].stdout))
        self.assertLess(ran[1].returncode, 0)
        self.assertEqual(b"", ran[1].stdout)


if __name__ == "__main__":
    unittest.main()
