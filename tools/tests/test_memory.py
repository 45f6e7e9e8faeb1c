"""How much memory the program takes for what waits, where no output shows it."""

import os
import subprocess
import sys
import unittest

from commands_under_test import TOP

sys.path.insert(0, str(TOP / "judges"))

from model.program import PLAYED, Limits, Runner  # noqa: E402

# 19 MB are taken where paint commands share what they repeat, and 29 where they share nothing.
MOST_KILOBYTES = 24 << 10


class Memory(unittest.TestCase):
    """The most that a run takes."""

    def test_waiting_commands(self) -> None:
        """Paint commands that wait share what they repeat: 90,000 lines of text, with three commands each."""
        script = subprocess.run([TOP / "bench/workloads.sh", "--write", "unseen", "90000"], check=True, capture_output=True).stdout
        runner = Runner(os.environ["TRESTLE"])
        self.addCleanup(runner.close)
        ran = runner.run(["serial"], script, Limits(seconds=30))
        self.assertEqual(PLAYED, ran.status)
        self.assertLess(ran.kilobytes, MOST_KILOBYTES)


if __name__ == "__main__":
    unittest.main()
