"""How pictures and differences are shown in a terminal, or in a pipe: with colours or without, cut short or whole."""

import argparse
import os
import shutil
import sys
from typing import NamedTuple, Optional

CHOICES = ("always", "auto", "never")


class View(NamedTuple):
    """How something is shown. Without colours a point is its two hex digits."""

    coloured: bool = True
    whole: bool = False
    # So many columns a line of pictures may have; what would be wider is cut to what differs.
    columns: int = 160


def add_color(taken: argparse.ArgumentParser) -> None:
    """The option by which colours are asked for."""
    says = "colours: auto, which is the default, writes them to a terminal unless NO_COLOR is set"
    taken.add_argument("--color", choices=CHOICES, default="auto", help=says)


def is_coloured(choice: str) -> bool:
    """Whether standard output gets colours. NO_COLOR (see no-color.org) counts where it isn't empty."""
    if choice != "auto":
        return choice == "always"
    return sys.stdout.isatty() and not os.environ.get("NO_COLOR") and os.environ.get("TERM") != "dumb"


def columns() -> Optional[int]:
    """How many columns the terminal has, or None where standard output is none, and COLUMNS says nothing."""
    if sys.stdout.isatty():
        return shutil.get_terminal_size().columns
    told = os.environ.get("COLUMNS", "")
    return int(told) if told.isdecimal() and int(told) else None


def view_of(choice: str, whole: bool) -> View:
    """How a command shows what it shows, by its options and the terminal."""
    return View(is_coloured(choice), whole, columns() or View().columns)
