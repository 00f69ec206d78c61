"""What the scripts share: their words, their input, and how they end."""

import argparse
import os
import re
import stat
import sys
import time

LONG_INPUT = 32 << 20
BAR = 30


NUMBER = re.compile(r"-?[0-9]+|0[xX][0-9a-fA-F]+")


def number(text):
    """A number in decimal digits, or in hexadecimal ones behind 0x."""
    if not NUMBER.fullmatch(text):
        raise argparse.ArgumentTypeError(f"{text!r} is no number")
    return int(text, 16 if text[:2].lower() == "0x" else 10)


def number_within(least, most):
    """The type of an option whose number lies in this range."""

    def within(text):
        value = number(text)
        if not least <= value <= most:
            raise argparse.ArgumentTypeError(f"{value} is not within {least} to {most}")
        return value

    return within


class Counted:
    """A source whose bytes are counted, with a progress bar where the input is long and somebody looks."""

    def __init__(self, source, screen=None):
        self.source = source
        self.screen = screen if screen is not None and screen.isatty() else None
        self.taken = 0
        self.shown_at = 0.0
        self.size = self.size_of_rest()

    def size_of_rest(self):
        """The bytes of a regular file from here on, or None."""
        try:
            status = os.fstat(self.source.fileno())
            return status.st_size - self.source.tell() if stat.S_ISREG(status.st_mode) else None
        except (AttributeError, OSError, ValueError):
            return None

    def read(self, size):
        data = self.source.read(size)
        self.taken += len(data)
        if self.screen is not None and max(self.taken, self.size or 0) >= LONG_INPUT:
            self.show()
        return data

    def show(self):
        now = time.monotonic()
        if now - self.shown_at >= 0.2:
            self.shown_at = now
            self.screen.write("\r" + bar(self.taken, self.size))
            self.screen.flush()

    def close(self):
        """Takes the bar away."""
        if self.shown_at:
            self.screen.write("\r" + " " * len(bar(self.taken, self.size)) + "\r")
            self.screen.flush()


def bar(taken, size):
    """A line that says how far the input is read."""
    if not size:
        return f"{taken / 1e6:.0f} MB"
    share = min(1.0, taken / size)
    filled = int(BAR * share)
    return f"[{'#' * filled}{'.' * (BAR - filled)}] {100 * share:3.0f} % of {size / 1e6:.0f} MB"


def complain(name, message):
    print(f"{name}: {message}", file=sys.stderr)


def finish(code):
    """Ends the program once its output is written; where nobody reads that any more, quietly."""
    try:
        sys.stdout.flush()
    except BrokenPipeError:
        os.dup2(os.open(os.devnull, os.O_WRONLY), sys.stdout.fileno())
        code = code or 1
    sys.exit(code)
