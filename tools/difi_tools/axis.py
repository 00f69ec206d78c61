"""Ticks of a time axis, in picoseconds, with their labels."""

from .clock import instant, unix_seconds
from .release_records import SECOND

DAY = 86_400 * SECOND
STEPS_FROM_A_SECOND = [
    seconds * SECOND
    for seconds in (1, 2, 5, 10, 15, 30, 60, 120, 300, 600, 900, 1_800, 3_600, 7_200, 10_800, 21_600, 43_200)
] + [days * DAY for days in (1, 2, 5, 10, 20, 50, 100, 200, 500, 1_000, 2_000, 5_000, 10_000, 20_000, 50_000)]
UNITS = ((1, "ps"), (10**3, "ns"), (10**6, "us"), (10**9, "ms"), (10**12, "s"))
MOST_TICKS = 9


class Axis:
    """The axis from a first to a last moment."""

    def __init__(self, first, last, code):
        self.code = code
        self.dated = unix_seconds(last // SECOND, code) is not None
        self.step = step_for(last - first)
        self.base = base_for(first, self.step)
        self.ticks = range(-(-first // self.step) * self.step, last + 1, self.step)

    def label(self, tick):
        if self.step < SECOND:
            size, unit = next(unit for unit in reversed(UNITS) if self.step >= unit[0])
            return f"+{(tick - self.base) // size} {unit}"
        if not self.dated:
            return seconds_text(tick // SECOND)
        date, _, time = instant(tick, self.code, 0).rstrip("Z").partition("T")
        return date if self.step >= DAY else time

    def title(self):
        """What the labels count, and from where."""
        name = "UTC" if self.dated else "time as the record counts it"
        if self.step < SECOND:
            return f"{name}, from {shortened(instant(self.base, self.code))}"
        if self.dated and self.step < DAY:
            return f"{name}, from {instant(self.base, self.code, 0)[:10]}"
        return name


def seconds_text(seconds):
    return f"{seconds} s" if seconds < 10**12 else f"{seconds:.4g} s"


def shortened(text):
    """An instant without the zeros at its end."""
    stem, tail = (text[:-1], "Z") if text.endswith("Z") else (text[:-2], " s")
    return stem.rstrip("0").rstrip(".") + tail


def step_for(span):
    """The least round step that gives no more than so many ticks."""
    size = 1
    while size < SECOND:
        for step in (size, 2 * size, 5 * size):
            if span <= MOST_TICKS * step:
                return step
        size *= 10
    for step in STEPS_FROM_A_SECOND:
        if span <= MOST_TICKS * step:
            return step
    return -(-span // (MOST_TICKS * DAY)) * DAY


def base_for(first, step):
    """What labels below a second count from: the whole of the unit above the step's own."""
    if step >= SECOND:
        return first
    unit = 1000
    while unit <= step:
        unit *= 1000
    return first // unit * unit
