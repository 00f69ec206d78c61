"""Stretches of time, row by row, kept in bounded memory: those of one look that are closer together than a
point of the picture are one."""

from collections import defaultdict

from .context_fields import tuning_of
from .release_records import Bound, Raw, Uncertain, capture_moment

POINTS = 1000
"""A picture is so many points wide, from the first moment to the last."""
MOST_TUNINGS = 10
OTHER_TUNINGS = ("tuning", MOST_TUNINGS)
MOST_KEPT = 20_000


class Row:
    """A stream and port: its stretches by their look, and its losses."""

    def __init__(self):
        self.stretches = {}
        self.losses = []
        self.rate = None
        self.item_size = None
        self.waiting = None

    def put(self, look, start, end):
        """Adds a stretch behind those before; one that goes on from the last of its look is joined."""
        kept = self.stretches.setdefault(look, [])
        if kept and kept[-1][0] <= start <= kept[-1][1]:
            kept[-1][1] = max(end, kept[-1][1])
            return 0
        kept.append([start, end])
        return 1


def joined(pairs, gap):
    """The stretches in their order, where neighbours less than a gap apart are one."""
    kept = []
    for start, end in sorted(pairs):
        if kept and start - kept[-1][1] < gap:
            kept[-1][1] = max(end, kept[-1][1])
        else:
            kept.append([start, end])
    return kept


def joined_losses(losses, gap):
    """The marks in their order, where neighbours less than a gap apart are one with their sum."""
    kept = []
    for moment, number in sorted(losses):
        if kept and moment - kept[-1][0] < gap:
            kept[-1][1] += number
        else:
            kept.append([moment, number])
    return kept


class Timeline:
    def __init__(self):
        self.rows = defaultdict(Row)
        self.tunings = []
        self.reasons = set()
        self.has_losses = False
        self.first = None
        self.last = None
        self.kept = 0
        self.most = MOST_KEPT

    def look_of(self, tuning):
        """The number of a tuning; those behind the first ones look alike."""
        if tuning in self.tunings:
            return ("tuning", self.tunings.index(tuning))
        if len(self.tunings) < MOST_TUNINGS:
            self.tunings.append(tuning)
            return ("tuning", len(self.tunings) - 1)
        return OTHER_TUNINGS

    def add(self, record):
        if not isinstance(record, (Bound, Uncertain, Raw)):
            return
        row = self.rows[record.stream, record.port]
        start = record.stamp if isinstance(record, Raw) else record.moment
        self.end_waiting(row, start, record.lost)
        if record.lost:
            self.has_losses = True
            row.losses.append([start, record.lost])
            self.kept += 1
        if isinstance(record, Bound):
            fields = record.fields
            row.rate, row.item_size = fields.sample_rate, fields.item_size
            self.put(row, self.look_of(tuning_of(fields)), start, capture_moment(start, record.number, row.rate))
        else:
            self.reasons.add(record.reason)
            self.put_uncertain(row, record, start)

    def put_uncertain(self, row, record, start):
        """How long an uncertain stretch lasts is not told. It is drawn at the rate of the last bound samples of
        its row; where there were none, up to the next record of its row."""
        look = ("reason", record.reason)
        if row.rate is None:
            row.waiting = (look, start)
            self.put(row, look, start, start)
        else:
            number = number_of_samples(record, row.item_size)
            self.put(row, look, start, capture_moment(start, number, row.rate))

    def end_waiting(self, row, start, lost):
        if row.waiting is not None:
            look, since = row.waiting
            row.waiting = None
            if not lost and start > since:
                self.put(row, look, since, start)

    def put(self, row, look, start, end):
        self.first = start if self.first is None else min(start, self.first)
        self.last = end if self.last is None else max(end, self.last)
        self.kept += row.put(look, start, end)
        if self.kept > self.most:
            self.join()

    def join(self):
        """Joins what lies closer together than a point. The whole only grows, so these are never told apart."""
        point = max(1, (self.last - self.first) // POINTS)
        self.kept = 0
        for row in self.rows.values():
            row.losses = joined_losses(row.losses, point)
            self.kept += len(row.losses)
            for look, stretches in row.stretches.items():
                row.stretches[look] = joined(stretches, point)
                self.kept += len(row.stretches[look])
        self.most = max(MOST_KEPT, 2 * self.kept)


def number_of_samples(record, item_size):
    """The samples of an uncertain record, those of a raw packet by the format of the last bound samples."""
    if isinstance(record, Uncertain):
        return record.number
    return max(0, 32 * record.words - record.pad) // (2 * item_size)
