"""The numbers of a replay: for each stream and port, and of all frames."""

from collections import Counter, defaultdict

from .clock import instant
from .context_fields import tuning_of
from .release_records import COUNTS, REASONS, REFUSALS, Acknowledgement, Bound, End, Raw, Refused, Uncertain, Version


class Line:
    """What a stream's records for one port say."""

    def __init__(self):
        self.packets = 0
        self.bound = 0
        self.uncertain = Counter()
        self.raw = Counter()
        self.lost = 0
        self.versions = 0
        self.first_capture = None
        self.last_capture = None
        self.changes = 0
        self.tuning = None

    def add(self, record):
        if isinstance(record, Version):
            self.versions += 1
            return
        self.lost += record.lost
        if isinstance(record, Raw):
            self.packets += 1
            self.raw[record.reason] += 1
            self.captured(record.stamp, record.stamp)
            return
        # A packet's first run begins with its first sample.
        self.packets += record.first == 0
        if isinstance(record, Uncertain):
            self.uncertain[record.reason] += record.number
            self.captured(record.moment, record.moment)
        else:
            self.bound += record.number
            self.captured(record.moment, record.moment_of_last())
            self.tune(tuning_of(record.fields))

    def captured(self, first, last):
        self.first_capture = first if self.first_capture is None else min(first, self.first_capture)
        self.last_capture = last if self.last_capture is None else max(last, self.last_capture)

    def tune(self, tuning):
        self.changes += self.tuning not in (None, tuning)
        self.tuning = tuning

    def counted(self):
        """What the end record counts of a stream, once for all its ports."""
        return self.bound, sum(self.uncertain.values()), sum(self.raw.values()), self.versions


class Summary:
    """All numbers of the records that were added."""

    def __init__(self, code="utc"):
        self.code = code
        self.lines = defaultdict(Line)
        self.refused = Counter()
        self.last_refused = 0
        self.acknowledgements = 0
        self.end = None

    def add(self, record):
        if isinstance(record, (Bound, Uncertain, Raw, Version)):
            self.lines[record.stream, record.port].add(record)
        elif isinstance(record, Refused):
            self.refused[record.reason] += 1
            self.last_refused = max(self.last_refused, record.frame)
        elif isinstance(record, Acknowledgement):
            self.acknowledgements += 1
        elif isinstance(record, End):
            self.end = dict(zip(COUNTS, record.counts))

    def sums(self):
        """What the end record should say, each stream taken with its lowest port."""
        one_port = {}
        for (stream, _port), line in sorted(self.lines.items()):
            one_port.setdefault(stream, line.counted())
        sums = [sum(counts) for counts in zip(*one_port.values())] or [0] * 4
        return {
            "bound_samples": sums[0],
            "uncertain_samples": sums[1],
            "raw_packets": sums[2],
            "refused_frames": sum(self.refused.values()),
            "acknowledgements": self.acknowledgements,
            "versions": sums[3],
        }

    def disagreements(self):
        """Where the records and the end record differ, in words; of a whole replay nothing."""
        if self.end is None:
            return []
        found = [
            f"{name.replace('_', ' ')}: {value} in the records, {self.end[name]} in the end record"
            for name, value in self.sums().items()
            if value != self.end[name]
        ]
        if self.last_refused > self.end["frames"]:
            found.append(f"frames: number {self.last_refused} is refused, {self.end['frames']} in the end record")
        firsts = {}
        for (stream, port), line in sorted(self.lines.items()):
            first_port, first = firsts.setdefault(stream, (port, line))
            if line.counted() != first.counted():
                found.append(f"stream {stream:08X}: ports {first_port} and {port} were given different numbers")
        return found

    def as_json(self):
        """The same numbers as the text, by names."""
        return {
            "streams": [self.line_as_json(stream, port, line) for (stream, port), line in sorted(self.lines.items())],
            "refused_frames": {REFUSALS[reason]: number for reason, number in sorted(self.refused.items())},
            "acknowledgements": self.acknowledgements,
            "versions": self.sums()["versions"],
            "end": self.end,
            "disagreements": self.disagreements(),
        }

    def line_as_json(self, stream, port, line):
        def capture(moment):
            return None if moment is None else {"time": instant(moment, self.code), "picoseconds": str(moment)}

        return {
            "stream": stream,
            "port": port,
            "packets": line.packets,
            "bound_samples": line.bound,
            "uncertain_samples": {REASONS[reason]: number for reason, number in sorted(line.uncertain.items())},
            "raw_packets": {REASONS[reason]: number for reason, number in sorted(line.raw.items())},
            "packets_lost": line.lost,
            "first_capture": capture(line.first_capture),
            "last_capture": capture(line.last_capture),
            "changes_of_tuning": line.changes,
            "versions": line.versions,
        }

    def as_text(self):
        parts = [self.streams_text(), self.reasons_text(), self.frames_text()]
        return "\n\n".join(part for part in parts if part) + "\n"

    def streams_text(self):
        heads = (
            "stream", "port", "packets", "bound", "uncertain", "raw", "lost", "changes", "versions",
            "first capture", "last capture",
        )  # fmt: skip
        rows = []
        for (stream, port), line in sorted(self.lines.items()):
            bound, uncertain, raw, versions = line.counted()
            moments = ["-" if at is None else instant(at, self.code) for at in (line.first_capture, line.last_capture)]
            numbers = (port, line.packets, bound, uncertain, raw, line.lost, line.changes, versions)
            rows.append([f"{stream:08X}", *map(str, numbers), *moments])
        return aligned(heads, rows) if rows else "no stream released anything"

    def reasons_text(self):
        rows = []
        for (stream, port), line in sorted(self.lines.items()):
            for reason in sorted(line.uncertain.keys() | line.raw.keys()):
                numbers = (port, line.uncertain[reason], line.raw[reason])
                rows.append([f"{stream:08X}", *map(str, numbers), REASONS[reason]])
        return aligned(("stream", "port", "uncertain", "raw", "because"), rows) if rows else ""

    def frames_text(self):
        rows = [[f"refused, {REFUSALS[reason]}", str(number)] for reason, number in sorted(self.refused.items())]
        rows += [["acknowledgements", str(self.acknowledgements)], ["versions", str(self.sums()["versions"])]]
        if self.end is not None:
            rows.insert(0, ["frames", str(self.end["frames"])])
        rows.append(["end record", self.end_text()])
        return "\n".join(f"{name:<26}{number:>12}" for name, number in rows)

    def end_text(self):
        if self.end is None:
            return "missing"
        return "differs" if self.disagreements() else "agrees"


def aligned(heads, rows):
    """Columns: numbers to the right, the last columns of text to the left."""
    widths = [max(len(row[at]) for row in [list(heads), *rows]) for at in range(len(heads))]

    def is_text(at):
        return at == 0 or heads[at] in ("because", "first capture", "last capture")

    def line(row):
        cells = [row[at].ljust(width) if is_text(at) else row[at].rjust(width) for at, width in enumerate(widths)]
        return "  ".join(cells).rstrip()

    return "\n".join(line(row) for row in [list(heads), *rows])
