"""The bound samples of a stream as a SigMF recording: a file of samples, and one of what they are.

The samples have 16 bits, I before Q, the lowest byte first (ci16_le). They pass by in pieces; what the
second file says of them waits in temporary files, so that memory does not grow with the recording.
"""

import hashlib
import json
import os
import sys
import tempfile
from array import array
from decimal import Decimal, InvalidOperation
from fractions import Fraction

from .clock import instant
from .context_fields import HERTZ, hertz
from .release_records import REASONS, SECOND, Bound, Raw, Uncertain

VERSION = "1.0.0"
TOLERANCE = 1
"""Picoseconds by which cutting off may move moments of samples that follow one another."""


class CannotTell(Exception):
    """What SigMF has no words for."""


def units_of_rate(text):
    """A rate in hertz as units of 2^-20 Hz, or None where there is none."""
    if text is None:
        return None
    try:
        units = Fraction(Decimal(text)) * HERTZ
    except (InvalidOperation, ValueError, OverflowError):
        raise CannotTell(f"--rate {text} is no number of hertz") from None
    if units.denominator != 1:
        raise CannotTell(f"--rate {text}: a sample rate is a whole number of 2^-20 Hz")
    return int(units)


def exact_float(units):
    """Hertz as a floating-point number, or None where that would not be exact."""
    value = units / HERTZ
    return value if Fraction(value) * HERTZ == units else None


def plain_number(units):
    """Hertz as JSON has them: a whole number where they are one, else the nearest floating-point number."""
    return units // HERTZ if units % HERTZ == 0 else units / HERTZ


class Rows:
    """JSON objects in a temporary file, as long as the recording is not written."""

    def __init__(self):
        self.file = tempfile.TemporaryFile("w+", encoding="utf-8")
        self.empty = True

    def add(self, values):
        self.file.write(("\n    " if self.empty else ",\n    ") + json.dumps(values))
        self.empty = False

    def copy_to(self, target):
        self.file.seek(0)
        for piece in iter(lambda: self.file.read(1 << 16), ""):
            target.write(piece)
        if not self.empty:
            target.write("\n  ")

    def close(self):
        self.file.close()


class SampleFile:
    """The samples of the records that came whole. Those of a record that breaks off are taken back."""

    def __init__(self, path):
        self.path = path
        self.file = open(path, "wb")
        self.whole = 0
        self.bytes = 0
        self.whole_hash = hashlib.sha512()
        self.hash = self.whole_hash.copy()

    def take(self, piece):
        """Pieces are whole numbers of 16 bits, the highest byte first."""
        numbers = array("h", piece)
        numbers.byteswap()
        data = numbers.tobytes()
        self.file.write(data)
        self.hash.update(data)
        self.bytes += len(data)

    def keep(self):
        self.whole, self.whole_hash = self.bytes, self.hash.copy()

    def finish(self):
        self.file.truncate(self.whole)
        self.file.close()


class Recording:
    """Collects a stream's records for a port. `finish` puts the two files in place; until then they are
    temporary ones beside it, which vanish where it does not come to that."""

    def __init__(self, prefix, stream, port, code, rate=None):
        self.prefix, self.stream, self.port, self.code = prefix, stream, port, code
        self.wanted_rate = self.rate = rate
        self.samples = SampleFile(prefix + ".sigmf-data.part")
        self.captures, self.annotations = Rows(), Rows()
        self.segment = None
        self.stretch = None
        self.others = set()

    def __enter__(self):
        return self

    def __exit__(self, *_fault):
        self.samples.file.close()
        self.captures.close()
        self.annotations.close()
        for path in (self.prefix + ".sigmf-data.part", self.prefix + ".sigmf-meta.part"):
            if os.path.exists(path):
                os.unlink(path)

    def is_wanted(self, record):
        """Whether the record's samples belong to the recording."""
        return (
            isinstance(record, Bound)
            and (record.stream, record.port) == (self.stream, self.port)
            and self.wanted_rate in (None, record.fields.sample_rate)
        )

    def taker_of(self, record):
        if not self.is_wanted(record):
            return None
        self.demand_rate(record)
        return self.samples.take

    def demand_rate(self, record):
        rate = record.fields.sample_rate
        if exact_float(rate) is None:
            raise CannotTell(f"SigMF tells a sample rate as a floating-point number, and {rate}/2^20 Hz is none")
        if self.rate not in (None, rate):
            raise CannotTell(
                f"a SigMF recording has one sample rate, and stream {self.stream:08X} changes from {hertz(self.rate)} "
                f"to {hertz(rate)} at {instant(record.moment, self.code)}: choose one of them by --rate"
            )
        self.rate = rate

    def add(self, record):
        if not isinstance(record, (Bound, Uncertain, Raw)):
            return
        if (record.stream, record.port) != (self.stream, self.port):
            self.others.add((record.stream, record.port))
        elif self.is_wanted(record):
            self.add_bound(record)
        else:
            self.add_stretch(record)

    def add_bound(self, record):
        self.end_stretch()
        start = self.samples.whole // 4
        values = told_of(record.fields)
        if self.jumps(record, start, values):
            self.segment = (start, record.moment, values)
            self.captures.add(
                {
                    "core:sample_start": start,
                    **self.dated(record.moment),
                    "core:frequency": plain_number(record.fields.rf_reference),
                    "difi:capture_picoseconds": str(record.moment),
                    **values,
                }
            )
        self.samples.keep()

    def jumps(self, record, start, values):
        """Whether time, rate or tuning of the record's samples do not go on from those before."""
        if self.segment is None:
            return True
        since, moment, before = self.segment
        expected = moment + ((start - since) * SECOND << 20) // record.fields.sample_rate
        return before != values or abs(record.moment - expected) > TOLERANCE

    def dated(self, moment):
        """The date to a microsecond, which all readers understand; there is none where the time code has no dates."""
        text = instant(moment, self.code, 6)
        return {"core:datetime": text} if text.endswith("Z") else {}

    def add_stretch(self, record):
        """Notes samples that are left out, at the place where they would stand; neighbours for the same cause are
        one stretch."""
        cause = (getattr(record, "reason", 0), getattr(record, "detail", 0))
        if self.stretch is None or self.stretch["cause"] != cause or record.lost:
            self.end_stretch()
            start = record.stamp if isinstance(record, Raw) else record.moment
            self.stretch = {"cause": cause, "start": start, "samples": 0, "words": 0, "packets": 0}
        if isinstance(record, Raw):
            self.stretch["packets"] += 1
            self.stretch["words"] += record.words
        else:
            self.stretch["samples"] += record.number

    def end_stretch(self):
        if self.stretch is None:
            return
        stretch, self.stretch = self.stretch, None
        reason, detail = stretch["cause"]
        words = REASONS.get(reason, "bound, at another sample rate")
        self.annotations.add(
            {
                "core:sample_start": self.samples.whole // 4,
                "core:sample_count": 0,
                "core:label": words,
                "core:comment": f"left out here: {stretch['samples']} samples and {stretch['packets']} raw packets",
                "difi:reason": reason,
                "difi:detail": detail,
                "difi:capture_picoseconds": str(stretch["start"]),
                "difi:samples": stretch["samples"],
                "difi:raw_packets": stretch["packets"],
                "difi:raw_words": stretch["words"],
            }
        )

    def finish(self):
        if not self.samples.whole:
            raise CannotTell(self.nothing_text())
        self.end_stretch()
        self.samples.finish()
        with open(self.prefix + ".sigmf-meta.part", "w", encoding="utf-8") as file:
            file.write('{\n  "global": ' + json.dumps(self.about(), indent=4).replace("\n}", "\n  }"))
            file.write(',\n  "captures": [')
            self.captures.copy_to(file)
            file.write('],\n  "annotations": [')
            self.annotations.copy_to(file)
            file.write("]\n}\n")
        for end in (".sigmf-data", ".sigmf-meta"):
            os.replace(self.prefix + end + ".part", self.prefix + end)

    def about(self):
        return {
            "core:datatype": "ci16_le",
            "core:version": VERSION,
            "core:sample_rate": plain_number(self.rate),
            "core:num_channels": 1,
            "core:sha512": self.samples.whole_hash.hexdigest(),
            "core:description": f"Samples of DIFI stream {self.stream:08X} that are bound to a context",
            "core:recorder": "difi tools/releases",
            "core:extensions": [{"name": "difi", "version": "1.0.0", "optional": True}],
            "difi:stream": self.stream,
            "difi:port": self.port,
            "difi:time": self.code,
        }

    def nothing_text(self):
        text = f"no bound samples of stream {self.stream:08X} for port {self.port}"
        if self.wanted_rate is not None:
            text += f" at {hertz(self.wanted_rate)}"
        others = [f"stream {stream:08X} for port {port}" for stream, port in sorted(self.others)[:10]]
        return text + ("; there are " + ", ".join(others) if others else "")


def told_of(fields):
    """What a capture segment says beside the core: frequencies in units of 2^-20 Hz, levels in 1/128 dB, and the
    bits of an item as it was sent, which say how large a sample may be."""
    return {
        "difi:sample_rate": str(fields.sample_rate),
        "difi:rf_reference": str(fields.rf_reference),
        "difi:if_reference": str(fields.if_reference),
        "difi:if_offset": str(fields.if_offset),
        "difi:bandwidth": str(fields.bandwidth),
        "difi:gain": list(fields.gain_stages),
        "difi:reference_level": int(fields.reference_level_dbm * 128),
        "difi:item_size": fields.item_size,
    }


assert array("h").itemsize == 2 and sys.byteorder in ("little", "big")
