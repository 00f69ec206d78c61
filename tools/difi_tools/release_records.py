"""Release records, as `difi replay` writes them, read one after another in bounded memory.

A record is told once it stands whole and obeys the rules of docs/FORMATS.md, 'Releases'. Its samples or
payload are never held as one: they pass by in pieces.
"""

import struct
from typing import NamedTuple

from .context_fields import SIZE as FIELDS_SIZE
from .context_fields import ContextFields

SECOND = 10**12
"""The picoseconds of a second."""
PIECE = 1 << 16
MOST_PAIRS = 256 * 4
"""A record lists at most 256 routes of at most four ports."""

REASONS = {
    1: "before the first context",
    2: "contexts lost",
    3: "too many packets waited",
    4: "earlier contexts no longer kept",
    5: "the stream ended",
    6: "another rate or format",
    7: "payload does not divide",
}
REFUSALS = {
    1: "too large",
    2: "malformed",
    3: "no route",
    4: "late",
    5: "repeat",
    6: "conflict",
    7: "not addressed",
    8: "reused",
    9: "schedule full",
    10: "answer",
}
LATE = 4
COUNTS = (
    "frames",
    "bound_samples",
    "uncertain_samples",
    "raw_packets",
    "refused_frames",
    "acknowledgements",
    "versions",
)


class Bound(NamedTuple):
    """Samples that are bound to a context. Moments are in picoseconds."""

    stream: int
    port: int
    lost: int
    stamp: int
    first: int
    number: int
    moment: int
    fields: ContextFields

    def moment_of_last(self):
        return capture_moment(self.stamp, self.first + self.number - 1, self.fields.sample_rate)


class Uncertain(NamedTuple):
    """Samples whose context is not sure, with the reason."""

    stream: int
    port: int
    lost: int
    reason: int
    detail: int
    stamp: int
    first: int
    number: int
    moment: int


class Raw(NamedTuple):
    """A whole packet whose context is not sure, with the reason, not divided into samples."""

    stream: int
    port: int
    lost: int
    reason: int
    detail: int
    stamp: int
    pad: int
    words: int


class Acknowledgement(NamedTuple):
    port: int


class Refused(NamedTuple):
    frame: int
    port: int
    reason: int
    detail: int
    stamp: int


class Version(NamedTuple):
    stream: int
    port: int


class End(NamedTuple):
    """The counts, in the order of COUNTS."""

    counts: tuple


class BrokenInput(Exception):
    """The bytes from this offset on are no release record."""

    def __init__(self, offset, why):
        super().__init__(f"no release record at byte {offset}: {why}")
        self.offset = offset
        self.why = why


class Wrong(Exception):
    """A rule of a record does not hold."""


def capture_moment(stamp, sample, rate):
    """When a sample of a packet with this stamp was captured, at a rate in units of 2^-20 Hz."""
    return stamp + (sample * SECOND << 20) // rate


def demand(holds, why):
    if not holds:
        raise Wrong(why)


def read_stamp(seconds, picoseconds):
    demand(picoseconds < SECOND, "its picoseconds are a second or more")
    return seconds * SECOND + picoseconds


def demand_source(port, lost):
    demand(port < 1 << 16, "its port has more than 16 bits")
    demand(lost <= 15, "more than 15 packets are lost before it")


def demand_reason(reason, detail, reasons):
    demand(reason in reasons, f"its reason is {reason}")
    demand(1 <= detail <= 15 if reason == 2 else detail == 0, f"its detail is {detail}")


def demand_span(first, number, part):
    demand(4 * number == part, "its number of samples is not that of its body")
    demand(first + number <= 1 << 32, "its samples go beyond the index 2^32 - 1")


def read_bound(front, part):
    stream, port, lost, seconds, picoseconds, first, number, high, low = struct.unpack_from(">4IQ2I2Q", front)
    demand_source(port, lost)
    stamp = read_stamp(seconds, picoseconds)
    demand_span(first, number, part)
    fields = ContextFields.of_bytes(front[48 : 48 + FIELDS_SIZE])
    wrong = fields.broken_rule()
    demand(wrong is None, wrong)
    moment = high << 64 | low
    demand(moment == capture_moment(stamp, first, fields.sample_rate), "its capture moment is not that of its rate")
    return Bound(stream, port, lost, stamp, first, number, moment, fields)


def read_uncertain(front, part):
    values = struct.unpack(">6IQ2I2Q", front)
    stream, port, lost, reason, detail, seconds, picoseconds, first, number, high, low = values
    demand_source(port, lost)
    demand_reason(reason, detail, range(2, 7))
    stamp = read_stamp(seconds, picoseconds)
    demand_span(first, number, part)
    return Uncertain(stream, port, lost, reason, detail, stamp, first, number, high << 64 | low)


def read_raw(front, part):
    stream, port, lost, reason, detail, seconds, picoseconds, pad = struct.unpack(">6IQI", front)
    demand_source(port, lost)
    demand_reason(reason, detail, (1, 2, 3, 4, 5, 7))
    demand(pad <= 31, "its pad is above 31")
    return Raw(stream, port, lost, reason, detail, read_stamp(seconds, picoseconds), pad, part // 4)


def read_acknowledgement(front, _part):
    (port,) = struct.unpack(">I", front)
    demand(port < 1 << 16, "its port has more than 16 bits")
    return Acknowledgement(port)


def read_refused(front, _part):
    frame, port, reason, detail, seconds, picoseconds = struct.unpack(">Q4IQ", front)
    demand(frame >= 1, "its frame number is 0")
    demand(port < 1 << 16, "its port has more than 16 bits")
    demand(reason in REFUSALS, f"its reason is {reason}")
    stamp = read_stamp(seconds, picoseconds)
    demand(reason == LATE or stamp == 0, "it has a stamp and is not late")
    return Refused(frame, port, reason, detail, stamp)


def read_version(front, _part):
    port, _first, stream = struct.unpack_from(">3I", front)
    demand(port < 1 << 16, "its port has more than 16 bits")
    return Version(stream, port)


def read_end(front, _part):
    return End(struct.unpack(">7Q", front))


# Of each kind: the bytes in front of its samples, payload or packet; whether such a part follows; its reader.
KINDS = {
    1: (124, True, read_bound),
    2: (56, True, read_uncertain),
    3: (36, True, read_raw),
    4: (4, True, read_acknowledgement),
    5: (32, False, read_refused),
    6: (48, False, read_version),
    7: (56, False, read_end),
}


def read_front(source, head):
    """What a record says, read as far as its samples or payload, and the bytes of these."""
    kind, length = struct.unpack(">2I", head)
    demand(kind in KINDS, f"its kind is {kind}")
    size, has_part, reader = KINDS[kind]
    part = length - size
    demand(part > 0 and part % 4 == 0 if has_part else part == 0, f"a body of kind {kind} has no {length} bytes")
    front = source.read(size)
    demand(len(front) == size, "the input ends inside it")
    return reader(front, part), part


def pass_part(source, left, taker):
    """Hands the bytes of a record's part to the taker, where there is one, in pieces."""
    while left:
        size = min(left, PIECE)
        piece = source.read(size)
        demand(len(piece) == size, "the input ends inside it")
        if taker is not None:
            taker(piece)
        left -= len(piece)


def release_records(source, taker_of=None):
    """Tells each record of a source once it stands whole, up to the end record, which must be the last.

    Where `taker_of(record)` gives a function, that one is handed the pieces of the record's samples or
    payload before the record is told; what it took of a record that does not come whole is void.
    `BrokenInput` is raised with the offset of the first record that is none.
    """
    offset, ended, pairs = 0, False, set()
    while True:
        try:
            head = source.read(8)
            if ended and not head:
                return
            demand(not ended, "bytes follow behind the end record")
            demand(head, "the input ends without an end record")
            demand(len(head) == 8, "the input ends inside it")
            record, part = read_front(source, head)
            if isinstance(record, (Bound, Uncertain, Raw, Version)):
                pairs.add((record.stream, record.port))
                demand(len(pairs) <= MOST_PAIRS, f"more than {MOST_PAIRS} pairs of stream and port come from no replay")
            pass_part(source, part, None if taker_of is None else taker_of(record))
        except Wrong as wrong:
            raise BrokenInput(offset, str(wrong)) from None
        offset += 8 + struct.unpack_from(">I", head, 4)[0]
        ended = isinstance(record, End)
        yield record
