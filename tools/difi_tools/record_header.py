"""The header of a record of received datagrams, in either form, with the rules of docs/FORMATS.md, 'Records'."""

import struct
from typing import NamedTuple

from .context_fields import LEAST_RATE, ContextFields

MAGIC = {1: b"DIFIREC1", 2: b"DIFIREC2"}
MOST_ROUTES = {1: 64, 2: 256}
MOST_PORTS = {1: 1, 2: 4}
MOST_PENDING = {1: 65_536, 2: 1_048_576}
LEAST_WORDS, MOST_WORDS = 43, 16_376
MOST_WINDOW = 4_096
LEAST_KEPT, MOST_KEPT = 2, 4_096
MOST_ROOM = 1 << 30
CLASS_LIMIT = 1 << 24

NEUTRAL = ContextFields(0, 0, 0, 0, 0, 0, 0, LEAST_RATE, 0, 0, 0, 0xA00003CF, 0)
"""Fields that say nothing: zeros, the least rate of 1 Hz, and items of 16 bits."""

BOUNDED = ("bandwidth", "if", "rf", "if-offset", "reference-level", "gain", "sample-rate")
HALF_WORDS = ("reference-level", "gain")
MOST_STEP = 2**63 - 1
CONTEXT_SIZE = 108
CONTEXT_CLASS = 1


class Refusal(Exception):
    """What is wrong, beginning with the option that it concerns."""


class Bound(NamedTuple):
    """The limits of a field: its values are multiples of the step, from the least to the greatest."""

    step: int
    least: int
    greatest: int

    def to_bytes(self):
        return struct.pack(">IQqq", 1, *self)


NO_BOUND = bytes(28)


class Header(NamedTuple):
    """The values of a header. A route is a stream and its ports."""

    form: int
    class_id: int
    time_code: int
    max_words: int
    data_window: int
    context_window: int
    kept: int
    pending: int
    identity: bytes
    initial: ContextFields
    bounds: dict
    routes: tuple

    def to_bytes(self):
        numbers = struct.pack(
            ">9I",
            self.class_id,
            self.time_code,
            self.max_words,
            self.data_window,
            self.context_window,
            self.kept,
            self.pending,
            len(self.routes),
            {0: 0, 4: 1, 16: 2}[len(self.identity)],
        )
        limits = b"".join(self.bounds[name].to_bytes() if name in self.bounds else NO_BOUND for name in BOUNDED)
        routes = b"".join(route_bytes(self.form, *route) for route in self.routes)
        return MAGIC[self.form] + numbers + self.identity.ljust(16, b"\0") + self.initial.to_bytes() + limits + routes


def route_bytes(form, stream, ports):
    if form == 1:
        return struct.pack(">IHH", stream, ports[0], 0)
    return struct.pack(">IH4HH", stream, len(ports), *ports, *[0] * (4 - len(ports)), 0)


def demand(holds, why):
    if not holds:
        raise Refusal(why)


def demand_within(option, value, least, most):
    demand(least <= value <= most, f"{option}: {value} is not within {least} to {most}")


def demand_bound(name, bound):
    """The rules of a field's limits, in their order."""
    option = f"--bound {name}"
    demand_within(f"{option}: step", bound.step, 1, MOST_STEP)
    for word, value in (("least", bound.least), ("greatest", bound.greatest)):
        if name in HALF_WORDS:
            demand_within(f"{option}: {word}", value, -32_768, 32_767)
        least = LEAST_RATE if name == "sample-rate" else -(2**63)
        demand_within(f"{option}: {word}", value, least, MOST_STEP)
        demand(value % bound.step == 0, f"{option}: {word} {value} is no multiple of the step {bound.step}")
    demand(bound.least <= bound.greatest, f"{option}: greatest {bound.greatest} is below least {bound.least}")


def demand_routes(form, routes):
    most = MOST_ROUTES[form]
    demand(len(routes) <= most, f"--route: {len(routes)} routes, and form {form} has at most {most}")
    streams = [stream for stream, _ports in routes]
    for stream, ports in routes:
        name = f"--route {stream:#x}"
        demand_within("--route: stream", stream, 0, 2**32 - 1)
        demand(streams.count(stream) == 1, f"{name}: the stream is listed twice")
        demand(
            1 <= len(ports) <= MOST_PORTS[form],
            f"{name}: {len(ports)} ports, and a route of form {form} has at most {MOST_PORTS[form]}",
        )
        for port in ports:
            demand_within(f"{name}: port", port, 0, 65_535)
        demand(len(set(ports)) == len(ports), f"{name}: a port is listed twice")


def demand_header(header):
    """The rules of all values; whoever breaks one is told the option."""
    demand_within("--class-id", header.class_id, 0, CLASS_LIMIT - 1)
    demand_within("--time-code", header.time_code, 1, 3)
    demand_within("--max-words", header.max_words, LEAST_WORDS, MOST_WORDS)
    demand_within("--data-window", header.data_window, 0, MOST_WINDOW)
    demand_within("--context-window", header.context_window, 0, MOST_WINDOW)
    demand_within("--kept", header.kept, LEAST_KEPT, MOST_KEPT)
    demand_within("--pending", header.pending, 1, MOST_PENDING[header.form])
    demand_routes(header.form, header.routes)
    room = len(header.routes) * (header.data_window + 1 + header.pending) * 4 * header.max_words
    demand(
        room <= MOST_ROOM,
        f"--route, --data-window, --pending, --max-words: {len(header.routes)} routes need {room} bytes for "
        f"packets that wait, and there are at most {MOST_ROOM}",
    )
    wrong = header.initial.broken_rule()
    demand(wrong is None, f"--initial: {wrong}")
    for name, bound in header.bounds.items():
        demand_bound(name, bound)


def initial_of_context(data):
    """The fields of a context packet, which is all that the bytes are."""
    demand(len(data) == CONTEXT_SIZE, f"--initial: a context packet has {CONTEXT_SIZE} bytes, and not {len(data)}")
    first, _stream, class_word, classes, _seconds, picoseconds, cif0 = struct.unpack_from(">5IQI", data)
    demand(first >> 28 == 4, f"--initial: word 0 says packet type {first >> 28}, and a context packet has 4")
    demand(first >> 26 & 3 == 2, "--initial: word 0 says no class identifier, or has its bit 26 set")
    demand(first >> 22 & 3 != 0 and first >> 20 & 3 == 2, "--initial: word 0 says no timestamp with picoseconds")
    demand(first & 0xFFFF == 27, f"--initial: word 0 says {first & 0xFFFF} words, and a context packet has 27")
    demand(class_word >> 24 == 0, "--initial: word 2 has bits set above the class identifier")
    demand(classes == CONTEXT_CLASS, "--initial: word 3 says another class than a context's")
    demand(picoseconds < 10**12, "--initial: its picoseconds are a second or more")
    demand(cif0 & 0x7FFFFFFF == 0x7BB98000, f"--initial: CIF0 is {cif0:08X}, and a context has all twelve fields")
    return ContextFields.of_bytes(data[32:])
