"""The words of `tools/header`."""

import argparse
import re
import sys
from fractions import Fraction

from .context_fields import HERTZ
from .record_header import (
    BOUNDED, HALF_WORDS, MOST_PENDING, NEUTRAL, Bound, Header, Refusal, demand_header, initial_of_context,
)  # fmt: skip
from .words import complain, finish, number

NAME = "header"
ABOUT = """Writes the header of a record of received datagrams on standard output. Frames come behind it.
Numbers are decimal, or hexadecimal behind 0x.

What is out of range gets a line that names the option, and the exit code 2; nothing is written then."""
TIME_CODES = {"utc": 1, "gps": 2, "other": 3}
UUID = re.compile(r"[0-9a-f]{8}-[0-9a-f]{4}-[0-9a-f]{4}-[0-9a-f]{4}-[0-9a-f]{12}", re.IGNORECASE)
UNITS = {"Hz": 1, "kHz": 10**3, "MHz": 10**6, "GHz": 10**9}
MEASURE = re.compile(r"(-?\d+(?:\.\d+)?)(Hz|kHz|MHz|GHz|dBm|dB)")


def time_code(text):
    return TIME_CODES[text] if text in TIME_CODES else number(text)


def identity(text):
    """No bytes, the four of a word, or the sixteen of a UUID."""
    if text == "none":
        return b""
    if UUID.fullmatch(text):
        return bytes.fromhex(text.replace("-", ""))
    word = number(text)
    if not 0 <= word < 1 << 32:
        raise argparse.ArgumentTypeError(f"{text}: a word is not within 0 to {2**32 - 1}, and it is no UUID")
    return word.to_bytes(4, "big")


def route(text):
    """STREAM:PORT[,PORT..]"""
    stream, colon, ports = text.partition(":")
    if not colon:
        raise argparse.ArgumentTypeError(f"{text!r} is not STREAM:PORT[,PORT..]")
    return number(stream), tuple(number(port) for port in ports.split(","))


def measure(name, text):
    """A value in the units of its field, or with a unit behind it."""
    found = MEASURE.fullmatch(text)
    if found is None:
        return number(text)
    value, unit = Fraction(found[1]), found[2]
    wanted = {"reference-level": ("dBm",), "gain": ("dB",)}.get(name, tuple(UNITS))
    if unit not in wanted:
        raise argparse.ArgumentTypeError(f"{text}: {name} is in {' or '.join(wanted)}")
    units = value * 128 if name in HALF_WORDS else value * UNITS[unit] * HERTZ
    if units.denominator != 1:
        unit = "1/128 dB" if name in HALF_WORDS else "2^-20 Hz"
        raise argparse.ArgumentTypeError(f"{text} is no whole number of {unit}")
    return int(units)


def bound(text):
    """FIELD=STEP,LEAST,GREATEST"""
    name, equals, values = text.partition("=")
    parts = values.split(",")
    if not equals or len(parts) != 3:
        raise argparse.ArgumentTypeError(f"{text!r} is not FIELD=STEP,LEAST,GREATEST")
    if name not in BOUNDED:
        raise argparse.ArgumentTypeError(f"{name!r} is none of {', '.join(BOUNDED)}")
    return name, Bound(*(measure(name, part) for part in parts))


def initial(path):
    try:
        with open(path, "rb") as file:
            return initial_of_context(file.read(65_536))
    except OSError as fault:
        raise argparse.ArgumentTypeError(f"{path}: {fault.strerror}") from None


def parser():
    words = argparse.ArgumentParser(
        NAME, description=ABOUT, formatter_class=argparse.RawDescriptionHelpFormatter, allow_abbrev=False
    )

    def option(name, kind, default, text, metavar="N", **more):
        words.add_argument(name, type=kind, default=default, help=text, metavar=metavar, **more)

    option("--form", number, 1, "1 (default) or 2: 2 has more routes, and up to four ports for each", choices=(1, 2))
    option("--class-id", number, 0x6A621E, "class identifier of the packets, below 2^24 (default 0x6A621E)")
    option("--time-code", time_code, 1, "what their seconds count: utc, gps or other, or 1 to 3 (default utc)")
    option("--max-words", number, 400, "most words of a packet, 43 to 16376; one of more is too large (default 400)")
    option("--data-window", number, 16, "how many data packets are held to be put in order, 0 to 4096 (default 16)")
    option("--context-window", number, 4, "the same for context packets, 0 to 4096 (default 4)")
    option("--kept", number, 16, "contexts kept of a stream, 2 to 4096 (default 16)")
    option(
        "--pending",
        number,
        4096,
        f"data packets of a stream that may wait for a context, 1 to {MOST_PENDING[1]}, in form 2 to {MOST_PENDING[2]} "
        "(default 4096)",
    )
    option("--identity", identity, b"", "of the controllee: none (default), a word, or a UUID", "none|WORD|UUID")
    option("--route", route, [], "where a stream goes; once for each stream", "STREAM:PORT[,PORT..]", action="append")
    option("--initial", initial, NEUTRAL, "file with a context packet whose fields are the initial ones", "FILE")
    option(
        "--bound",
        bound,
        [],
        f"limits of a field ({', '.join(BOUNDED)}), in units of 2^-20 Hz or 1/128 dB, or with Hz, kHz, MHz, GHz, dB or "
        "dBm behind them",
        action="append",
        metavar="FIELD=STEP,LEAST,GREATEST",
    )
    return words


def header_of(chosen):
    """The header that the words ask for; `Refusal` says what is wrong with it."""
    bounds = dict(chosen.bound)
    if len(bounds) < len(chosen.bound):
        raise Refusal("--bound: a field is named twice")
    header = Header(
        chosen.form,
        chosen.class_id,
        chosen.time_code,
        chosen.max_words,
        chosen.data_window,
        chosen.context_window,
        chosen.kept,
        chosen.pending,
        chosen.identity,
        chosen.initial,
        bounds,
        tuple(sorted(chosen.route)),
    )
    demand_header(header)
    return header


def main(words):
    """Writes the header, or says why there is none."""
    code = 0
    try:
        header = header_of(parser().parse_args(words))
        if sys.stdout.isatty():
            raise Refusal("standard output is a terminal, and a header is no text: send it to a file")
        sys.stdout.buffer.write(header.to_bytes())
        sys.stdout.buffer.flush()
    except Refusal as refusal:
        complain(NAME, str(refusal))
        code = 2
    except BrokenPipeError:
        code = 1
    finish(code)
