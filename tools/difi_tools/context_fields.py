"""The nineteen words of a context's fields, as bound samples and record headers have them."""

import struct
from fractions import Fraction
from typing import NamedTuple

HERTZ = 1 << 20
"""The units of 2^-20 Hz in one hertz."""
LEAST_RATE = HERTZ
SIZE = 76
LAYOUT = struct.Struct(">I4q2I2q4I")
assert LAYOUT.size == SIZE


class ContextFields(NamedTuple):
    """The words of all twelve fields. Frequencies and the rate are in units of 2^-20 Hz."""

    reference_point: int
    bandwidth: int
    if_reference: int
    rf_reference: int
    if_offset: int
    reference_level: int
    gain: int
    sample_rate: int
    time_adjustment: int
    calibration: int
    state: int
    format_first: int
    format_second: int

    @classmethod
    def of_bytes(cls, data):
        return cls(*LAYOUT.unpack(data))

    def to_bytes(self):
        return LAYOUT.pack(*self)

    @property
    def item_size(self):
        """The bits of an item as it was sent; each sample is two items, I and Q."""
        return (self.format_first & 63) + 1

    @property
    def gain_stages(self):
        """Stage 1, in the low half of the word, and stage 2, each in 1/128 dB."""
        return signed_half(self.gain), signed_half(self.gain >> 16)

    @property
    def gain_decibels(self):
        return Fraction(sum(self.gain_stages), 128)

    @property
    def reference_level_dbm(self):
        return Fraction(signed_half(self.reference_level), 128)

    def broken_rule(self):
        """What is wrong with the rate or the payload format, or None."""
        if self.sample_rate < LEAST_RATE:
            return "its sample rate is below 1 Hz"
        if not is_format(self.format_first) or self.format_second:
            return "its payload format is none"
        return None


class Tuning(NamedTuple):
    """What an operator tunes: where samples come from, how many there are in a second, and how loud they are."""

    rf_reference: int
    sample_rate: int
    gain: int

    def text(self):
        gain = Fraction(signed_half(self.gain) + signed_half(self.gain >> 16), 128)
        return (
            f"RF {hertz(self.rf_reference)}, sample rate {hertz(self.sample_rate)}, "
            f"gain {decimal(gain)} dB"
        )


def tuning_of(fields):
    return Tuning(fields.rf_reference, fields.sample_rate, fields.gain)


def signed_half(word):
    """The low half of a word as a signed number."""
    half = word & 0xFFFF
    return half - 0x10000 if half & 0x8000 else half


def is_format(word):
    """Whether the word is a payload format's first one: complex Cartesian items of 4 to 16 bits."""
    size = (word & 63) + 1
    packed = word >> 31
    return (
        word >> 29 & 3 == 1
        and word >> 12 & 0x1FFFF == 0
        and word >> 6 & 63 == size - 1
        and 4 <= size <= 16
        and (packed == 1 or size in (8, 16))
    )


def decimal(value, digits=9):
    """The number with at most so many decimals, without trailing zeros."""
    text = f"{round(Fraction(value) * 10**digits):d}"
    sign, text = ("-", text[1:]) if text.startswith("-") else ("", text)
    text = text.rjust(digits + 1, "0")
    whole, rest = text[:-digits], text[-digits:].rstrip("0")
    return sign + whole + ("." + rest if rest else "")


def hertz(units):
    """A frequency in units of 2^-20 Hz as text in hertz, kilohertz or megahertz."""
    value = Fraction(units, HERTZ)
    for name, factor in (("MHz", 10**6), ("kHz", 10**3)):
        if abs(value) >= factor:
            return f"{decimal(value / factor)} {name}"
    return f"{decimal(value)} Hz"
