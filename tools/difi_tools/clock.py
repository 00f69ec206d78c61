"""Moments as dates. A moment is a number of picoseconds, and its whole seconds are counted as a record's
time code says: UTC since 1970, GPS time since 6 January 1980, or from another start, which has no dates."""

from bisect import bisect_right
from datetime import datetime, timezone

from .release_records import SECOND

GPS_START = int(datetime(1980, 1, 6, tzinfo=timezone.utc).timestamp())
# UTC stayed one second more behind GPS time from the first day of these months on.
LEAPS = (
    (1981, 7), (1982, 7), (1983, 7), (1985, 7), (1988, 1), (1990, 1), (1991, 1), (1992, 7), (1993, 7),
    (1994, 7), (1996, 1), (1997, 7), (1999, 1), (2006, 1), (2009, 1), (2012, 7), (2015, 7), (2017, 1),
)  # fmt: skip
LEAPS_IN_GPS_SECONDS = [
    int(datetime(year, month, 1, tzinfo=timezone.utc).timestamp()) - GPS_START + number
    for number, (year, month) in enumerate(LEAPS, start=1)
]
LAST_SECOND = int(datetime(9999, 12, 31, 23, 59, 59, tzinfo=timezone.utc).timestamp())
CODES = ("utc", "gps", "other")


def unix_seconds(seconds, code):
    """The seconds since 1970 in UTC, without leap seconds, or None where there is no date."""
    if code == "gps":
        seconds += GPS_START - bisect_right(LEAPS_IN_GPS_SECONDS, seconds)
    return None if code == "other" or seconds > LAST_SECOND else seconds


def instant(moment, code, digits=12):
    """The date and time in UTC with so many decimals of a second, cut off, or else the seconds."""
    seconds, rest = divmod(moment, SECOND)
    decimals = f".{rest:012d}"[: digits + 1] if digits else ""
    unix = unix_seconds(seconds, code)
    if unix is None:
        return f"{seconds}{decimals} s"
    return datetime.fromtimestamp(unix, timezone.utc).strftime("%Y-%m-%dT%H:%M:%S") + decimals + "Z"
