"""The words of `tools/releases`, and what each of its three commands does."""

import argparse
import json
import sys

from .clock import CODES
from .release_records import BrokenInput, release_records
from .table import Summary
from .words import Counted, complain, finish, number_within

NAME = "releases"
ABOUT = """Shows what `difi replay` wrote, given on standard input. Without a command, the table is written.

Exit codes: 0, all was read, and the table agrees with the end record; 1, the input is broken or cut, or the
table does not agree, or what was asked for cannot be told: a line on standard error says it; 2, the words are wrong."""


def parser():
    words = argparse.ArgumentParser(NAME, description=ABOUT, formatter_class=argparse.RawDescriptionHelpFormatter)
    shared = argparse.ArgumentParser(add_help=False)
    shared.add_argument(
        "--time",
        choices=CODES,
        default="utc",
        help="the time code of the record that was replayed, since releases do not tell it: the seconds "
        "count UTC (the default), GPS time, or from another start",
    )
    commands = words.add_subparsers(dest="command", metavar="COMMAND")
    table = commands.add_parser("table", parents=[shared], help="numbers for each stream and port (the default)")
    table.add_argument("--json", action="store_true", help="the same numbers as JSON")
    picture = commands.add_parser("picture", parents=[shared], help="a timeline, one row a stream and port")
    picture.add_argument("out", metavar="OUT.svg|OUT.png", help="the file that is written")
    sigmf = commands.add_parser("sigmf", parents=[shared], help="the bound samples of a stream as a SigMF recording")
    sigmf.add_argument("prefix", metavar="PREFIX", help="PREFIX.sigmf-meta and PREFIX.sigmf-data are written")
    sigmf.add_argument("--stream", required=True, type=number_within(0, 2**32 - 1), metavar="S")
    sigmf.add_argument("--port", required=True, type=number_within(0, 2**16 - 1), metavar="P")
    sigmf.add_argument("--rate", metavar="HZ", help="take the samples at this rate alone, where a stream has several")
    return words


def with_default(words):
    """The words, with the command that is meant where none is named."""
    return words if words[:1] and words[0] in ("table", "picture", "sigmf", "-h", "--help") else ["table", *words]


def read_all(source, add, taker_of=None):
    """Adds all records, and tells what is wrong with the input, or None."""
    try:
        for record in release_records(source, taker_of):
            add(record)
    except BrokenInput as broken:
        return str(broken)
    return None


def tell_table(chosen, source):
    summary = Summary(chosen.time)
    wrong = read_all(source, summary.add)
    source.close()
    if chosen.json:
        told = summary.as_json()
        told["broken"] = wrong
        print(json.dumps(told, indent=2))
    else:
        print(summary.as_text(), end="")
    for line in [wrong] * (wrong is not None) + summary.disagreements():
        complain(NAME, line)
    return 1 if wrong is not None or summary.disagreements() else 0


def draw_picture(chosen, source):
    from .picture import Picture, is_picture_name

    if not is_picture_name(chosen.out):
        complain(NAME, f"{chosen.out}: a picture is a file .svg or .png")
        return 2
    picture = Picture(chosen.time)
    wrong = read_all(source, picture.add)
    source.close()
    try:
        picture.write(chosen.out)
    except OSError as fault:
        complain(NAME, f"{chosen.out}: {fault.strerror}")
        return 1
    if wrong is not None:
        complain(NAME, wrong)
    return 0 if wrong is None else 1


def write_sigmf(chosen, source):
    from .sigmf import CannotTell, Recording, units_of_rate

    try:
        rate = units_of_rate(chosen.rate)
        with Recording(chosen.prefix, chosen.stream, chosen.port, chosen.time, rate) as recording:
            wrong = read_all(source, recording.add, recording.taker_of)
            source.close()
            recording.finish()
    except CannotTell as reason:
        source.close()
        complain(NAME, str(reason))
        return 1
    except OSError as fault:
        complain(NAME, f"{fault.filename or chosen.prefix}: {fault.strerror}")
        return 1
    if wrong is not None:
        complain(NAME, wrong)
    return 0 if wrong is None else 1


def main(words):
    chosen = parser().parse_args(with_default(words))
    does = {"table": tell_table, "picture": draw_picture, "sigmf": write_sigmf}[chosen.command]
    try:
        code = does(chosen, Counted(sys.stdin.buffer, sys.stderr))
    except BrokenPipeError:
        code = 1
    except KeyboardInterrupt:
        code = 130
    finish(code)
