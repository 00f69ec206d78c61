"""Times a command of the program beside a plain copy of the same record, in turns.

Each line that is printed: MB of record a second, by the best of seven runs (1 MB is 10^6 bytes), and
the middle of the seven ratios to the copy's speed. The program crates/difi/out/difi stands there
after `rt ci`, or after the script `difi` ran.
"""
import os
import statistics
import struct
import subprocess
import sys
import tempfile
import time

TOP = os.path.dirname(os.path.dirname(os.path.abspath(__file__)))
PROGRAM = os.path.join(TOP, "crates/difi/out/difi")
ROUNDS = 7
FRAME = ">IQHHI"


def header_and_datagrams(name):
    """The header of a record among the examples, and the datagrams of its frames."""
    with open(os.path.join(TOP, "examples", name), "rb") as example:
        record = example.read()
    place = 332 + 8 * struct.unpack_from(">I", record, 36)[0]
    header, datagrams = record[:place], []
    while place < len(record):
        place += struct.calcsize(FRAME)
        length = struct.unpack_from(">I", record, place - 4)[0]
        datagrams.append(record[place : place + length])
        place += length
    return header, datagrams


def frame(seconds, datagram):
    """The frame of a datagram that came at this second on port 5."""
    return struct.pack(FRAME, seconds, 0, 5, 0, len(datagram)) + datagram


def seconds(path, words):
    with open(path, "rb") as record:
        start = time.perf_counter()
        subprocess.run(words, stdin=record, stdout=subprocess.DEVNULL, check=True)
        return time.perf_counter() - start


def time_beside_copy(command, pieces):
    """Times the command on the record that these pieces are."""
    if not os.access(PROGRAM, os.X_OK):
        sys.exit(f"{PROGRAM} is not there: run `./difi {command} < examples/two.difirec` first")
    with tempfile.NamedTemporaryFile() as file:
        for piece in pieces:
            file.write(piece)
        file.flush()
        size = os.path.getsize(file.name) / 1e6
        pairs = [(seconds(file.name, ["cat"]), seconds(file.name, [PROGRAM, command])) for _ in range(ROUNDS)]
    print(f"copy: {size / min(copy for copy, _ in pairs):.0f} MB/s")
    ratio = statistics.median(copy / own for copy, own in pairs)
    print(f"{command}: {size / min(own for _, own in pairs):.0f} MB/s, {ratio:.2f} of the copy")
