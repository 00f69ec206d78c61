"""Release records written down by hand, of a stream 1 that goes to port 9 and begins at 1,700,000,000 s."""

import os
import struct
import subprocess
import sys

TOOLS = os.path.dirname(os.path.dirname(os.path.abspath(__file__)))
TOP = os.path.dirname(TOOLS)
PROGRAM = os.path.join(TOP, "crates/difi/out/difi")
HAS_PROGRAM = os.access(PROGRAM, os.X_OK)
NEEDS_PROGRAM = "crates/difi/out/difi is not built"
START = 1_700_000_000 * 10**12

# 280,000 Hz of bandwidth, IF 70 MHz, RF 1,200 MHz, gain 10 dB, 350,000 samples in a second, items of 16 bits.
BASE = (
    "00000064 00000044 5C000000 000042C1 D8000000 00047868 C0000000 00000000 00000000 00000000"
    "00000500 00000055 73000000 00000000 00000000 00000000 C00C0000 A00003CF 00000000"
)
SLOW = BASE.replace("00000055 73000000", "00000000 00200000")  # 2 samples in a second
LOUD = SLOW.replace("00000500", "00000600")  # and 12 dB


def data_of(text):
    return bytes.fromhex(text)


def end(frames, bound=0, uncertain=0, raw=0, refused=0, acknowledgements=0, versions=0):
    return struct.pack(">2I7Q", 7, 56, frames, bound, uncertain, raw, refused, acknowledgements, versions)


NOTHING = data_of("00000007 00000038" + "00000000" * 14)
# The 19 words of the fields and two samples stand behind 14 words.
FIRST_TWO = data_of(
    "00000001 00000084 00000001 00000009 00000000 6553F100 00000000 00000000 00000000 00000002"
    "00000000 0000005C 283D4103 94100000" + SLOW + "00010002 00030004"
)
NEXT_TWO = data_of(
    "00000001 00000084 00000001 00000009 00000000 6553F100 00000000 00000000 00000002 00000002"
    "00000000 0000005C 283D41EC 68B51000" + LOUD + "00050006 00070008"
)
# The same two samples where the rate changes in the middle of the packet.
OTHER_RATE = data_of(
    "00000002 00000040 00000001 00000009 00000000 00000006 00000000 6553F100 00000000 00000000"
    "00000002 00000002 00000000 0000005C 283D41EC 68B51000 00050006 00070008"
)
# A packet of one sample at 1.5 s, where a context was lost; and for a second port.
CONTEXT_LOST = data_of(
    "00000003 00000028 00000001 00000009 00000000 00000002 00000001 6553F101 00000074 6A528800 00000000 00010002"
)
CONTEXT_LOST_PORT_7 = CONTEXT_LOST[:15] + b"\x07" + CONTEXT_LOST[16:]
# The same packet where the next context shows that nothing was changed.
HEALED = data_of(
    "00000001 00000080 00000001 00000009 00000000 6553F101 00000074 6A528800 00000000 00000001"
    "00000000 0000005C 283D4260 D3079800" + BASE + "00010002"
)
MALFORMED = data_of("00000005 00000020 00000000 00000001 00000005 00000002 00000000 00000000 00000000 00000000")
TOO_LARGE = data_of("00000005 00000020 00000000 00000001 00000005 00000001 00000641 00000000 00000000 00000000")
# The second frame has the stamp of the first, whose count is 3.
CONFLICT = data_of("00000005 00000020 00000000 00000002 00000005 00000006 00000003 00000000 00000000 00000000")
# The fourth frame comes behind the packet of one second later.
TOO_LATE = data_of("00000005 00000020 00000000 00000004 00000005 00000004 00000000 6553F101 00000000 00000000")
VERSION = data_of(
    "00000006 00000030 00000009 5960000B 00000001 006A621E 00010004 6553F100 00000000 00000000"
    "80000002 0000000C 00000004 00000000"
)
ACKNOWLEDGEMENT = data_of(
    "00000004 00000034 00000005 6C60000C 00000001 006A621E 00000000 6553F10A 00000000 00000000"
    "01090000 00000001 00A00000 80000000 90000000"
)
ALL_KINDS = (
    FIRST_TWO + OTHER_RATE + CONTEXT_LOST + ACKNOWLEDGEMENT + MALFORMED + VERSION + end(9, 2, 2, 1, 1, 1, 1)
)


def one_sample(seconds, lost):
    """A bound sample at so many seconds behind the start, with packets lost before it."""
    stamp = 1_700_000_000 + seconds
    front = struct.pack(">6IQ2I", 1, 128, 1, 9, lost, stamp, 0, 0, 1)
    return front + (stamp * 10**12).to_bytes(16, "big") + data_of(BASE) + data_of("00010002")


def releases(words, data, cwd=None):
    """Runs `tools/releases`."""
    return run("releases", words, data, cwd)


def run(name, words, data=b"", cwd=None):
    command = [sys.executable, os.path.join(TOOLS, name), *words]
    return subprocess.run(command, input=data, capture_output=True, check=False, timeout=60, cwd=cwd)


def replayed(name):
    """What the program writes for an example."""
    with open(os.path.join(TOP, "examples", name + ".difirec"), "rb") as record:
        return subprocess.run([PROGRAM, "replay"], stdin=record, capture_output=True, check=True).stdout
