"""`tools/header`."""

import contextlib
import io
import os
import struct
import subprocess
import tempfile
import unittest

from difi_tools.context_fields import ContextFields
from difi_tools.header import header_of, parser
from difi_tools.record_header import Refusal

from .worked import BASE, HAS_PROGRAM, NEEDS_PROGRAM, PROGRAM, TOP, data_of, run

UUID = "00112233-4455-6677-8899-aabbccddeeff"
CONTEXT = data_of("4960001B 00000001 006A621E 00000001 6553F100 00000000 00000000 FBB98000" + BASE)
NEUTRAL = "00000000" * 11 + "00000000 00100000" + "00000000" * 4 + "A00003CF 00000000"

# Of each option: words at its bounds, and words one beyond, with what the message says.
NUMBERS = (
    ("--form", ("1", "2"), ("0", "3")),
    ("--class-id", ("0", "0xFFFFFF"), ("-1", "0x1000000")),
    ("--time-code", ("1", "3", "utc", "gps", "other"), ("0", "4", "tai")),
    ("--max-words", ("43", "16376"), ("42", "16377")),
    ("--data-window", ("0", "4096"), ("-1", "4097")),
    ("--context-window", ("0", "4096"), ("-1", "4097")),
    ("--kept", ("2", "4096"), ("1", "4097")),
    ("--pending", ("1", "65536"), ("0", "65537")),
    ("--pending", ("1048576",), ("1048577",), "--form", "2"),
    ("--identity", ("none", "0", "0xFFFFFFFF", UUID), ("-1", "0x100000000", UUID[:-1])),
    ("--route", ("0:0", "0xFFFFFFFF:65535"), ("0x100000000:1", "1:65536", "1:-1", "1", "1:", "1:2,3")),
    ("--route", ("1:2,3", "1:1,2,3,4"), ("1:1,2,3,4,5", "1:2,2"), "--form", "2"),
)
STEP = 2**63 - 1
BOUNDS = (
    ("bandwidth=1,-9223372036854775808,9223372036854775807", None),
    (f"if={STEP},{-STEP},{STEP}", None),
    (f"rf={STEP},0,0", None),
    ("rf=1kHz,1000MHz,2GHz", None),
    ("if-offset=3,-3,6", None),
    ("reference-level=1,-32768,32767", None),
    ("reference-level=0.5dBm,-10dBm,10dBm", None),
    ("gain=64,-2560,2560", None),
    ("gain=1,-32768,32767", None),
    ("sample-rate=1,1048576,9223372036854775807", None),
    ("sample-rate=1Hz,1Hz,1MHz", None),
    ("if=0,0,0", "step: 0 is not within"),
    (f"if={STEP + 1},0,0", "step: 9223372036854775808 is not within"),
    ("if=1,-9223372036854775809,0", "least: -9223372036854775809 is not within"),
    ("if=1,0,9223372036854775808", "greatest: 9223372036854775808 is not within"),
    ("if=3,1,3", "least 1 is no multiple of the step 3"),
    ("if=3,3,4", "greatest 4 is no multiple of the step 3"),
    ("if=3,6,3", "greatest 3 is below least 6"),
    ("reference-level=1,-32769,0", "least: -32769 is not within"),
    ("gain=1,0,32768", "greatest: 32768 is not within"),
    ("gain=1,-32769,0", "least: -32769 is not within"),
    ("sample-rate=1,1048575,1048576", "least: 1048575 is not within"),
    ("gain=1Hz,0,0", "gain is in dB"),
    ("rf=0.1Hz,0,0", "no whole number of 2^-20 Hz"),
    ("gain=1,2", "is not FIELD=STEP,LEAST,GREATEST"),
    ("tuning=1,2,3", "is none of"),
)


def header(*words):
    return header_of(parser().parse_args(words)).to_bytes()


def refusal(*words):
    """The line that says what is wrong with the words."""
    said = io.StringIO()
    try:
        with contextlib.redirect_stderr(said):
            header(*words)
    except Refusal as refused:
        return str(refused)
    except SystemExit as ended:
        assert ended.code == 2
        return said.getvalue()
    raise AssertionError(f"{words} are not refused")


def is_record(data):
    """Whether `check` finds that the bytes are a record."""
    done = subprocess.run([PROGRAM, "check"], input=data, capture_output=True, check=False)
    return (done.returncode, done.stdout) == (0, b"frames 0 ok 0 refused 0\n")


class Bytes(unittest.TestCase):
    def test_the_defaults(self):
        wanted = b"DIFIREC1" + struct.pack(">9I", 0x6A621E, 1, 400, 16, 4, 16, 4096, 0, 0) + bytes(16)
        self.assertEqual(header(), wanted + data_of(NEUTRAL) + bytes(196))

    def test_the_header_of_the_examples(self):
        with tempfile.NamedTemporaryFile() as file:
            file.write(CONTEXT)
            file.flush()
            words = ["--data-window", "0", "--context-window", "0", "--kept", "4", "--pending", "8", "--route", "1:9"]
            words += ["--bound", "rf=1Hz,1GHz,2GHz", "--bound", "gain=0.5dB,-20dB,20dB"]
            made = header(*words, "--initial", file.name, "--bound", "sample-rate=1Hz,100kHz,1MHz")
        with open(os.path.join(TOP, "examples/site.difirec"), "rb") as record:
            self.assertEqual(made, record.read(340))

    def test_form_2_has_routes_of_sixteen_bytes(self):
        made = header("--form", "2", "--route", "7:5,6", "--route", "2:9")
        self.assertEqual(made[:8], b"DIFIREC2")
        self.assertEqual(made[36:40].hex(), "00000002")
        routes = "00000002 0001 0009 0000 0000 0000 0000" "00000007 0002 0005 0006 0000 0000 0000"
        self.assertEqual(made[332:], data_of(routes))

    def test_identities(self):
        self.assertEqual(header("--identity", "0x01020304")[40:60].hex(), "00000001" "01020304" + "00" * 12)
        self.assertEqual(header("--identity", UUID)[40:60].hex(), "00000002" + UUID.replace("-", ""))

    def test_a_field_s_bounds_stand_at_its_place(self):
        for place, name in enumerate(("bandwidth", "if", "rf", "if-offset", "reference-level", "gain", "sample-rate")):
            made = header("--bound", f"{name}=1048576,1048576,2097152" if place not in (4, 5) else f"{name}=1,-2,3")
            entry = (1, 1048576, 1048576, 2097152) if place not in (4, 5) else (1, 1, -2, 3)
            self.assertEqual(made[136:332], bytes(28 * place) + struct.pack(">IQqq", *entry) + bytes(28 * (6 - place)))


class Ranges(unittest.TestCase):
    def test_each_option_at_its_bounds_and_one_beyond(self):
        for option, within, beyond, *more in NUMBERS:
            for word in within:
                made = header(option, word, *more)
                if HAS_PROGRAM:
                    self.assertTrue(is_record(made), (option, word))
            for word in beyond:
                self.assertIn(option, refusal(option, word, *more), (option, word))

    def test_bounds_of_fields(self):
        for word, refused in BOUNDS:
            if refused is None:
                made = header("--bound", word)
                if HAS_PROGRAM:
                    self.assertTrue(is_record(made), word)
            else:
                said = refusal("--bound", word)
                self.assertIn("--bound", said)
                self.assertIn(refused, said)

    def test_the_number_of_routes(self):
        for form, most in (("1", 64), ("2", 256)):
            routes = [word for stream in range(most) for word in ("--route", f"{stream}:1")]
            words = ["--form", form, "--pending", "8", *routes]
            made = header(*words)
            if HAS_PROGRAM:
                self.assertTrue(is_record(made), form)
            self.assertIn(f"--route: {most + 1} routes", refusal(*words, "--route", f"{most}:1"))

    def test_room_for_the_packets_that_wait(self):
        # 16 routes of 1,024 packets of 65,504 bytes have 2^30 - 2^19 bytes, and of one packet more 2^30 + 523,776.
        routes = [word for stream in range(16) for word in ("--route", f"{stream}:1")]
        words = ["--max-words", "16376", "--data-window", "0", *routes, "--pending"]
        made = header(*words, "1023")
        if HAS_PROGRAM:
            self.assertTrue(is_record(made))
        self.assertIn("--route, --data-window, --pending, --max-words: 16 routes need", refusal(*words, "1024"))

    def test_twice_the_same(self):
        self.assertIn("--route 0x1: the stream is listed twice", refusal("--route", "1:9", "--route", "1:8"))
        self.assertIn("--bound: a field is named twice", refusal("--bound", "if=1,0,1", "--bound", "if=1,0,1"))

    def test_numbers_are_digits(self):
        for word in ("1_000", " 100", "+100", "1e3", "", "0x"):
            self.assertIn("--max-words", refusal("--max-words", word))


class Initial(unittest.TestCase):
    def initial(self, data, call):
        with tempfile.NamedTemporaryFile() as file:
            file.write(data)
            file.flush()
            return call("--initial", file.name)

    def changed(self, place, text):
        new = data_of(text)
        return CONTEXT[:place] + new + CONTEXT[place + len(new) :]

    def test_the_fields_of_a_context(self):
        for data in (CONTEXT, self.changed(28, "7BB98000"), self.changed(0, "4BE3001B"), self.changed(24, "00000001")):
            made = self.initial(data, header)
            self.assertEqual(made[60:136].hex(), data_of(BASE).hex())
            if HAS_PROGRAM:
                self.assertTrue(is_record(made))

    def test_what_is_no_context(self):
        for data, said in (
            (CONTEXT[:-1], "107"),
            (CONTEXT + b"\0", "109"),
            (b"", "0"),
            (self.changed(0, "1960001B"), "packet type 1"),
            (self.changed(0, "4160001B"), "class identifier"),
            (self.changed(0, "4D60001B"), "class identifier"),
            (self.changed(0, "4920001B"), "timestamp"),
            (self.changed(0, "4950001B"), "timestamp"),
            (self.changed(0, "4960001A"), "26 words"),
            (self.changed(8, "016A621E"), "word 2"),
            (self.changed(12, "00000000"), "another class"),
            (self.changed(20, "000000E8D4A51000"), "picoseconds"),
            (self.changed(28, "FBB98001"), "CIF0"),
            (self.changed(76, "00000000000FFFFF"), "sample rate"),
            (self.changed(100, "A0000082"), "payload format"),
            (self.changed(104, "00000001"), "payload format"),
        ):
            message = self.initial(data, refusal)
            self.assertIn("--initial", message)
            self.assertIn(said, message)

    def test_a_file_that_is_not_there(self):
        self.assertIn("--initial: /nowhere/x: No such file", refusal("--initial", "/nowhere/x"))


class Script(unittest.TestCase):
    def test_the_header_is_written_whole_or_not_at_all(self):
        done = run("header", ["--route", "1:9"])
        self.assertEqual((done.returncode, done.stderr, len(done.stdout)), (0, b"", 340))
        done = run("header", ["--kept", "1"])
        self.assertEqual((done.returncode, done.stdout), (2, b""))
        self.assertEqual(done.stderr, b"header: --kept: 1 is not within 2 to 4096\n")
        done = run("header", ["--route", "1"])
        self.assertEqual((done.returncode, done.stdout), (2, b""))
        self.assertIn(b"argument --route: '1' is not STREAM:PORT[,PORT..]", done.stderr)


@unittest.skipUnless(HAS_PROGRAM, NEEDS_PROGRAM)
class Program(unittest.TestCase):
    def test_frames_behind_a_header_are_a_record(self):
        with open(os.path.join(TOP, "examples/site.difirec"), "rb") as record:
            frames = record.read()[340:]
        made = header("--route", "1:9", "--data-window", "0", "--context-window", "0")
        done = subprocess.run([PROGRAM, "replay"], input=made + frames, capture_output=True, check=True)
        self.assertEqual(struct.unpack(">7Q", done.stdout[-56:]), (10, 12, 0, 2, 1, 0, 0))


assert ContextFields.of_bytes(CONTEXT[32:]).item_size == 16
