"""`tools/releases sigmf`."""

import hashlib
import json
import os
import struct
import tempfile
import unittest
from array import array

from difi_tools.sigmf import CannotTell, exact_float, units_of_rate

from .worked import (
    BASE, CONTEXT_LOST, CONTEXT_LOST_PORT_7, FIRST_TWO, HAS_PROGRAM, NEEDS_PROGRAM, NEXT_TWO, NOTHING, OTHER_RATE, SLOW,
    START, data_of, end, one_sample, releases, replayed, run,
)  # fmt: skip

HERTZ = 1 << 20


def bound(stamp, first, samples, rate, format_word="A00003CF"):
    """A bound record whose capture moment is worked out from the units of 2^-20 Hz."""
    moment = stamp + first * 10**12 * HERTZ // rate
    fields = data_of(BASE)
    fields = fields[:44] + struct.pack(">q", rate) + fields[52:68] + data_of(format_word) + fields[72:]
    body = struct.pack(">4IQ2I", 1, 9, 0, stamp // 10**12, stamp % 10**12, first, len(samples))
    body += moment.to_bytes(16, "big") + fields + b"".join(struct.pack(">2h", *sample) for sample in samples)
    return struct.pack(">2I", 1, len(body)) + body


def recorded(data, code=0, words=()):
    """The two files that are written, and what the tool says; None for files that are not there."""
    with tempfile.TemporaryDirectory() as folder:
        done = releases(["sigmf", "out", "--stream", "1", "--port", "9", *words], data, cwd=folder)
        assert done.returncode == code, done
        left = sorted(os.listdir(folder))
        if not left:
            return None, None, done.stderr.decode()
        assert left == ["out.sigmf-data", "out.sigmf-meta"], left
        with open(os.path.join(folder, left[0]), "rb") as samples, open(os.path.join(folder, left[1]), "rb") as meta:
            return json.load(meta), samples.read(), done.stderr.decode()


class Recordings(unittest.TestCase):
    def test_the_samples_of_a_retune(self):
        meta, data, _ = recorded(FIRST_TWO + NEXT_TWO + end(4, bound=4))
        self.assertEqual(data.hex(), "01000200030004000500060007000800")
        about = meta["global"]
        self.assertEqual((about["core:datatype"], about["core:sample_rate"]), ("ci16_le", 2))
        self.assertEqual(about["core:sha512"], hashlib.sha512(data).hexdigest())
        first, second = meta["captures"]
        self.assertEqual((first["core:sample_start"], second["core:sample_start"]), (0, 2))
        self.assertEqual(first["core:datetime"], "2023-11-14T22:13:20.000000Z")
        self.assertEqual(first["core:frequency"], 1_200_000_000)
        self.assertEqual(first["difi:capture_picoseconds"], "1700000000000000000000")
        self.assertEqual(second["difi:capture_picoseconds"], "1700000001000000000000")
        self.assertEqual((first["difi:gain"], second["difi:gain"]), ([1280, 0], [1536, 0]))
        self.assertEqual(meta["annotations"], [])

    def test_samples_below_zero(self):
        _, data, _ = recorded(bound(START, 0, [(-32768, 32767), (-1, 1)], 2 * HERTZ) + end(1, bound=2))
        self.assertEqual(struct.unpack("<4h", data), (-32768, 32767, -1, 1))

    def test_samples_that_go_on_are_one_segment(self):
        data = b"".join(bound(START + k * 10**12, 0, [(k, k)] * 2, 2 * HERTZ) for k in range(3)) + end(5, bound=6)
        meta, samples, _ = recorded(data)
        self.assertEqual((len(meta["captures"]), len(samples)), (1, 24))

    def test_moments_that_are_cut_off_make_no_jump(self):
        # Samples of 3 Hz, one a packet: stamps at 0, 333,333,333,333 and 666,666,666,666 ps, and again in each second.
        stamps = [START + k * 10**12 // 3 for k in range(30)]
        meta, _, _ = recorded(b"".join(bound(stamp, 0, [(1, 1)], 3 * HERTZ) for stamp in stamps) + end(30, bound=30))
        self.assertEqual(len(meta["captures"]), 1)

    def test_a_jump_of_time_is_a_segment(self):
        for jump, segments in ((0, 1), (1, 1), (-1, 1), (2, 2), (-2, 2), (10**12, 2)):
            data = bound(START, 0, [(1, 1)] * 2, 2 * HERTZ) + bound(START + 10**12 + jump, 0, [(1, 1)] * 2, 2 * HERTZ)
            meta, _, _ = recorded(data + end(4, bound=4))
            self.assertEqual(len(meta["captures"]), segments, jump)
        self.assertEqual(meta["captures"][1]["difi:capture_picoseconds"], str(START + 2 * 10**12))

    def test_another_item_size_is_a_segment(self):
        data = bound(START, 0, [(1, 1)] * 2, 2 * HERTZ) + bound(START + 10**12, 0, [(1, 1)], 2 * HERTZ, "A00002CB")
        meta, _, _ = recorded(data + end(4, bound=3))
        self.assertEqual([segment["difi:item_size"] for segment in meta["captures"]], [16, 12])

    def test_uncertain_stretches_are_annotated_where_they_would_stand(self):
        data = FIRST_TWO + OTHER_RATE + CONTEXT_LOST + CONTEXT_LOST + bound(START + 3 * 10**12, 0, [(5, 6)], 2 * HERTZ)
        meta, samples, _ = recorded(data + end(9, 3, 2, 2))
        self.assertEqual(len(samples), 12)
        self.assertEqual([segment["core:sample_start"] for segment in meta["captures"]], [0, 2])
        first, second = meta["annotations"]
        self.assertEqual((first["core:sample_start"], first["core:sample_count"]), (2, 0))
        self.assertEqual((first["core:label"], first["difi:samples"]), ("another rate or format", 2))
        self.assertEqual(first["difi:capture_picoseconds"], "1700000001000000000000")
        self.assertEqual((second["core:label"], second["difi:detail"]), ("contexts lost", 1))
        self.assertEqual((second["difi:raw_packets"], second["difi:raw_words"], second["difi:samples"]), (2, 2, 0))

    def test_other_streams_and_ports_are_left_out(self):
        meta, samples, _ = recorded(CONTEXT_LOST_PORT_7 + FIRST_TWO + end(2, bound=2, raw=1))
        self.assertEqual((meta["annotations"], len(samples)), ([], 8))


class Refusals(unittest.TestCase):
    def test_two_rates(self):
        data = FIRST_TWO + one_sample(3, 0) + end(5, bound=3)
        meta, _, said = recorded(data, code=1)
        self.assertIsNone(meta)
        self.assertIn("a SigMF recording has one sample rate", said)
        self.assertIn("stream 00000001 changes from 2 Hz to 350 kHz at 2023-11-14T22:13:23.000000000000Z", said)

    def test_one_of_two_rates(self):
        data = FIRST_TWO + one_sample(3, 0) + bound(START + 10**12, 0, [(7, 8)], 2 * HERTZ) + end(5, bound=4)
        meta, samples, _ = recorded(data, words=["--rate", "2"])
        self.assertEqual(samples.hex(), "010002000300040007000800")
        (left_out,) = meta["annotations"]
        self.assertEqual((left_out["core:label"], left_out["difi:samples"]), ("bound, at another sample rate", 1))
        meta, samples, _ = recorded(data, words=["--rate", "350000"])
        self.assertEqual((samples.hex(), meta["global"]["core:sample_rate"]), ("01000200", 350_000))

    def test_a_rate_that_no_floating_point_number_is(self):
        self.assertEqual(exact_float(2**53), 2.0**33)
        self.assertIsNone(exact_float(2**53 + 1))
        self.assertEqual(exact_float(2**53 + 2), 2.0**33 + 2.0**-19)
        meta, _, said = recorded(bound(START, 0, [(1, 1)], 2**53 + 1) + end(1, bound=1), code=1)
        self.assertIsNone(meta)
        self.assertIn("9007199254740993/2^20 Hz is none", said)

    def test_a_rate_in_hertz_as_a_word(self):
        self.assertEqual(units_of_rate("0.5"), HERTZ // 2)
        for text in ("x", "0.1", "inf", "nan"):
            with self.assertRaises(CannotTell):
                units_of_rate(text)

    def test_nothing_to_record(self):
        meta, _, said = recorded(CONTEXT_LOST_PORT_7 + end(1, raw=1), code=1)
        self.assertIsNone(meta)
        self.assertIn("no bound samples of stream 00000001 for port 9; there are stream 00000001 for port 7", said)
        self.assertIsNone(recorded(NOTHING, code=1)[0])

    def test_a_folder_that_is_not_there(self):
        done = releases(["sigmf", "/nowhere/x", "--stream", "1", "--port", "9"], NOTHING)
        self.assertEqual(done.returncode, 1)
        self.assertIn(b"No such file or directory", done.stderr)

    def test_an_input_cut_at_every_byte_keeps_the_whole_records(self):
        data = FIRST_TWO + NEXT_TWO + end(4, bound=4)
        for cut in (140, 141, 272, 273, 274, 279, 280, 343):
            meta, samples, said = recorded(data[:cut], code=1)
            self.assertEqual(len(samples), 8 if cut < 280 else 16, cut)
            self.assertEqual(meta["global"]["core:sha512"], hashlib.sha512(samples).hexdigest())
            self.assertIn(f"no release record at byte {140 if cut < 280 else 280}", said)
        self.assertIsNone(recorded(data[:139], code=1)[0])


@unittest.skipUnless(HAS_PROGRAM, NEEDS_PROGRAM)
class Example(unittest.TestCase):
    def test_the_samples_of_the_site(self):
        meta, samples, _ = recorded(replayed("site"))
        numbers = array("h", samples)
        if struct.pack("=h", 1) != b"\1\0":
            numbers.byteswap()
        # Packet n has the samples 4n + k and -k; of the third the last byte is missing.
        wanted = [(4 * n + k, -k) for n in (0, 1, 3) for k in range(4)]
        self.assertEqual(list(zip(numbers[::2], numbers[1::2])), wanted)
        self.assertEqual([segment["core:sample_start"] for segment in meta["captures"]], [0, 6, 8])
        frequencies = [segment["core:frequency"] for segment in meta["captures"]]
        self.assertEqual(frequencies, [1_200_000_000, 1_300_000_000, 1_300_000_000])
        self.assertEqual(
            [note["core:label"] for note in meta["annotations"]], ["contexts lost", "the stream ended"]
        )

    def test_examples_without_samples_have_no_recording(self):
        for name in ("two", "contexts"):
            meta, _, said = recorded(replayed(name), code=1)
            self.assertIsNone(meta)
            self.assertIn("no bound samples of stream 00000001 for port 9", said)

    def test_readers_of_sigmf_that_are_here_give_the_samples_of_the_record(self):
        done = run("compare_sigmf", [])
        self.assertEqual(done.returncode, 0, done)
        self.assertIn(b"agrees", done.stdout)


assert data_of(SLOW)[44:52] == struct.pack(">q", 2 * HERTZ)
