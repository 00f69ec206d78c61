"""`tools/releases table`."""

import json
import unittest

from .worked import (
    ALL_KINDS, CONFLICT, CONTEXT_LOST, CONTEXT_LOST_PORT_7, FIRST_TWO, HAS_PROGRAM, MALFORMED, NEEDS_PROGRAM,
    NEXT_TWO, NOTHING, OTHER_RATE, TOO_LARGE, TOO_LATE, end, one_sample, releases, replayed,
)  # fmt: skip

KINDS_TEXT = """\
stream    port  packets  bound  uncertain  raw  lost  changes  versions  first capture                      last capture
00000001     9        2      2          2    1     0        0         1  2023-11-14T22:13:20.000000000000Z  2023-11-14T22:13:21.500000000000Z

stream    port  uncertain  raw  because
00000001     9          0    1  contexts lost
00000001     9          2    0  another rate or format

frames                               9
refused, malformed                   1
acknowledgements                     1
versions                             1
end record                      agrees
"""


def numbers(data, code=0, words=()):
    done = releases(["table", "--json", *words], data)
    assert done.returncode == code, done
    return json.loads(done.stdout)


def capture(time, picoseconds):
    return {"time": time, "picoseconds": picoseconds}


class Table(unittest.TestCase):
    def test_without_a_command_the_table_is_written(self):
        for words in ([], ["table"]):
            done = releases(words, ALL_KINDS)
            self.assertEqual((done.returncode, done.stderr, done.stdout.decode()), (0, b"", KINDS_TEXT))

    def test_json_has_the_same_numbers(self):
        told = numbers(ALL_KINDS)
        self.assertEqual(
            told["streams"],
            [
                {
                    "stream": 1,
                    "port": 9,
                    "packets": 2,
                    "bound_samples": 2,
                    "uncertain_samples": {"another rate or format": 2},
                    "raw_packets": {"contexts lost": 1},
                    "packets_lost": 0,
                    "first_capture": capture("2023-11-14T22:13:20.000000000000Z", "1700000000000000000000"),
                    "last_capture": capture("2023-11-14T22:13:21.500000000000Z", "1700000001500000000000"),
                    "changes_of_tuning": 0,
                    "versions": 1,
                }
            ],
        )
        self.assertEqual(told["refused_frames"], {"malformed": 1})
        self.assertEqual((told["acknowledgements"], told["versions"], told["end"]["frames"]), (1, 1, 9))
        self.assertEqual((told["disagreements"], told["broken"]), ([], None))

    def test_a_retune_inside_a_packet_is_one_change_of_one_packet(self):
        (line,) = numbers(FIRST_TWO + NEXT_TWO + end(4, bound=4))["streams"]
        self.assertEqual((line["packets"], line["bound_samples"], line["changes_of_tuning"]), (1, 4, 1))
        self.assertEqual(line["last_capture"]["picoseconds"], "1700000001500000000000")

    def test_lost_packets_are_added_up(self):
        data = one_sample(0, 0) + one_sample(16, 15) + one_sample(17, 0) + end(5, bound=3)
        (line,) = numbers(data)["streams"]
        self.assertEqual((line["packets"], line["packets_lost"]), (3, 15))

    def test_refusals_are_counted_by_their_reason(self):
        told = numbers(MALFORMED + TOO_LARGE + CONFLICT + TOO_LATE + MALFORMED + end(5, refused=5))
        self.assertEqual(told["refused_frames"], {"too large": 1, "malformed": 2, "late": 1, "conflict": 1})
        self.assertEqual(told["streams"], [])

    def test_no_frames(self):
        done = releases([], NOTHING)
        self.assertEqual(done.returncode, 0)
        self.assertTrue(done.stdout.startswith(b"no stream released anything\n"))

    def test_gps_time_and_time_of_another_start(self):
        # GPS time began 315,964,800 s after 1970, and UTC is 18 s behind it: 2,015,964,782 s since 1970, which is
        # 23,332 days and 79,982 s.
        (line,) = numbers(FIRST_TWO + end(1, bound=2), words=["--time", "gps"])["streams"]
        self.assertEqual(line["first_capture"]["time"], "2033-11-18T22:13:02.000000000000Z")
        (line,) = numbers(FIRST_TWO + end(1, bound=2), words=["--time", "other"])["streams"]
        self.assertEqual(line["first_capture"]["time"], "1700000000.000000000000 s")


class EndRecord(unittest.TestCase):
    def test_a_stream_with_two_ports_counts_once(self):
        told = numbers(CONTEXT_LOST + CONTEXT_LOST_PORT_7 + end(4, raw=1))
        self.assertEqual([line["port"] for line in told["streams"]], [7, 9])
        self.assertEqual(told["disagreements"], [])

    def test_each_count_that_differs_is_told(self):
        data = FIRST_TWO + OTHER_RATE + CONTEXT_LOST + MALFORMED
        for counts, name in (
            ((9, 3, 2, 1, 1), "bound samples: 2 in the records, 3 in the end record"),
            ((9, 2, 1, 1, 1), "uncertain samples: 2 in the records, 1 in the end record"),
            ((9, 2, 2, 0, 1), "raw packets: 1 in the records, 0 in the end record"),
            ((9, 2, 2, 1, 2), "refused frames: 1 in the records, 2 in the end record"),
            ((9, 2, 2, 1, 1, 1), "acknowledgements: 0 in the records, 1 in the end record"),
            ((9, 2, 2, 1, 1, 0, 1), "versions: 0 in the records, 1 in the end record"),
        ):
            done = releases([], data + end(*counts))
            self.assertEqual((done.returncode, done.stderr.decode()), (1, f"releases: {name}\n"))
            self.assertIn(b"end record                     differs", done.stdout)

    def test_a_frame_number_beyond_the_frames_is_told(self):
        done = releases([], TOO_LARGE + end(0, refused=1))
        self.assertEqual(done.returncode, 1)
        self.assertEqual(done.stderr, b"releases: frames: number 1 is refused, 0 in the end record\n")

    def test_ports_of_a_stream_that_differ_are_told(self):
        done = releases([], CONTEXT_LOST_PORT_7 + CONTEXT_LOST + CONTEXT_LOST + end(4, raw=1))
        self.assertEqual(done.returncode, 1)
        self.assertEqual(done.stderr, b"releases: stream 00000001: ports 7 and 9 were given different numbers\n")


class Broken(unittest.TestCase):
    def test_what_was_read_so_far_is_told(self):
        done = releases([], ALL_KINDS[:300])
        self.assertEqual(done.returncode, 1)
        self.assertEqual(done.stderr, b"releases: no release record at byte 260: the input ends inside it\n")
        self.assertIn(b"00000001     9        2      2          2    1", done.stdout)
        self.assertIn(b"end record                     missing", done.stdout)

    def test_json_tells_it_too(self):
        told = numbers(FIRST_TWO, code=1)
        self.assertEqual(told["broken"], "no release record at byte 140: the input ends without an end record")
        self.assertEqual(told["streams"][0]["bound_samples"], 2)

    def test_wrong_words(self):
        for words in (["--xml"], ["picture"], ["table", "--time", "tai"], ["sigmf", "x"]):
            self.assertEqual(releases(words, NOTHING).returncode, 2, words)


@unittest.skipUnless(HAS_PROGRAM, NEEDS_PROGRAM)
class Examples(unittest.TestCase):
    def test_the_table_agrees_with_the_end_record_of_each_example(self):
        for name in ("two", "contexts", "site"):
            self.assertEqual(releases([], replayed(name)).returncode, 0, name)

    def test_the_site(self):
        told = numbers(replayed("site"))
        (line,) = told["streams"]
        self.assertEqual((line["bound_samples"], line["packets_lost"], line["changes_of_tuning"]), (12, 1, 1))
        self.assertEqual(line["raw_packets"], {"contexts lost": 1, "the stream ended": 1})
        self.assertEqual((line["packets"], told["refused_frames"]), (5, {"malformed": 1}))
