"""`tools/releases picture`."""

import os
import struct
import tempfile
import unittest
import zlib
from xml.etree import ElementTree

from difi_tools.axis import Axis
from difi_tools.picture import TUNING_COLORS, Picture, layered
from difi_tools.release_records import Bound, Raw, Uncertain
from difi_tools.context_fields import ContextFields
from difi_tools.timeline import MOST_KEPT, Timeline, joined

from .worked import (
    ALL_KINDS, BASE, CONTEXT_LOST, FIRST_TWO, HAS_PROGRAM, NEEDS_PROGRAM, NEXT_TWO, NOTHING, OTHER_RATE, START, TOP,
    end, one_sample, releases, replayed, run,
)  # fmt: skip

SVG = "{http://www.w3.org/2000/svg}"
FIELDS = ContextFields.of_bytes(bytes.fromhex(BASE))
MICROSECOND = 10**6


def fields(megahertz):
    return FIELDS._replace(rf_reference=megahertz * 10**6 << 20, sample_rate=10**6 << 20)


def bound(at, number, megahertz=1200, lost=0, stream=1):
    """Samples of a million a second, from so many microseconds on."""
    moment = START + at * MICROSECOND
    return Bound(stream, 9, lost, moment, 0, number, moment, fields(megahertz))


def raw(at, words, reason=3, lost=0):
    return Raw(1, 9, lost, reason, 0, START + at * MICROSECOND, 0, words)


def uncertain(at, number, reason=3, lost=0):
    return Uncertain(1, 9, lost, reason, 0, START, 0, number, START + at * MICROSECOND)


def stretches(records):
    """The stretches of a row in microseconds."""
    line = Timeline()
    for record in records:
        line.add(record)
    return {
        look: [((start - START) // MICROSECOND, (end - START) // MICROSECOND) for start, end in pairs]
        for look, pairs in line.rows[1, 9].stretches.items()
    }


class Stretches(unittest.TestCase):
    def test_neighbours_of_one_tuning_are_one(self):
        self.assertEqual(stretches([bound(0, 4), bound(4, 4), bound(10, 2)]), {("tuning", 0): [(0, 8), (10, 12)]})

    def test_each_tuning_has_its_own(self):
        found = stretches([bound(0, 4), bound(4, 4, 1300), bound(8, 4)])
        self.assertEqual(found, {("tuning", 0): [(0, 4), (8, 12)], ("tuning", 1): [(4, 8)]})

    def test_tunings_behind_the_tenth_look_alike(self):
        found = stretches([bound(4 * k, 4, 1000 + k) for k in range(12)])
        self.assertEqual(len(found), 11)
        self.assertEqual(found[("tuning", 10)], [(40, 48)])

    def test_uncertain_ones_last_as_the_rate_before_them_says(self):
        self.assertEqual(stretches([bound(0, 4), raw(4, 8)])[("reason", 3)], [(4, 12)])
        self.assertEqual(stretches([bound(0, 4), uncertain(4, 5)])[("reason", 3)], [(4, 9)])

    def test_without_a_rate_they_last_to_the_next_record(self):
        self.assertEqual(stretches([raw(0, 8, 1), bound(6, 4)])[("reason", 1)], [(0, 6)])
        self.assertEqual(stretches([raw(0, 8, 1), bound(6, 4, lost=1)])[("reason", 1)], [(0, 0)])

    def test_neighbours_closer_than_a_point_are_one(self):
        self.assertEqual(joined([[0, 4], [13, 20], [7, 9]], 4), [[0, 9], [13, 20]])

    def test_memory_stays_bounded(self):
        line = Timeline()
        for at in range(3 * MOST_KEPT):
            line.add(bound(10 * at, 4, lost=1))
        self.assertLessEqual(line.kept, MOST_KEPT + 1)
        (pairs,) = line.rows[1, 9].stretches.values()
        self.assertLessEqual(len(pairs), MOST_KEPT)
        self.assertEqual(sum(number for _, number in line.rows[1, 9].losses), 3 * MOST_KEPT)


class Layers(unittest.TestCase):
    def test_looks_of_one_place_stand_one_above_the_other(self):
        found = layered({"a": [(0, 4), (6, 8)], "b": [(3, 6)]})
        self.assertEqual(found, [(0, 3, ("a",)), (3, 4, ("a", "b")), (4, 6, ("b",)), (6, 8, ("a",))])


class Ticks(unittest.TestCase):
    def labels(self, first, last, code="utc"):
        axis = Axis(first, last, code)
        return [axis.label(tick) for tick in axis.ticks], axis.title()

    def test_microseconds_count_from_a_rounded_moment(self):
        labels, title = self.labels(START + 510_000 * MICROSECOND, START + 510_004 * MICROSECOND)
        self.assertEqual((labels[0], labels[1], labels[-1]), ("+0 ns", "+500 ns", "+4000 ns"))
        self.assertEqual(title, "UTC, from 2023-11-14T22:13:20.51Z")

    def test_seconds_and_days_are_dates(self):
        labels, title = self.labels(START, START + 9 * 10**12)
        self.assertEqual((labels[0], labels[9], title), ("22:13:20", "22:13:29", "UTC, from 2023-11-14"))
        labels, title = self.labels(START, START + 9 * 86_400 * 10**12)
        self.assertEqual((labels[0], title), ("2023-11-15", "UTC"))

    def test_moments_without_a_date_are_seconds(self):
        title = self.labels(START, START + 10**12, "other")[1]
        self.assertEqual(title, "time as the record counts it, from 1700000000 s")
        labels, title = self.labels(START, 2**128 - 1)
        self.assertEqual((labels[0], title), ("3.781e+25 s", "time as the record counts it"))

    def test_there_are_few_ticks_and_one_at_least(self):
        for span in [1, 9, 10, 11, 999] + [7 * 10**k for k in range(1, 27)]:
            self.assertTrue(1 <= len(Axis(START, START + span, "utc").ticks) <= 10, span)


def svg_of(data, code=0):
    with tempfile.TemporaryDirectory() as folder:
        path = os.path.join(folder, "out.svg")
        done = releases(["picture", path], data)
        assert done.returncode == code, done
        return ElementTree.parse(path).getroot(), done


def texts(root):
    return [text.text for text in root.iter(SVG + "text")]


def colors(root):
    return [box.get("fill") for box in root.iter(SVG + "rect")]


class Pictures(unittest.TestCase):
    def test_rows_legend_hatching_and_losses(self):
        lost = one_sample(2, 3)
        root, _ = svg_of(FIRST_TWO + NEXT_TWO + CONTEXT_LOST + lost + end(9, bound=5, raw=1))
        for words in (
            "stream 00000001, port 9",
            "RF 1200 MHz, sample rate 2 Hz, gain 10 dB",
            "RF 1200 MHz, sample rate 2 Hz, gain 12 dB",
            "RF 1200 MHz, sample rate 350 kHz, gain 10 dB",
            "uncertain: contexts lost",
            "packets lost before this point",
            "UTC, from 2023-11-14T22:13:20Z",
        ):
            self.assertIn(words, texts(root))
        self.assertEqual([pattern.get("id") for pattern in root.iter(SVG + "pattern")], ["hatch2"])
        for color in (*TUNING_COLORS[:3], "url(#hatch2)"):
            self.assertIn(color, colors(root))
        # One over the row and one in the legend.
        self.assertEqual(len(list(root.iter(SVG + "polygon"))), 2)

    def test_nothing_released(self):
        root, _ = svg_of(NOTHING)
        self.assertIn("no samples and no packets were released", texts(root))

    def test_a_broken_input_is_drawn_as_far_as_it_goes(self):
        root, done = svg_of((FIRST_TWO + OTHER_RATE)[:-1], code=1)
        self.assertIn(b"no release record at byte 140", done.stderr)
        self.assertIn("stream 00000001, port 9", texts(root))
        self.assertNotIn("uncertain: another rate or format", texts(root))

    def test_ten_thousand_stretches_are_few_shapes(self):
        picture = Picture()
        for at in range(10_000):
            picture.add(bound(100 * at, 100, 1200 + 100 * (at % 2)))
        with tempfile.TemporaryDirectory() as folder:
            path = os.path.join(folder, "out.svg")
            picture.write(path)
            root = ElementTree.parse(path).getroot()
        rows = [box for box in root.iter(SVG + "rect") if box.get("height") == "10"]
        self.assertEqual({box.get("fill") for box in rows}, set(TUNING_COLORS[:2]))
        # Both tunings stand one above the other over the whole width, but for a point at either end.
        self.assertLess(len(colors(root)), 50)
        self.assertGreater(max(float(box.get("width")) for box in rows), 990)

    def test_other_files_and_folders_are_told(self):
        for path, code, why in (
            ("out.jpg", 2, "a picture is a file .svg or .png"),
            ("/nowhere/out.svg", 1, "No such file or directory"),
        ):
            done = releases(["picture", path], ALL_KINDS)
            self.assertEqual((done.returncode, done.stderr.decode()), (code, f"releases: {path}: {why}\n"))


class Png(unittest.TestCase):
    def test_the_file_is_whole_and_has_the_colors(self):
        with tempfile.TemporaryDirectory() as folder:
            path = os.path.join(folder, "out.png")
            self.assertEqual(releases(["picture", path], ALL_KINDS).returncode, 0)
            with open(path, "rb") as file:
                data = file.read()
        self.assertEqual(data[:8], b"\x89PNG\r\n\x1a\n")
        chunks, place = {}, 8
        while place < len(data):
            (length,) = struct.unpack_from(">I", data, place)
            name, content = data[place + 4 : place + 8], data[place + 8 : place + 8 + length]
            self.assertEqual(struct.unpack_from(">I", data, place + 8 + length)[0], zlib.crc32(name + content))
            chunks[name] = content
            place += length + 12
        width, height, depth, kind = struct.unpack_from(">2I2B", chunks[b"IHDR"])
        self.assertEqual((depth, kind), (8, 3))
        rows = zlib.decompress(chunks[b"IDAT"])
        self.assertEqual(len(rows), height * (width + 1))
        place = chunks[b"PLTE"].index(bytes.fromhex(TUNING_COLORS[0][1:]))
        self.assertIn(place // 3, rows)


@unittest.skipUnless(HAS_PROGRAM, NEEDS_PROGRAM)
class Example(unittest.TestCase):
    def test_examples_without_samples_are_drawn_too(self):
        for name in ("two", "contexts"):
            root, _ = svg_of(replayed(name))
            self.assertIn("no samples and no packets were released", texts(root))

    def test_the_picture_in_the_docs_is_the_one_of_the_example(self):
        with tempfile.TemporaryDirectory() as folder:
            path = os.path.join(folder, "site.svg")
            self.assertEqual(run("site_picture", [path]).returncode, 0)
            with open(path, "rb") as new, open(os.path.join(TOP, "docs/site.svg"), "rb") as kept:
                self.assertEqual(new.read(), kept.read())
