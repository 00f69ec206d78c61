"""The reader of release records."""

import io
import unittest

from difi_tools.release_records import (
    Acknowledgement, Bound, BrokenInput, End, Raw, Refused, Uncertain, Version, release_records,
)  # fmt: skip

from .worked import (
    ACKNOWLEDGEMENT, ALL_KINDS, CONTEXT_LOST, FIRST_TWO, HEALED, MALFORMED, NOTHING, OTHER_RATE, START, TOO_LATE,
    VERSION, end,
)  # fmt: skip


def told(data):
    """The records in front, and the offset of the first that is none."""
    records = []
    try:
        for record in release_records(io.BytesIO(data)):
            records.append(record)
    except BrokenInput as broken:
        return records, broken.offset
    return records, None


def changed(data, place, text):
    new = bytes.fromhex(text)
    return data[:place] + new + data[place + len(new) :]


class Reading(unittest.TestCase):
    def test_each_kind_says_what_its_bytes_say(self):
        records, wrong = told(ALL_KINDS)
        self.assertIsNone(wrong)
        bound, uncertain, raw, acknowledgement, refused, version, last = records
        self.assertEqual(bound[:7], (1, 9, 0, START, 0, 2, START))
        self.assertEqual(bound.fields.rf_reference, 1_200_000_000 << 20)
        self.assertEqual(bound.fields.sample_rate, 2 << 20)
        self.assertEqual((bound.fields.gain_stages, bound.fields.item_size), ((1280, 0), 16))
        self.assertEqual(bound.moment_of_last(), START + 5 * 10**11)
        self.assertEqual(uncertain, Uncertain(1, 9, 0, 6, 0, START, 2, 2, START + 10**12))
        self.assertEqual(raw, Raw(1, 9, 0, 2, 1, START + 15 * 10**11, 0, 1))
        self.assertEqual(acknowledgement, Acknowledgement(5))
        self.assertEqual(refused, Refused(1, 5, 2, 0, 0))
        self.assertEqual(version, Version(1, 9))
        self.assertEqual(last, End((9, 2, 2, 1, 1, 1, 1)))

    def test_a_late_frame_tells_the_last_released_stamp(self):
        self.assertEqual(told(TOO_LATE + NOTHING)[0][0], Refused(4, 5, 4, 0, START + 10**12))

    def test_a_healed_gap_is_bound(self):
        (record, _end), _wrong = told(HEALED + NOTHING)
        self.assertIsInstance(record, Bound)
        self.assertEqual(record.moment, START + 15 * 10**11)

    def test_an_input_cut_at_every_byte_is_broken_at_its_last_record(self):
        records, _ = told(ALL_KINDS)
        places = [0, 140, 212, 260, 320, 360, 416]
        self.assertEqual(len(ALL_KINDS), 480)
        for cut in range(len(ALL_KINDS)):
            whole = [place for place in places if place <= cut]
            self.assertEqual(told(ALL_KINDS[:cut]), (records[: len(whole) - 1], whole[-1]), cut)

    def test_nothing_may_follow_the_end(self):
        self.assertEqual(told(NOTHING + b"\0")[1], 64)
        self.assertEqual(told(NOTHING + NOTHING)[1], 64)

    def test_the_part_of_a_record_passes_by_in_pieces(self):
        taken = []
        list(release_records(io.BytesIO(FIRST_TWO + NOTHING), lambda record: taken.append))
        self.assertEqual(b"".join(taken).hex(), "0001000200030004")


class Rules(unittest.TestCase):
    """Each rule on both sides of its edge. The place is that of a field in the record."""

    def accept(self, data):
        self.assertEqual(told(data + NOTHING)[1], None, data.hex())

    def refuse(self, data):
        self.assertEqual(told(MALFORMED + data + NOTHING)[1], 40, data.hex())

    def test_kind_and_length(self):
        self.refuse(changed(NOTHING, 0, "00000000"))
        self.refuse(changed(NOTHING, 0, "00000008"))
        self.refuse(changed(NOTHING, 4, "00000039"))
        self.refuse(changed(MALFORMED, 4, "00000021"))
        self.refuse(changed(VERSION, 4, "0000002C"))
        self.refuse(changed(CONTEXT_LOST, 4, "00000024"))
        self.refuse(changed(CONTEXT_LOST, 4, "00000027"))
        self.refuse(changed(ACKNOWLEDGEMENT, 4, "00000004"))
        self.accept(changed(ACKNOWLEDGEMENT, 4, "00000008")[:16])
        self.refuse(changed(FIRST_TWO, 4, "0000007C"))

    def test_port_and_lost(self):
        runs = ((FIRST_TWO, 12), (OTHER_RATE, 12), (CONTEXT_LOST, 12))
        for record, place in (*runs, (ACKNOWLEDGEMENT, 8), (VERSION, 8)):
            self.accept(changed(record, place, "0000FFFF"))
            self.refuse(changed(record, place, "00010000"))
        self.accept(changed(MALFORMED, 16, "0000FFFF"))
        self.refuse(changed(MALFORMED, 16, "00010000"))
        for record in (FIRST_TWO, OTHER_RATE, CONTEXT_LOST):
            self.accept(changed(record, 16, "0000000F"))
            self.refuse(changed(record, 16, "00000010"))

    def test_picoseconds(self):
        for record, place in ((OTHER_RATE, 32), (CONTEXT_LOST, 32), (TOO_LATE, 32)):
            self.accept(changed(record, place, "000000E8D4A50FFF"))
            self.refuse(changed(record, place, "000000E8D4A51000"))

    def test_number_and_index(self):
        self.refuse(changed(FIRST_TWO, 36, "00000001"))
        self.refuse(changed(OTHER_RATE, 44, "00000003"))
        self.accept(changed(OTHER_RATE, 40, "FFFFFFFE"))
        self.refuse(changed(OTHER_RATE, 40, "FFFFFFFF"))

    def test_capture_moment(self):
        self.refuse(changed(FIRST_TWO, 54, "0001"))
        self.refuse(changed(FIRST_TWO, 32, "00000001"))

    def test_rate_and_format(self):
        self.accept(changed(FIRST_TWO, 100, "00000000 00100000"))
        self.refuse(changed(FIRST_TWO, 100, "00000000 000FFFFF"))
        self.accept(changed(FIRST_TWO, 100, "7FFFFFFF FFFFFFFF"))
        self.refuse(changed(FIRST_TWO, 100, "80000000 00000000"))
        for word in ("A00000C3", "A00001C7", "200001C7", "200003CF"):
            self.accept(changed(FIRST_TWO, 124, word))
        for word in ("A0000082", "A0000410", "200000C3", "E00003CF", "A00013CF", "A00003CE", "A08003CF"):
            self.refuse(changed(FIRST_TWO, 124, word))
        self.refuse(changed(FIRST_TWO, 128, "00000001"))

    def test_reason_and_detail(self):
        for number, detail in ((2, 1), (2, 15), (3, 0), (4, 0), (5, 0), (6, 0)):
            self.accept(changed(OTHER_RATE, 20, f"{number:08X}{detail:08X}"))
        for number, detail in ((1, 0), (7, 0), (2, 0), (2, 16), (6, 1)):
            self.refuse(changed(OTHER_RATE, 20, f"{number:08X}{detail:08X}"))
        for number, detail in ((1, 0), (2, 1), (5, 0), (7, 0)):
            self.accept(changed(CONTEXT_LOST, 20, f"{number:08X}{detail:08X}"))
        for number, detail in ((0, 0), (6, 0), (8, 0), (1, 1)):
            self.refuse(changed(CONTEXT_LOST, 20, f"{number:08X}{detail:08X}"))

    def test_pad(self):
        self.accept(changed(CONTEXT_LOST, 40, "0000001F"))
        self.refuse(changed(CONTEXT_LOST, 40, "00000020"))

    def test_refusals(self):
        self.refuse(changed(MALFORMED, 8, "0000000000000000"))
        for number in (1, 10):
            self.accept(changed(MALFORMED, 20, f"{number:08X}"))
        for number in (0, 11):
            self.refuse(changed(MALFORMED, 20, f"{number:08X}"))
        self.refuse(changed(MALFORMED, 28, "00000001"))
        self.accept(changed(MALFORMED, 20, "00000004"))

    def test_streams_and_ports_are_not_more_than_a_record_lists(self):
        def version(stream):
            return changed(VERSION, 16, f"{stream:08X}")

        most = b"".join(version(stream) for stream in range(1024))
        self.assertEqual(told(most + end(1024, versions=1024))[1], None)
        self.assertEqual(told(most + version(1024))[1], 1024 * 56)
