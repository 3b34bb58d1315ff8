"""Checks reference.py against the worked texts and sizes of docs/FORMATS.md, and what the cases of demands.py state.

Run by `python3 -m unittest discover tests`.
"""

import unittest
from collections import Counter

import demands
from planning import is_placing
from reference import lines, place, read, shown, write
from site_building import LARGEST_NUMBER, LARGEST_TEXT, LONGEST, NO_PLACE, OPEN, P3, by, by_field, pair, text_of

CASES = demands.cases()
ANSWERS = [demands.answers(case) for case in CASES]


def order_and_starts(planned):
    """What a plan text says: the order, and in order of start each cluster with its start."""
    first, *others = [bytes.fromhex(line.decode()) for line in planned.splitlines()]
    return first[2], tuple((line[1], int.from_bytes(line[2:6], "big")) for line in others)


class WorkedRows(unittest.TestCase):
    def test_header_only(self):
        self.assertEqual(read(b"01010100\n"), (2, 2, 255))
        self.assertEqual(read(b"01010100"), (1, 1, 255))
        self.assertEqual(read(b""), (2, 1, 255))

    def test_tags_different_in_the_17th_byte_are_two_clusters(self):
        site = read(pair(b"A" * 16 + b"B", b"A" * 16 + b"C"))
        self.assertEqual(site.cluster_count, 2)
        self.assertEqual(read(pair(b"A" * 17, b"A" * 17)), (6, 3, 255))

    def test_fields_out_of_range(self):
        for text, refusal in ((b"01020000\n", (10, 1, 1)),
                              (b"01010200\n02FF000141\n02010F0142\n", (11, 3, 2)),
                              (b"01010100\n02FF0003412043\n", (12, 2, 5)),
                              (b"01010101\n02FF000141\n0300010000078000000780\n", (13, 3, 2)),
                              (b"01010101\n02FF000141\n0300000000078000000000\n", (14, 3, 7))):
            self.assertEqual(read(text), refusal)
            self.assertEqual(place(text), refusal[2])
        self.assertEqual(place(text_of(P3)), 255)

    def test_p3(self):
        site = read(text_of(P3))
        self.assertEqual([site.clusters[i].parent for i in range(3)], [0xFF, 0, 1])
        self.assertEqual([site.clusters[i].tag_kept() for i in range(3)], [b"A", b"B", b"C"])
        flow = site.flows[0]
        self.assertEqual((flow.source, flow.sink, flow.period, flow.deadline), (2, 0, 3_840, 3_840))


class Sizes(unittest.TestCase):
    def test_longest_site_and_line(self):
        text = text_of(LONGEST)
        self.assertEqual(len(text), 11_721)
        self.assertEqual(max(len(line) for line, _ in lines(text)), 136)
        self.assertEqual(write(read(text), 11_721), text)
        self.assertEqual(write(read(text), 11_720), (9, 0, 255))

    def test_parts_shown(self):
        parts = [shown(b"01\n\n02", line) for line in (0, 1, 2, 3, 4, LARGEST_NUMBER)]
        self.assertEqual(parts, [b"", b"01", b"", b"02", b"", b""])


class Cases(unittest.TestCase):
    def test_answers_are_those_stated(self):
        for case, given in zip(CASES, ANSWERS):
            planned = given.planned
            if isinstance(planned, bytes):
                order, starts = order_and_starts(planned)
                planned = order, tuple(cluster for cluster, _ in starts)
            for stated, answer in ((case.reads, given.read if isinstance(given.read, tuple) else None),
                                   (case.writes, given.written), (case.plans, planned),
                                   (case.checks, given.checked), (case.checks_records, given.records_checked)):
                if stated != OPEN:
                    self.assertEqual(stated, answer, case)

    def test_accepted_text_is_written_back(self):
        for case, given in zip(CASES, ANSWERS):
            if not isinstance(given.read, tuple):
                self.assertEqual(write(read(case.text), LARGEST_TEXT), case.text)

    def test_written_records_are_read_back(self):
        for given in ANSWERS:
            if isinstance(given.written, bytes):
                self.assertEqual(write(read(given.written), LARGEST_TEXT), given.written)

    def test_plans_are_placings(self):
        for case, given in zip(CASES, ANSWERS):
            if isinstance(given.planned, bytes):
                order, starts = order_and_starts(given.planned)
                self.assertTrue(is_placing(demands.records_of(case), order, [start for _, start in sorted(starts)]))

    def test_no_refusal_of_records_and_no_order_is_rare(self):
        refusals = Counter(given.planned[0] for given in ANSWERS if isinstance(given.planned, tuple))
        orders = Counter(order_and_starts(given.planned)[0] for given in ANSWERS if isinstance(given.planned, bytes))
        self.assertEqual((set(refusals), set(orders)), (set(range(5, 15)), set(range(15))))
        self.assertGreaterEqual(min(refusals.values()), 30)
        self.assertGreaterEqual(min(orders.values()), 5)

    def test_every_refusal_at_its_first_and_last_line(self):
        read_refusals = {given.read for given in ANSWERS}
        written, planned = {given.written for given in ANSWERS}, {given.planned for given in ANSWERS}
        for number, first, last in (1, 1, 194), (2, 1, 194), (3, 1, 193), (5, 2, 65), (6, 3, 65):
            self.assertLessEqual({by(number, first), by(number, last)}, read_refusals)
        of_records = {by(5, 2), by(5, 65), by(6, 3), by(6, 65), by(9)}
        self.assertLessEqual(of_records, written)
        self.assertLessEqual(of_records | {by(7), by(8)}, planned)

    def test_every_field_at_a_first_a_middle_and_a_last_line(self):
        counts = {by_field(1, name) for name in ("cluster count", "flow count")}
        fields = {by_field(line, name) for line in (2, 33, 65) for name in ("order", "tag length")}
        fields |= {by_field(line, "tag byte", byte) for line in (2, 33, 65) for byte in (0, 31, 63)}
        fields |= {by_field(line, name) for line in (66, 130, 193) for name in ("source", "sink", "period", "deadline")}
        self.assertLessEqual(counts | fields | {by_field(1, "version")}, {given.read for given in ANSWERS})
        self.assertLessEqual(counts | fields, {given.written for given in ANSWERS})
        self.assertLessEqual(counts | fields, {given.planned for given in ANSWERS})

    def test_a_place_belongs_to_10_to_14_alone(self):
        for given in ANSWERS:
            for refusal in (given.read, given.written, given.planned, given.back, given.checked,
                            given.records_checked):
                if isinstance(refusal, tuple):
                    self.assertEqual(refusal[2] != NO_PLACE, 10 <= refusal[0] <= 14, given)

    def test_sizes_the_program_is_made_for(self):
        stored = sum(len(demands.stored_input(case)) + len(demands.answers_printed(case, given))
                     for case, given in zip(CASES, ANSWERS))
        self.assertLess(stored, 3_000_000)
        for case in CASES:
            self.assertLessEqual(max(len(case.text), case.room, case.plan_room, len(case.plan)), LARGEST_TEXT)


if __name__ == "__main__":
    unittest.main()
