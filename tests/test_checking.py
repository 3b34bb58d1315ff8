"""Checks checking.py against docs/FORMATS.md, what the cases of demands.py state, and what a placing is.

Run by `python3 -m unittest discover tests`.
"""

import unittest
from collections import Counter
from itertools import permutations, product
from random import Random

import demands
import reference
from check_building import CHAIN, packed
from check_texts import random_lines
from checking import check, check_records
from plan_sites import random_site
from planning import is_placing, permitted, plan_text
from reference import LARGEST_ORDER, read
from site_building import by, text_of
from site_texts import damaged
from test_reference import ANSWERS, CASES


def order_and_starts(plan, count):
    """What a plan text says, if it has the shape of one: its order, and the start of each cluster."""
    try:
        first, *others = [bytes.fromhex(line.decode()) for line in plan.splitlines()]
        starts = dict(sorted((line[1], int.from_bytes(line[2:6], "big")) for line in others))
        return first[2], list(starts.values()) if list(starts) == list(range(count)) else None
    except (ValueError, IndexError, UnicodeDecodeError):
        return None, None


def is_plan(site, plan):
    """Whether a text is the plan text of some permitted order and some placing at it, with the clusters in order."""
    order, starts = order_and_starts(plan, site.cluster_count)
    return (starts is not None and order <= LARGEST_ORDER and permitted(site, order)
            and is_placing(site, order, starts) and plan == plan_text(site, order, starts))


class WorkedRows(unittest.TestCase):
    P3_PLAN = (b"81010203\n"
               b"820200000000000003C00143\n"
               b"8201000003C0000003C00142\n"
               b"820000000780000003C00141\n")

    def test_p3_whole(self):
        for old, new, refusal in ((b"", b"", None), (b"81010203", b"81020203", by(20)), (b"143\n", b"143\r\n", by(20)),
                                  (b"81010203", b"81010303", by(21)), (b"81010203", b"81010F03", by(21)),
                                  (b"81010203", b"81010204", by(22)), (b"0143", b"0144", by(22)),
                                  (b"8201000003C0", b"8202000003C0", by(22)), (b"03C00142", b"03C10142", by(22)),
                                  (b"8201000003C0", b"8201000003BF", by(23)), (b"820000000780", b"820000000781", None),
                                  (b"820000000780", b"820000000B40", None), (b"820000000780", b"820000000B41", by(23)),
                                  (b"820000000780", b"8200FFFFFFFF", by(23))):
            self.assertEqual(check(CHAIN, self.P3_PLAN.replace(old, new, 1)), refusal, (old, new))
        self.assertEqual(text_of(packed(2, (2, 1, 0))), self.P3_PLAN)
        self.assertEqual(check(CHAIN, text_of(packed(2, (1, 2, 0)))), by(24))

    def test_refusals_of_the_site_come_first(self):
        self.assertEqual(check(b"", b""), by(2, 1))
        self.assertEqual(check(b"01020000\n", self.P3_PLAN), by(10, 1, 1))
        self.assertEqual(check(CHAIN, b""), by(20))

    def test_records(self):
        site = read(CHAIN)
        self.assertIsNone(check_records(site, self.P3_PLAN))
        site.clusters[2].parent = 2
        self.assertEqual(check_records(site, self.P3_PLAN), by(5, 4))


def number_of(answer):
    """The number of a refusal, or None."""
    return answer and answer[0]


class Cases(unittest.TestCase):
    """What the cases state is compared with the answers by test_reference.py."""

    def test_accepted_exactly(self):
        for case, given in zip(CASES, ANSWERS):
            site, records = read(case.text), demands.records_of(case)
            if not isinstance(site, tuple):
                self.assertEqual(given.checked is None, is_plan(site, case.plan), case)
            if case.patches and reference.check(records) is None:
                self.assertEqual(given.records_checked is None, is_plan(records, case.plan), case)

    def test_own_plans_pass(self):
        for case, given in zip(CASES, ANSWERS):
            if isinstance(given.planned, bytes):
                self.assertIsNone(check_records(demands.records_of(case), given.planned), case)

    def test_no_answer_is_rare(self):
        for answers in (Counter(number_of(given.checked) for given in ANSWERS),
                        Counter(number_of(given.records_checked) for given in ANSWERS)):
            self.assertGreaterEqual(min(answers[number] for number in (None, *range(20, 25))), 50)
            self.assertFalse({4, 7, 8, 9} & set(answers))


class EveryStart(unittest.TestCase):
    """All sequences of small sites at all orders, set end to end, and all starts of two clusters near their edges."""

    def test_sequences(self):
        random, seen = Random(11), Counter()
        for _ in range(60):
            text = random_site(random, 4)
            site = read(text)
            for order, sequence in product(range(16), permutations(range(site.cluster_count))):
                orders = [cluster.order for cluster in site.clusters[:site.cluster_count]]
                plan = text_of(packed(order, sequence, orders=orders))
                answer = check(text, plan)
                self.assertEqual(answer is None, is_plan(site, plan), (text, plan))
                seen[number_of(answer)] += 1
        self.assertGreaterEqual(min(seen[number] for number in (None, 21, 23, 24)), 100)

    def test_two_starts(self):
        text = b"01010201\n02FF000141\n0200010142\n0300010000078100001000\n"
        site = read(text)
        times = 0, 1, 959, 960, 961, 1_919, 1_920, 1_921, 2_880, 2 ** 32 - 1_920, 2 ** 32 - 1
        for order, starts in product(range(4), product(times, times)):
            self.assertEqual(check(text, plan_text(site, order, starts)) is None,
                             permitted(site, order) and is_placing(site, order, starts))

    def test_damaged(self):
        random, seen = Random(12), Counter()
        for _ in range(3_000):
            text = random_site(random, 5)
            plan = text_of(random_lines(random, text))
            for _ in range(random.randrange(3)):
                plan = damaged(plan, random)
            answer = check(text, plan)
            self.assertEqual(answer is None, is_plan(read(text), plan), (text, plan))
            seen[number_of(answer)] += 1
        self.assertGreaterEqual(min(seen[number] for number in (None, *range(20, 25))), 100)


if __name__ == "__main__":
    unittest.main()
