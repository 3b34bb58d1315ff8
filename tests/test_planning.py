"""Checks planning.py against the worked sites P1 to P11, what the cases state, and every sequence of small sites.

Run by `python3 -m unittest discover tests`.
"""

import unittest
from collections import Counter
from random import Random

import plan_cases
from plan_building import LONGEST_PLAN
from plan_rules import P, longest_plans, own_flow
from plan_sites import largest_sites, random_site
from planning import (allowed, constraints, depth, fitting_orders, is_placing, permitted, placing_exists, placings,
                      plan, printed, shortest_distances, starts_of)
from reference import place, read
from site_building import LARGEST_TEXT, OPEN, P3, by, text_of

CASES = plan_cases.cases()


def answer(text, room=LARGEST_TEXT):
    """A refusal, or the beacon order and, in order of start, each cluster with its start."""
    number, written = plan(text, room)
    if not written:
        return *divmod(number, 65_536), place(text)
    first, *others = [bytes.fromhex(line.decode()) for line in written.splitlines()]
    return first[2], tuple((line[1], int.from_bytes(line[2:6], "big")) for line in others)


def is_refusal(answered):
    return isinstance(answered[1], int)


def starts_in(placed):
    """The start of each cluster, by its number."""
    return [start for _, start in sorted(placed)]


ANSWERS = [answer(case.text, case.room) for case in CASES]


class WorkedRows(unittest.TestCase):
    def test_p1_to_p10(self):
        for text, answered in ((P[1], (14, ((0, 0),))),
                               (P[2], (14, ((0, 0), (1, 960), (2, 1_920)))),
                               (P[3], (2, ((2, 0), (1, 960), (0, 1_920)))),
                               (P[4], by(8)),
                               (P[5], (2, ((0, 0), (2, 960), (1, 1_920)))),
                               (P[6], (2, ((0, 0), (2, 960), (1, 1_920)))),
                               (P[7], (1, ((0, 0), (1, 960)))),
                               (P[8], by(7)),
                               (own_flow(959), by(7)),
                               (own_flow(960), (0, ((0, 0),))),
                               (P[10], (2, ((1, 0), (0, 960), (2, 1_920))))):
            self.assertEqual(answer(text), answered)

    def test_p3_whole(self):
        self.assertEqual(P[3], text_of(P3))
        self.assertEqual(plan(P[3], 84), (84, b"81010203\n"
                                              b"820200000000000003C00143\n"
                                              b"8201000003C0000003C00142\n"
                                              b"820000000780000003C00141\n"))
        self.assertEqual(plan(P[3], 83), (65_536 * 9, b""))
        self.assertEqual(printed(P[3]), plan(P[3], 84)[1])

    def test_refusals_as_printed(self):
        for text, line in (P[8], b"8F070000FF\n"), (b"", b"8F020001FF\n"), (b"01020000\n", b"8F0A000101\n"):
            self.assertEqual(printed(text), line)

    def test_p6_though_order_10_is_permitted(self):
        self.assertTrue(permitted(read(P[6]), 10))
        self.assertFalse(permitted(read(P[6]), 11))

    def test_p11(self):
        self.assertEqual([allowed(deadline, 3_840) for deadline in (3_839, 3_840, 7_679, 7_680)], [0, 0, 0, 1])


class Cases(unittest.TestCase):
    def test_answers_are_those_stated(self):
        for case, answered in zip(CASES, ANSWERS):
            if case.states != OPEN:
                if not is_refusal(answered):
                    answered = answered[0], tuple(cluster for cluster, _ in answered[1])
                self.assertEqual(answered, case.states, case)

    def test_plans_are_placings(self):
        for case, answered in zip(CASES, ANSWERS):
            if not is_refusal(answered):
                order, placed = answered
                self.assertTrue(is_placing(read(case.text), order, starts_in(placed)), case)

    def test_no_refusal_and_no_order_is_rare(self):
        refusals = Counter(answered[0] for answered in ANSWERS if is_refusal(answered))
        orders = Counter(answered[0] for answered in ANSWERS if not is_refusal(answered))
        self.assertEqual((set(refusals), set(orders)), (set(range(1, 15)) - {4}, set(range(15))))
        self.assertGreaterEqual(min(refusals.values()), 10)
        self.assertGreaterEqual(min(orders.values()), 25)
        self.assertGreaterEqual(min(refusals[7], refusals[8], refusals[9]), 100)

    def test_sizes_the_program_is_made_for(self):
        self.assertLess(sum(len(plan_cases.stored_input(case)) for case in CASES), 600_000)
        self.assertEqual(max(len(case.text) for case in CASES), LARGEST_TEXT)
        self.assertEqual(max(case.room for case in CASES), LARGEST_TEXT)

    def test_limits_are_reached(self):
        self.assertEqual(max(plan(case.text, case.room)[0] % 65_536 for case in longest_plans()), LONGEST_PLAN)
        self.assertEqual(max(len(constraints(read(case.text), 6)) for case in largest_sites()), 254)


class OtherWay(unittest.TestCase):
    """N again, by lowering the depths as far as the constraints ask."""

    def lowered(self, records, limits):
        distances = [depth(records, cluster) for cluster in range(records.cluster_count)]
        changed = True
        while changed:
            changed = False
            for start, end, limit in limits:
                if distances[end] > distances[start] + limit:
                    distances[end], changed = distances[start] + limit, True
            if min(distances) < 0:
                return None
        return distances

    def test_distances(self):
        for case, answered in zip(CASES, ANSWERS):
            if not is_refusal(answered) or answered[0] in (8, 9):
                records = read(case.text)
                for order in fitting_orders(records):
                    limits = constraints(records, order)
                    distances = shortest_distances(records.cluster_count, limits)
                    self.assertEqual(distances, self.lowered(records, limits), case)
                    if distances:
                        break


class EverySequence(unittest.TestCase):
    """Plans and refusals of random small sites against all sequences of their clusters."""

    def possible_orders(self, records):
        """The orders whose interval is at most the shortest period and at least the sum of the portions."""
        longest = min((flow.period for flow in records.flows[:records.flow_count]), default=960 << 14)
        shortest = sum(960 << cluster.order for cluster in records.clusters[:records.cluster_count])
        return [order for order in range(15) if shortest <= 960 << order <= longest]

    def counted(self, records, starts):
        """For each cluster the parent-first edges from the root to it."""
        found = [0]
        for child in range(1, records.cluster_count):
            parent = records.clusters[child].parent
            found.append(found[parent] + (starts[parent] < starts[child]))
        return found

    def check_plan(self, records, order, placed):
        """A placing, none exists at a larger order, and it is the lowest sequence of those with the greatest N."""
        orders, starts = self.possible_orders(records), starts_in(placed)
        self.assertIn(order, orders)
        self.assertTrue(is_placing(records, order, starts))
        self.assertFalse(any(placing_exists(records, larger) for larger in orders if larger > order))
        ways = [(self.counted(records, starts_of(records, sequence)), sequence)
                for sequence in placings(records, order)]
        greatest = [max(counts) for counts in zip(*(found for found, _ in ways))]
        lowest = next(sequence for found, sequence in ways if found == greatest)
        self.assertEqual(tuple(cluster for cluster, _ in placed), lowest)

    def check_refusal(self, records, number):
        orders = self.possible_orders(records)
        self.assertEqual(number, 8 if orders else 7)
        self.assertFalse(any(placing_exists(records, order) for order in orders))

    def test_random_sites(self):
        random, seen = Random(6), Counter()
        for _ in range(2_500):
            text = random_site(random, 6)
            answered = answer(text)
            with self.subTest(text=text):
                if is_refusal(answered):
                    self.check_refusal(read(text), answered[0])
                else:
                    self.check_plan(read(text), *answered)
            seen[answered[0] if is_refusal(answered) else "plan"] += 1
        self.assertGreater(min(seen[7], seen[8], seen["plan"]), 150)


if __name__ == "__main__":
    unittest.main()
