"""Cases of the planner's rules, one group for each: the worked sites of docs/FORMATS.md and errors that look right."""

from itertools import combinations

from plan_building import *
from site_building import CLUSTERS_ONLY, FULL, P3, by_bad, by_field, field_set, made_bad, pair, replaced

P = {1: site([]),
     2: site(chain(3)),
     3: site(chain(3), [(2, 0, 3_840, 3_840)]),
     4: site(chain(3), both_ways([(0, 2)], 3_840, 7_679)),
     5: site(chain(3), both_ways([(0, 2)], 3_840, 7_680)),
     6: site(chain(3), both_ways([(0, 2)], 1_000_000, 7_680)),
     7: site(chain(2), [(0, 1, 1_920, 1_920)]),
     8: site(chain(2), [(0, 1, 1_919, 1_920)]),
     10: site(star(3), [(1, 2, 3_840, 3_840)])}


def own_flow(period, deadline=1):
    """One cluster with a flow to itself."""
    return site([], [(0, 0, period, deadline)])


def worked_sites():
    """P1 to P10 of docs/FORMATS.md, and what stands below them in its table."""
    yield planned(P[1], 14, 0)
    yield planned(P[2], 14, 0, 1, 2)
    yield planned(P[3], 2, 2, 1, 0)
    yield refused(P[4], 8)
    yield planned(P[5], 2, 0, 2, 1)
    yield planned(P[6], 2, 0, 2, 1)
    yield planned(P[7], 1, 0, 1)
    yield refused(P[8], 7)
    yield refused(own_flow(959), 7)
    yield planned(own_flow(960), 0, 0)
    yield planned(P[10], 2, 1, 0, 2)
    yield refused(b"01010100\n", 2, 2)
    yield refused(b"01010100", 1, 1)
    yield planned(pair(b"A" * 16 + b"B", b"A" * 16 + b"C"), 14, 0, 1)


def refused_texts():
    """Texts refused with a line, whatever the room."""
    places = [(number, line) for numbers, lines in (((1, 2, 3), range(1, 6)), ((11, 12, 5), (2, 3, 4)), ((6,), (3, 4)))
              for number in numbers for line in lines]
    for room in 0, LARGEST_TEXT:
        yield refused(b"", 2, 1, room)
        for number, line in places:
            yield Case(text_of(made_bad(P3, number, line)), room, by_bad(number, line))
    for number in 3, 11, 12, 5, 6:
        for line in 33, 65:
            yield Case(text_of(made_bad(CLUSTERS_ONLY, number, line)), states=by_bad(number, line))
    yield Case(text_of(made_bad(FULL, 14, 193)), states=by_bad(14, 193))
    yield refused(P[3][:-1], 1, 5)
    yield refused(P[3] + b"\n", 1, 6)
    yield refused(P[3] + b"03\n", 2, 6)
    yield refused(text_of(P3[:-1]), 2, 5)
    yield refused(pair(b"A" * 64, b"A" * 64), 6, 3)
    yield refused(b"0" * LARGEST_TEXT, 1, 1)


def bad_fields():
    """Each field outside its range, and each two of a line: the first decides, whatever the room."""
    for number, *fields in ((1, ("version", 2), ("cluster count", 65), ("flow count", 129)),
                            (2, ("order", 15), ("tag byte", 0x20)), (4, ("order", 255), ("tag byte", 0x7F)),
                            (5, ("source", 3), ("sink", 255), ("period", 0), ("deadline", LONGEST_TIME + 1)),
                            (5, ("period", LONGEST_TIME + 1), ("deadline", 0))):
        for bad in *combinations(fields, 1), *combinations(fields, 2):
            line = P3[number - 1]
            for field in bad:
                line = field_set(line, *field)
            for room in 0, LARGEST_TEXT:
                yield Case(text_of(replaced(P3, number, line)), room, by_field(number, bad[0][0]))


def rooms():
    """Rooms shorter than the answer by one, as long, and longer; 7 and 8 come before 9."""
    for number, order, clusters in ((1, 14, (0,)), (2, 14, (0, 1, 2)), (3, 2, (2, 1, 0)), (5, 2, (0, 2, 1)),
                                    (7, 1, (0, 1))):
        length = 9 + 25 * len(clusters)
        for room in 0, 1, length - 1:
            yield refused(P[number], 9, room=room)
        for room in length, length + 1:
            yield planned(P[number], order, *clusters, room=room)
    for room in 0, 1, 58, 59:
        yield refused(P[8], 7, room=room)
        yield refused(P[4], 8, room=room)


def longest_plans():
    """The longest plan text, of a site without flows and of the longest; the longest site that fits none."""
    tags = [tag_of(i, 64) for i in range(64)]
    text = site(star(64), tags=tags)
    yield refused(text, 9, room=LONGEST_PLAN - 1)
    yield planned(text, 14, *range(64), room=LONGEST_PLAN)
    upward = [(j % 64, 0, 61_440, 61_440) for j in range(128)]
    yield planned(site(star(64), upward, tags=tags), 6, *range(1, 64), 0)
    yield refused(site(star(64), upward, [1] + [0] * 63, tags), 7, room=0)


def periods():
    """The shortest required period on both sides of every interval."""
    yield refused(own_flow(1), 7)
    for order in range(15):
        at = interval(order)
        yield planned(own_flow(at), order, 0)
        yield planned(own_flow(at + 1), order, 0)
        yield planned(own_flow(at - 1), order - 1, 0) if order else refused(own_flow(at - 1), 7)
    yield planned(own_flow(LONGEST_TIME), 14, 0)


def full_intervals():
    """Portions that fill an interval, with one symbol less of period, and with one cluster more."""
    for order in range(1, 15):
        at, orders = interval(order), [*range(order - 1, -1, -1), 0]
        count = len(orders)
        yield planned(site(star(count), [(0, 0, at, 1)], orders), order, *range(count))
        yield refused(site(star(count), [(0, 0, at - 1, 1)], orders), 7)
        yield refused(site(star(count + 1), [(0, 0, at, 1)], [*orders, 0]), 7)
    yield planned(site(chain(3), [(0, 0, 3_840, 1)]), 2, 0, 1, 2)
    yield refused(site(chain(3), [(0, 0, 3_839, 1)]), 7)


def largest_orders():
    """Portions of orders up to 14."""
    for order in 0, 1, 13, 14:
        yield planned(site([], orders=[order]), 14, 0)
    yield planned(site([], [(0, 0, 15_728_640, 1)], [14]), 14, 0)
    yield refused(site([], [(0, 0, 15_728_639, 1)], [14]), 7)
    yield planned(site(chain(2), orders=[13, 13]), 14, 0, 1)
    for orders in (14, 14), (14, 0), (0, 14), (13, 13, 0):
        yield refused(site(chain(len(orders)), orders=orders), 7)
    yield planned(site(star(64), orders=[8] * 64), 14, *range(64))
    for count, order in (33, 9), (64, 9), (16, 14), (64, 14):
        yield refused(site(star(count), orders=[order] * count), 7)


def allowed_crossings():
    """A chain with a flow each way, at and below every multiple of the interval: floor, not ceiling.

    The deadlines at the multiples leave one choice. One below the interval itself still allows 0.
    """
    at = interval(3)
    for up in range(1, 7):
        down = 7 - up
        clusters = *range(up - 1), *range(5, up - 2, -1)
        for deadline in up * at, up * at + 1, up * at + at - 1:
            yield planned(site(chain(6), [(5, 0, at, deadline), (0, 5, at, down * at)]), 3, *clusters)
        for one, other, first in (up * at - 1, down * at, up), (up * at, down * at - 1, down):
            text = site(chain(6), [(5, 0, at, one), (0, 5, at, other)])
            yield planned(text, 3, *clusters) if first == 1 else refused(text, 8)
    for deadline in 1, 959, 960, 3_839, 3_840, 7_679:
        yield planned(site(chain(3), [(2, 0, 3_840, deadline)]), 2, 2, 1, 0)
    for deadline in 7_680, 7_681, 11_519:
        yield planned(site(chain(3), [(2, 0, 3_840, deadline)]), 2, 0, 2, 1)
    for deadline in 11_520, LONGEST_TIME:
        yield planned(site(chain(3), [(2, 0, 3_840, deadline)]), 2, 0, 1, 2)


def smaller_orders():
    """Larger orders fail for their deadlines, and a smaller one is tried."""
    for order in range(2, 15):
        at = 2 * interval(order)
        one_below = site(chain(3), both_ways([(0, 2)], LONGEST_TIME, at - 1))
        yield planned(site(chain(3), both_ways([(0, 2)], LONGEST_TIME, at)), order, 0, 2, 1)
        yield planned(one_below, order - 1, 0, 1, 2) if order > 2 else refused(one_below, 8)
    yield planned(site(chain(2), [(1, 0, LONGEST_TIME, 3_840), (0, 1, LONGEST_TIME, 1)]), 1, 0, 1)
    yield refused(site(chain(2), [(1, 0, LONGEST_TIME, 3_839), (0, 1, LONGEST_TIME, 1)]), 8)


def roots_anywhere():
    """The root starts first, last and between, by what the flows ask."""
    at = 7_680
    yield planned(site(star(5)), 14, 0, 1, 2, 3, 4)
    yield planned(site(star(5), [(c, 0, at, at) for c in range(1, 5)]), 3, 1, 2, 3, 4, 0)
    yield planned(site(star(5), [(0, c, at, at) for c in range(1, 5)]), 3, 0, 1, 2, 3, 4)
    yield planned(site(star(5), [(3, 0, at, at)]), 3, 3, 0, 1, 2, 4)
    yield planned(site(star(5), [(4, 1, at, at), (2, 3, at, at)]), 3, 2, 4, 0, 1, 3)


def lowest_numbers():
    """The lowest-numbered cluster that may come comes next, also past higher ones that could for long."""
    at = 7_680
    yield planned(site([0, 0, 1, 0], [(3, 1, at, at)]), 3, 0, 2, 3, 1, 4)
    yield planned(site([0, 0, 1, 2], [(3, 0, at, at)]), 3, 3, 1, 0, 2, 4)
    yield planned(site([0, 0, 0, 1], [(4, 1, at, at)]), 3, 0, 2, 3, 4, 1)
    yield planned(site([0, 1, 2, 0], [(3, 2, at, at)]), 3, 0, 1, 3, 2, 4)
    yield planned(site([0, 1, 1, 0], [(3, 0, at, at)]), 3, 3, 1, 0, 2, 4)
    yield planned(site([0, 0, 1, 2], [(3, 1, at, at)], [0, 0, 1, 0, 1]), 3, 0, 2, 3, 1, 4)


def downward_parts():
    """The term for the downward part of a path, counted from its top and not from the root."""
    at = 7_680
    yield planned(site([0, 0, 1, 2], [(3, 4, at, at)]), 3, 3, 1, 0, 2, 4)
    yield planned(site([0, 0, 1, 2], [(3, 4, at, 2 * at)]), 3, 0, 2, 3, 1, 4)
    yield planned(site([0, 0, 1, 2], [(3, 4, at, 3 * at)]), 3, 0, 1, 2, 3, 4)
    yield planned(site([0, 1, 1], [(2, 3, 3_840, 3_840)]), 2, 0, 2, 1, 3)
    yield planned(site([0, 1, 1], [(3, 2, 3_840, 3_840)]), 2, 0, 3, 1, 2)
    yield planned(site(star(3), [(2, 1, 3_840, 3_840)]), 2, 2, 0, 1)
    yield refused(site(star(3), both_ways([(1, 2)], 3_840, 3_840)), 8)
    yield refused(site(star(3), both_ways([(1, 2)], 3_840, 7_680, 7_679)), 8)
    yield planned(site(star(3), both_ways([(1, 2)], 3_840, 7_680)), 2, 0, 1, 2)
    yield planned(site(chain(3), [(0, 2, 3_840, 3_840)]), 2, 0, 1, 2)


def loops():
    """Loops of several flows whose sum is negative, or 0, with and without the tree's own constraints."""
    for multiples, clusters in (((1, 1, 1), None), ((2, 2, 1), None), ((9, 1, 1), None),
                                ((2, 2, 2), (0, 1, 2, 3)), ((9, 2, 1), (2, 3, 0, 1)), ((9, 1, 2), (2, 0, 1, 3))):
        flows = [(1 + i, 1 + (i + 1) % 3, 3_840, 3_840 * many) for i, many in enumerate(multiples)]
        text = site(star(4), flows)
        yield planned(text, 2, *clusters) if clusters else refused(text, 8)
    end = both_ways([(5, 7)], 7_680, 15_360)
    yield planned(site(chain(8), end), 3, 0, 1, 2, 3, 4, 5, 7, 6)
    yield refused(site(chain(8), end + [(7, 6, 7_680, 7_680), (6, 5, 7_680, 7_680)]), 8)


def own_flows():
    """A flow from a cluster to itself crosses none; its period counts."""
    yield planned(site(chain(3), [(1, 1, 3_840, 1)]), 2, 0, 1, 2)
    yield planned(site(chain(3), [(2, 2, 7_679, 1), (1, 1, LONGEST_TIME, 1)]), 2, 0, 1, 2)
    yield refused(site(chain(3), [(2, 0, 3_840, 3_840), (2, 2, 3_839, LONGEST_TIME)]), 7)
    yield planned(site(chain(3), [(c, c, 3_840, 1) for c in range(3)] + [(2, 0, 3_840, 3_840)]), 2, 2, 1, 0)


def deciding_flows():
    """The first, a middle and the last flow decides alone: by its period, its deadline, a refusal."""
    for count, place in (15, 0), (15, 7), (128, 127):
        for fields, order, clusters in (((0, 2, 3_840, LONGEST_TIME), 2, (0, 1, 2)),
                                        ((2, 0, 7_680, 7_680), 3, (2, 1, 0)),
                                        ((1, 2, 3_839, LONGEST_TIME), 7, None),
                                        ((1, 0, 3_840, 3_840), 8, None)):
            flows = [(0, 1, 15_360, 1) if order == 8 else (2, 0, 15_360, LONGEST_TIME)] * count
            flows[place] = fields
            text = site(chain(3), flows)
            yield planned(text, order, *clusters) if clusters else refused(text, order)


GROUPS = (worked_sites, refused_texts, bad_fields, rooms, longest_plans, periods, full_intervals, largest_orders,
          allowed_crossings, smaller_orders, roots_anywhere, lowest_numbers, downward_parts, loops, own_flows,
          deciding_flows)
