"""Cases on both sides of every limit of a field of records that are handed straight to the planner."""

from plan_building import LONGEST_TIME, both_ways, chain, site, star, tag_of
from plan_rules import P, own_flow
from planning import interval
from site_building import *

CHAIN, CHAIN_PLAN = P[3], (2, (2, 1, 0))
NO_TIMES = 0, LONGEST_TIME + 1, 0x80000000, LARGEST_NUMBER


def is_refusal(answer):
    return isinstance(answer[1], int)


def plans(text, answer, *patches, room=LARGEST_TEXT):
    """A sound text whose patched records are refused, or planned at an order in this sequence of clusters."""
    written = answer if is_refusal(answer) and answer[0] not in (7, 8, 9) else OPEN
    return Case(text, None, written, patches, plans=answer, plan_room=room)


def with_and_without_room(text, answer, *patches):
    """The same in the longest room and in none, where a plan is refused by 9."""
    yield plans(text, answer, *patches)
    yield plans(text, answer if is_refusal(answer) else by(9), *patches, room=0)


def counts():
    """Counts at both sides of what is there and of the arrays; entries past those read are zero."""
    bad_clusters, bad_flows = by_field(1, "cluster count"), by_field(1, "flow count")
    no_tag, no_period = by_field(5, "tag length"), by_field(6, "period")
    for count, answer in ((0, bad_clusters), (1, by_field(3, "source")), (2, by_field(4, "source")), (3, CHAIN_PLAN),
                          (4, no_tag), (64, no_tag), (65, bad_clusters), (200, bad_clusters), (255, bad_clusters)):
        yield from with_and_without_room(CHAIN, answer, patch("cluster count", count))
    for count, answer in ((0, (14, (0, 1, 2))), (1, CHAIN_PLAN), (2, no_period), (128, no_period), (129, bad_flows),
                          (255, bad_flows)):
        yield from with_and_without_room(CHAIN, answer, patch("flow count", count))
    for answer, *pairs in ((bad_clusters, (0, 0), (65, 0), (200, 1), (255, 128), (65, 129), (255, 255)),
                           (bad_flows, (3, 129), (64, 255))):
        for clusters, flows in pairs:
            yield plans(CHAIN, answer, patch("cluster count", clusters), patch("flow count", flows))


def parents():
    """Every parent of each cluster of a chain: FF on a child, the own number, a root that has one."""
    answers = {(0, 255): CHAIN_PLAN, (1, 0): CHAIN_PLAN, (2, 0): (2, (2, 0, 1)), (2, 1): CHAIN_PLAN}
    for i in range(3):
        for parent in 0, 1, 2, 3, 63, 64, 254, 255:
            answer = answers.get((i, parent), by(5, 2 + i))
            yield from with_and_without_room(CHAIN, answer, patch("parent", parent, i))


def orders():
    """Orders of each cluster, with a period that two portions of 960 and one of 1,920 fill, and without flows."""
    for i in range(3):
        for order in 0, 1, 2, 13, 14, 15, 16, 255:
            refusal = by_field(2 + i, "order") if order > 14 else by(7)
            yield plans(CHAIN, CHAIN_PLAN if order < 2 else refusal, patch("order", order, i))
            yield plans(P[2], (14, (0, 1, 2)) if order < 14 else refusal, patch("order", order, i))


def full_intervals():
    """Portions that fill the longest interval, and that are one portion of 960 too long for it."""
    for orders, answer in (((12, 12, 13), 14), ((13, 12, 12), 14), ((13, 13, 0), 7), ((14, 0, 0), 7),
                           ((14, 14, 14), 7), ((0, 0, 0), 14), ((13, 12, 11), 14)):
        patches = [patch("order", order, i) for i, order in enumerate(orders)]
        yield from with_and_without_room(P[2], (14, (0, 1, 2)) if answer == 14 else by(7), *patches)


def tag_lengths():
    """Tag lengths of tags that were read with one byte, and with 64."""
    long_tags = site(chain(3), [(2, 0, 3_840, 3_840)], tags=[tag_of(i, 64) for i in range(3)])
    for i in range(3):
        for length in 0, 1, 2, 63, 64, 65, 200, 255:
            in_range, by_length = 1 <= length <= 64, by_field(2 + i, "tag length")
            by_zero = by_field(2 + i, "tag byte", 1) if in_range else by_length
            yield plans(CHAIN, CHAIN_PLAN if length == 1 else by_zero, patch("tag length", length, i))
            yield plans(long_tags, CHAIN_PLAN if in_range else by_length, patch("tag length", length, i))


def tag_bytes():
    """Tag bytes at both sides of their range, and rubbish behind the tag's length, which is not looked at."""
    for i in range(3):
        for byte in 0x00, 0x20, 0x21, 0x7E, 0x7F, 0x80, 0xFF:
            answer = CHAIN_PLAN if 0x21 <= byte <= 0x7E else by_field(2 + i, "tag byte")
            yield plans(CHAIN, answer, patch("tag byte", byte, i))
            yield plans(CHAIN, CHAIN_PLAN, patch("tag byte", byte, i, 1), patch("tag byte", byte, i, 63))
    yield plans(CHAIN, CHAIN_PLAN, *(patch("tag byte", 255, i, place) for i in range(3) for place in range(1, 64)))


def same_tags():
    """Tags that are the same, whatever stands behind them, and tags that agree in a prefix only."""
    for first, second, answer in ((b"A", b"A", by(6, 3)), (b"A", b"C", by(6, 4)), (b"C", b"D", by(6, 4)),
                                  (b"A" * 64, b"A" * 64, by(6, 3)), (b"A", b"AA", CHAIN_PLAN),
                                  (b"AA", b"A", CHAIN_PLAN), (b"A" * 64, b"A" * 63, CHAIN_PLAN),
                                  (b"A" * 16 + b"B", b"A" * 16 + b"D", CHAIN_PLAN)):
        tags = *tag_patches(first), *tag_patches(second, 1)
        yield from with_and_without_room(CHAIN, answer, *tags)
        if len(second) < 64:
            yield plans(CHAIN, answer, *tags, patch("tag byte", 0x41, 1, len(second)))
    wide = site(star(64))
    for i, earlier in (1, 0), (31, 0), (63, 0), (63, 62):
        yield plans(wide, by(6, 2 + i), patch("tag byte", tag_of(earlier)[0], i))


def ends():
    """Sources and sinks that are there, and that are not."""
    answers = {("source", 0): (2, (0, 1, 2)), ("source", 1): (2, (1, 0, 2)), ("source", 2): CHAIN_PLAN,
               ("sink", 0): CHAIN_PLAN, ("sink", 1): (2, (0, 2, 1)), ("sink", 2): (2, (0, 1, 2))}
    for name in "source", "sink":
        for end in 0, 1, 2, 3, 63, 64, 254, 255:
            yield from with_and_without_room(CHAIN, answers.get((name, end), by_field(5, name)), patch(name, end))


def periods():
    """The period of one cluster's own flow and of a chain's, on both sides of every interval and of its range."""
    for time in NO_TIMES:
        yield from with_and_without_room(own_flow(960), by_field(3, "period"), patch("period", time))
        yield from with_and_without_room(CHAIN, by_field(5, "period"), patch("period", time))
    for time, order in (1, -1), (959, -1), (LONGEST_TIME, 14):
        yield plans(own_flow(960), (order, (0,)) if order >= 0 else by(7), patch("period", time))
        yield plans(CHAIN, (order, (2, 1, 0)) if order >= 0 else by(7), patch("period", time))
    for order in range(15):
        for time, given in (interval(order) - 1, order - 1), (interval(order), order), (interval(order) + 1, order):
            yield plans(own_flow(960), (given, (0,)) if given >= 0 else by(7), patch("period", time))
            if order > 0:
                yield plans(CHAIN, (given, (2, 1, 0)) if given >= 2 else by(7), patch("period", time))


def deadlines():
    """The deadline of a chain's flow, on both sides of what each crossing needs and of its range."""
    for time in NO_TIMES:
        yield from with_and_without_room(CHAIN, by_field(5, "deadline"), patch("deadline", time))
    for clusters, times in (((2, 1, 0), (1, 959, 960, 3_839, 3_840, 7_679)), ((0, 2, 1), (7_680, 7_681, 11_519)),
                            ((0, 1, 2), (11_520, LONGEST_TIME))):
        for time in times:
            yield plans(CHAIN, (2, clusters), patch("deadline", time))


def two_deadlines():
    """A chain's flows up and down with deadlines that leave one choice, or none by one symbol."""
    at = interval(3)
    text = site(chain(6), [(5, 0, at, 1), (0, 5, at, 1)])
    for up in range(1, 7):
        down = 7 - up
        clusters = *range(up - 1), *range(5, up - 2, -1)
        for one, other, fits in ((up * at, down * at, True), (up * at + at - 1, down * at, True),
                                 (up * at - 1, down * at, up == 1), (up * at, down * at - 1, down == 1)):
            yield plans(text, (3, clusters) if fits else by(8), patch("deadline", one), patch("deadline", other, 1))


def smaller_orders():
    """Deadlines that fail at the largest orders, and do at a smaller one."""
    text = site(chain(3), both_ways([(0, 2)], LONGEST_TIME, 1))
    for order in range(2, 15):
        at = 2 * interval(order)
        below = (order - 1, (0, 1, 2)) if order > 2 else by(8)
        for deadline, answer in (at, (order, (0, 2, 1))), (at - 1, below):
            yield plans(text, answer, patch("deadline", deadline), patch("deadline", deadline, 1))


GROUPS = (counts, parents, orders, full_intervals, tag_lengths, tag_bytes, same_tags, ends, periods, deadlines,
          two_deadlines, smaller_orders)
