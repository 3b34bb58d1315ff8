"""Cases on both sides of every limit of the checker, at the first, a middle and the last line or flow."""

from check_building import *
from plan_building import LONGEST_TIME, both_ways
from plan_rules import own_flow


def orders():
    """Orders that are permitted, and the next above: by a period, by 14, by the first, a middle and the last flow."""
    for order in range(15):
        for period, number in (interval(order), None), (interval(order) - 1, 21), (interval(order + 1) - 1, None):
            yield checks(own_flow(period), packed(order, (0,)), number)
        yield checks(own_flow(interval(order)), packed(order + 1, (0,)), 21)
        yield checks(P[1], packed(order, (0,)), None)
    for order in 15, 16, 31, 32, 128, 255:
        yield checks(P[1], packed(order, (0,)), 21)
        yield checks(own_flow(LONGEST_TIME), packed(order, (0,)), 21)
    for place in 0, 64, 127:
        flows = [(0, 0, LONGEST_TIME, 1)] * 128
        flows[place] = 0, 0, 1_920, 1
        for order, number in (1, None), (2, 21):
            yield checks(site([], flows), packed(order, (0,)), number)


def counts():
    """The number of clusters in the header."""
    for text, lines, numbers in ((P[1], packed(14, (0,)), (0, 2, 64, 255)), (CHAIN, CHAIN_LINES, (0, 2, 4, 131, 255)),
                                 (WIDE, WIDE_LINES, (0, 63, 65, 192, 255))):
        yield checks(text, lines, None)
        for count in numbers:
            yield checks(text, plan_set(lines, 1, "count", count), 22)


def clusters():
    """Clusters that are unknown, missing or there twice, the header's count being the site's or that of the lines."""
    for text, lines, rows in ((P[1], packed(14, (0,)), (2,)), (CHAIN, CHAIN_LINES, (2, 3, 4)),
                              (WIDE, WIDE_LINES, ROWS)):
        count = len(lines) - 1
        for row in rows:
            line = lines[row - 1]
            for number in sorted({count, 128 + int(line[2:4], 16), 255}):
                yield checks(text, plan_set(lines, row, "cluster", number), 22)
            for others in (lines[:row - 1] + lines[row:], lines[:row] + lines[row - 1:],
                           lines + [number_set(line, 2, 4, 100_000)]):
                yield checks(text, others, 22)
                if count < 64:
                    yield checks(text, plan_set(others, 1, "count", len(others) - 1), 22)


def another_twice():
    """A cluster twice, sound in both lines, in the place of another."""
    for text, lines, pairs in ((CHAIN, CHAIN_LINES, ((2, 3), (3, 2), (2, 4), (4, 2), (3, 4), (4, 3))),
                               (WIDE, WIDE_LINES, ((2, 3), (2, 65), (33, 34), (33, 2), (65, 64), (65, 2)))):
        for row, other in pairs:
            start = int(lines[row - 1][4:12], 16)
            yield checks(text, replaced(lines, row, number_set(lines[other - 1], 2, 4, start)), 22)


def lengths():
    """Lengths that are not the portion: of another order, one symbol off, off in each byte."""
    near = 959, 961, 1_920
    for text, lines, rows, others in ((CHAIN, CHAIN_LINES, (2, 3, 4), (*near, 0, 480, 960 ^ 1 << 8, 960 ^ 1 << 16,
                                                                       960 ^ 1 << 24, LARGEST_NUMBER)),
                                      (WIDE, WIDE_LINES, ROWS, near)):
        for row in rows:
            for length in others:
                yield checks(text, plan_set(lines, row, "length", length), 22)
    for order in range(15):
        lines = packed(14, (0,), orders=[order])
        yield checks(site([], orders=[order]), lines, None)
        for length in interval(order) - 1, interval(order) + 1, 2 * interval(order):
            yield checks(site([], orders=[order]), plan_set(lines, 2, "length", length), 22)


def tags():
    """Tags that are off in one byte, shorter, longer, or another cluster's."""
    for length in 17, 64:
        own = [tag_of(i, length) for i in range(3)]
        text, lines = site(chain(3), tags=own), packed(2, (1, 2, 0), own)
        yield checks(text, lines, None)
        for row, number in (2, 1), (3, 2), (4, 0):
            tag = own[number]
            for place in sorted({0, 15, 16, length // 2, length - 2, length - 1}):
                for other in tag[place] ^ 1, tag[place] ^ 0x80:
                    yield checks(text, plan_set(lines, row, "tag byte", other, place), 22)
            for other in tag[:-1], tag[1:], tag[:16], tag[:1], tag + b"~", tag + tag[-1:], own[(number + 1) % 3], b"":
                yield checks(text, retagged(lines, row, other), 22)
    own = [tag_of(i, 17) for i in range(64)]
    text, lines = site(star(64), tags=own), packed(6, range(64), own)
    for row in ROWS:
        yield checks(text, plan_set(lines, row, "tag byte", 0x20, 16), 22)
        yield checks(WIDE, retagged(WIDE_LINES, row, b"~"), 22)
        yield checks(WIDE, retagged(WIDE_LINES, row, bytes.fromhex(WIDE_LINES[row - 1][22:].decode()) * 2), 22)


def starts():
    """A start in a row with gaps: before the line above, with it, overlapping, touching, apart, and the same below."""
    for count, rows in (2, (3,)), (3, (3,)), (64, (3, 33, 64, 65)):
        text, lines = site(star(count)), spaced(14, count)
        yield checks(text, lines, None)
        for row in rows:
            above, last = 1_920 * (row - 3), row == count + 1
            for start, number in (-1, 22), (0, 23), (959, 23), (960, None):
                if above + start >= 0:
                    yield checks(text, plan_set(lines, row, "start", above + start), number)
            for start, number in (2_880, None), (2_881, 23), (3_840, 23), (3_841, 22):
                yield checks(text, plan_set(lines, row, "start", above + start), None if last else number)


def lowest_starts():
    """The first start, from 0 on, and starts that are in order only if taken for the bytes of another field."""
    text, lines = site(star(2)), spaced(14, 2)
    for start, number in (0, None), (1, None), (960, None), (961, 23), (1_920, 23), (1_921, 22), (LARGEST_NUMBER, 22):
        yield checks(text, plan_set(lines, 2, "start", start), number)
    for first, second, number in ((255, 256, 23), (256, 255, 22), (65_535, 65_536, 23), (65_536, 65_535, 22),
                                  (0xFFFF, 0x1_03BF, None), (0xFF_FFFF, 0x100_0000, 23), (0x80000000, 0x7FFFFFFF, 22),
                                  (0x7FFFFFFF, 0x80000000, 23)):
        changed = plan_set(plan_set(lines, 2, "start", first), 3, "start", second)
        yield checks(text, changed, number)


def ends():
    """The last portion at the interval's end and one past it, at every order; a full interval; far starts."""
    for order in range(15):
        at = interval(order)
        for start, number in (at - 960, None), (at - 959, 23), (at - 1, 23), (at, 23):
            yield checks(P[1], placed(order, {0: start}), number)
        whole = site([], orders=[order])
        for start, number in (0, None), (1, 23):
            yield checks(whole, placed(order, {0: start}, orders=[order]), number)
        if order > 0:
            yield checks(whole, placed(order - 1, {0: 0}, orders=[order]), 23)
    for order, number in (5, 23), (6, None), (7, None):
        yield checks(WIDE, packed(order, range(64)), number)
        yield checks(WIDE, packed(order, range(63, -1, -1)), number)
    full = packed(6, range(64))
    for row in ROWS:
        yield checks(WIDE, plan_set(full, row, "start", 960 * (row - 2) + 1), 23)
    for start, number in (63 * 960, None), (interval(14) - 960, None), (interval(14) - 959, 23), (interval(14), 23):
        yield checks(WIDE, plan_set(WIDE_LINES, 65, "start", start), number)


def far_starts():
    """Starts up to 4,294,967,295: a sum of 32 bits would be small, or just the interval, or in order again."""
    two = site(star(2))
    for text, count in (P[1], 1), (two, 2), (WIDE, 64):
        lines = packed(14, range(count))
        for start in (LARGEST_NUMBER, LARGEST_NUMBER - 958, LARGEST_NUMBER - 959, LARGEST_NUMBER - 960, 0x80000000,
                      0x80000000 - 960):
            yield checks(text, plan_set(lines, count + 1, "start", start), 23)
    largest = site([], orders=[14])
    for start in LARGEST_NUMBER, 2 ** 32 - interval(14), 2 ** 32 - interval(14) - 1, 2 ** 32 - 1 - interval(13):
        yield checks(largest, placed(14, {0: start}, orders=[14]), 23)
    for first, second in ((2 ** 32 - 960, LARGEST_NUMBER), (2 ** 32 - 1_920, 2 ** 32 - 960),
                          (LARGEST_NUMBER, LARGEST_NUMBER)):
        yield checks(two, placed(14, {0: first, 1: second}), 23)


def crossings():
    """A chain's flow up and down, at the deadline that its crossings need and one symbol below."""
    at = interval(3)
    for many in range(6):
        up = packed(3, (*range(many), *range(5, many - 1, -1)))
        down = packed(3, (*range(5, 5 - many, -1), *range(6 - many)))
        for source, sink, lines in (5, 0, up), (0, 5, down):
            for deadline, number in (((many + 1) * at, None), ((many + 2) * at - 1, None),
                                     ((many + 1) * at - 1, 24 if many else None), (1, 24 if many else None)):
                yield checks(site(chain(6), [(source, sink, at, deadline)]), lines, number)
    for starts, number in (({2: 0, 1: 960, 0: 1_920}, None), ({2: 5, 1: 1_000, 0: 2_880}, None),
                           ({1: 0, 2: 960, 0: 2_000}, 24)):
        yield checks(CHAIN, placed(2, starts), number)


def tops():
    """Paths that turn at their top, that begin or end there, and that are one cluster."""
    at, parents = interval(3), [0, 0, 1, 2]
    for source, sink, sequence, most in (
            (3, 4, (0, 1, 2, 3, 4), 2), (3, 4, (3, 1, 0, 2, 4), 0), (3, 4, (4, 2, 0, 1, 3), 4),
            (4, 3, (4, 2, 0, 1, 3), 0), (3, 2, (0, 2, 3, 1, 4), 1), (1, 4, (4, 2, 1, 0, 3), 2),
            (3, 1, (1, 3, 0, 2, 4), 1), (1, 3, (3, 1, 0, 2, 4), 1), (3, 3, (4, 3, 2, 1, 0), 0)):
        for deadline, number in ((most + 1) * at, None), ((most + 1) * at - 1, 24 if most else None):
            yield checks(site(parents, [(source, sink, at, deadline)]), packed(3, sequence), number)


def deciding_flows():
    """The first, a middle and the last of 128 flows is within its deadline, or late by one symbol."""
    for place in 0, 64, 127:
        for deadline, number in (3 * 3_840, None), (3 * 3_840 - 1, 24):
            flows = [(2, 0, LONGEST_TIME, 1)] * 128
            flows[place] = 0, 2, LONGEST_TIME, deadline
            yield checks(site(chain(3), flows), packed(2, (2, 1, 0)), number)
    at, full = interval(6), packed(6, (*range(32), *range(63, 31, -1)))
    for many, number in (33 * at, None), (33 * at - 1, 24):
        yield checks(site(chain(64), both_ways([(c, 0) for c in range(64)], at, many)), full, number)


def smaller_orders():
    """Deadlines that are missed at one order and kept at the next smaller one."""
    for order in range(3, 15):
        text = site(chain(3), both_ways([(0, 2)], LONGEST_TIME, 2 * interval(order) - 1))
        yield checks(text, packed(order, (0, 2, 1)), 24)
        yield checks(text, packed(order - 1, (0, 2, 1)), None)


GROUPS = (orders, counts, clusters, another_twice, lengths, tags, starts, lowest_starts, ends, far_starts, crossings,
          tops, deciding_flows, smaller_orders)
