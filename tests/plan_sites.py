"""Cases of whole sites: the largest of each shape, the stored ones, damaged texts and random sites."""

from pathlib import Path
from random import Random

from plan_building import *
from plan_rules import P
from site_texts import damaged

STORED = Path(__file__).parent.parent / "sites"


def largest_sites():
    """64 clusters that fill order 6, and 128 flows to the root and back, at the deadline that just does."""
    at, pairs = interval(6), [(c, 0) for c in range(64)]
    for shape, many, clusters in ((chain, 33, (*range(32), *range(63, 31, -1))), (star, 2, range(64)),
                                  (binary, 4, None), (comb, 17, None)):
        for period in at, LONGEST_TIME:
            text = site(shape(64), both_ways(pairs, period, many * at))
            yield planned(text, 6, *clusters) if clusters else Case(text)
        yield refused(site(shape(64), both_ways(pairs, at, many * at - 1)), 8)
        yield planned(site(shape(64), both_ways(pairs, LONGEST_TIME, many * interval(10) - 1)), 9, *range(64))


def uneven_deadlines():
    """The longest chain where flows up and down leave one choice, or none by one crossing."""
    at = interval(6)
    for up in 1, 20, 63:
        text, short = (site(chain(64), both_ways([(63, c) for c in range(64)], LONGEST_TIME, up * at, down))
                       for down in ((65 - up) * at, (65 - up) * at - 1))
        yield planned(text, 6, *range(up - 1), *range(63, up - 2, -1))
        yield refused(short, 8)


def slow_rounds():
    """Limits that settle, or show their loop, only after many rounds, listed both ways round."""
    at = interval(6)
    rising = [(c, c + 1, at, 2 * at) for c in range(1, 63)] + [(63, 0, at, at)]
    for flows in rising, rising[::-1]:
        yield planned(site(star(64), flows), 6, *range(1, 64), 0)
        yield refused(site(star(64), [*flows, (0, 1, at, at)]), 8)
    for place in 1, 20, 32, 61:
        text, short = (site(chain(64), [(place, place + 1, LONGEST_TIME, 1), (63, place, LONGEST_TIME, deadline)])
                       for deadline in (2 * at, 2 * at - 1))
        yield planned(text, 6, *range(place + 1), *range(63, place, -1))
        yield refused(short, 8)


def across():
    """The largest trees with flows between distant clusters, both ways and one way."""
    at, pairs = interval(6), [(c, 63 - c) for c in range(64)]
    for shape, multiples in (chain, (40, 60)), (star, (2,)), (binary, (5, 13)), (comb, (16, 40)):
        for many in multiples:
            yield Case(site(shape(64), both_ways(pairs, 4 * at, many * at)))
    one_way = [(1 + j % 31, 32 + j % 32, at, at) for j in range(128)]
    yield planned(site(star(64), one_way), 6, *range(1, 32), 0, *range(32, 64))
    yield refused(site(binary(64), one_way), 8)


def stored_sites():
    """The sites that come with the program, with rooms that are long and short."""
    for name in "boiler-house-late", "pump-hall", "raw-water-no-fit", "tank-farm":
        text = (STORED / (name + ".site")).read_bytes()
        for room in LARGEST_TEXT, 700:
            yield Case(text, room)


def damaged_texts():
    """Small sites damaged once, always in the same way."""
    random = Random(3)
    texts = P[3], P[5], P[6], P[7], P[10]
    for _ in range(150):
        yield Case(damaged(texts[random.randrange(len(texts))], random), random.randrange(60, 120))


def near(random, time):
    """A time, or one symbol off it."""
    return time + (-1, 0, 0, 1)[random.randrange(4)]


def random_tree(random, count):
    """Parents of clusters 1 and on: any lower number, or for deep trees one of the two before."""
    deep = random.randrange(2)
    return [max(i - 1 - random.randrange(2), 0) if deep else random.randrange(i) for i in range(1, count)]


def smallest_order(orders):
    """The smallest order that portions of these orders fit."""
    return next(order for order in range(15) if sum(map(interval, orders)) <= interval(order))


def random_flows(random, count, fitting, flow_count, longest):
    """Flows with periods around intervals from the smallest fitting one, and deadlines around multiples."""
    last = fitting + (random.randrange(15 - fitting) if random.randrange(2) else random.randrange(2))
    flows = []
    for _ in range(flow_count):
        period = near(random, interval(min(last + random.randrange(3), 14)))
        base = interval(max(fitting, last - random.randrange(3)))
        deadline = near(random, (1 + random.randrange(longest)) * base)
        flows.append((random.randrange(count), random.randrange(count), period, min(deadline, LONGEST_TIME)))
    return flows


def random_site(random, clusters):
    """A site of up to so many clusters."""
    count, largest = 1 + random.randrange(clusters), 1 + random.randrange(4)
    orders = [random.randrange(largest) for _ in range(count)]
    flows = random_flows(random, count, smallest_order(orders), random.randrange(9), 1 + random.randrange(4))
    return site(random_tree(random, count), flows, orders)


def random_sites():
    """Small sites, always the same; every fourth with a room as long as the plan or one off."""
    random = Random(4)
    for number in range(1_500):
        text = random_site(random, 7)
        length = 9 + 25 * text.count(b"\n02")
        yield Case(text, 256 if number % 4 else length - 1 + random.randrange(3))


def random_large_sites():
    """Sites of 20 to 64 clusters with tags of unlike lengths, always the same."""
    random = Random(5)
    for _ in range(60):
        count, largest = random.randrange(20, 65), 1 + random.randrange(3)
        orders = [random.randrange(largest) for _ in range(count)]
        tags = [tag_of(i, 1 + random.randrange(8)) for i in range(count)]
        longest = (2, 8, 24)[random.randrange(3)]
        flows = random_flows(random, count, smallest_order(orders), random.randrange(40), longest)
        yield Case(site(random_tree(random, count), flows, orders, tags))


GROUPS = (largest_sites, uneven_deadlines, slow_rounds, across, stored_sites, damaged_texts, random_sites,
          random_large_sites)
