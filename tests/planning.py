"""The planner of docs/FORMATS.md in Python, independent of the product, over the records of reference.py.

First the plan as "The plan that is returned" makes it, by constraints and shortest distances. Then,
apart from that, what a placing is, and all placings of a small site by trying every sequence. A refusal
is that of reference.py: its number, its line, and the place of a field or NO_PLACE.
"""

from itertools import accumulate, combinations, pairwise, permutations
from math import inf

import reference
from reference import LARGEST_ORDER, NO_PLACE

BASE = 960
ROOT = 0
PLAN_HEADER, PLAN_CLUSTER = 0x81, 0x82
VERSION = 1


def interval(order):
    return BASE * 2 ** order


def portions(site):
    """The length of each cluster's active portion."""
    return [BASE * 2 ** cluster.order for cluster in site.clusters[:site.cluster_count]]


def flows(site):
    return site.flows[:site.flow_count]


def permitted(site, order):
    """Whether the interval is not longer than the shortest required period; without flows always."""
    return all(interval(order) <= flow.period for flow in flows(site))


def fits(site, order):
    return sum(portions(site)) <= interval(order)


def fitting_orders(site):
    """The permitted orders that the portions fit, the largest first."""
    return [order for order in range(LARGEST_ORDER, -1, -1) if permitted(site, order) and fits(site, order)]


def allowed(deadline, period):
    """The crossings that a deadline allows at an interval."""
    return deadline // period - 1 if deadline >= period else 0


def way_up(site, cluster):
    """A cluster and its ancestors, up to the root."""
    way = [cluster]
    while way[-1] != ROOT:
        way.append(site.clusters[way[-1]].parent)
    return way


def depth(site, cluster):
    return len(way_up(site, cluster)) - 1


def top(site, flow):
    """The lowest cluster that is an ancestor of both ends; an end may be that cluster."""
    above_sink = way_up(site, flow.sink)
    return next(cluster for cluster in way_up(site, flow.source) if cluster in above_sink)


def path(site, flow):
    """The clusters from the source up to the top and down to the sink."""
    up, down, turn = way_up(site, flow.source), way_up(site, flow.sink), top(site, flow)
    return up[:up.index(turn)] + down[down.index(turn)::-1]


def crossings(way, starts):
    """The periods that a flow with this path crosses."""
    return sum(starts[later] < starts[earlier] for earlier, later in pairwise(way))


def constraints(site, order):
    """The list of constraints, each with its from, its to and its limit: N(to) - N(from) is at most that."""
    found = []
    for child in range(1, site.cluster_count):
        parent = site.clusters[child].parent
        found += [(parent, child, 1), (child, parent, 0)]
    for flow in flows(site):
        downward = depth(site, flow.sink) - depth(site, top(site, flow))
        found.append((flow.sink, flow.source, allowed(flow.deadline, interval(order)) - downward))
    return found


def shortest_distances(count, limits):
    """N, the distance of each cluster from the root, or None where a loop has a negative sum."""
    distances = [0] + [inf] * (count - 1)
    for _ in range(count):
        before = distances.copy()
        for start, end, limit in limits:
            distances[end] = min(distances[end], distances[start] + limit)
        if distances == before:
            return distances
    return None


def predecessors(site, distances):
    """For each cluster those that start before it: its parent where N grows, its children where N stays."""
    before = [set() for _ in distances]
    for child in range(1, site.cluster_count):
        parent = site.clusters[child].parent
        first, second = (parent, child) if distances[child] > distances[parent] else (child, parent)
        before[second].add(first)
    return before


def sequence(site, distances):
    """The clusters as they are placed: each time the lowest number all of whose predecessors are."""
    before, placed = predecessors(site, distances), []
    while len(placed) < site.cluster_count:
        placed.append(next(cluster for cluster in range(site.cluster_count)
                           if cluster not in placed and before[cluster].issubset(placed)))
    return placed


def starts_of(site, placed):
    """The start of each cluster where they are set end to end in a sequence."""
    lengths = portions(site)
    starts = [0] * site.cluster_count
    for cluster, start in zip(placed, accumulate((lengths[cluster] for cluster in placed), initial=0)):
        starts[cluster] = start
    return starts


def plan_text(site, order, starts):
    """The plan text of an order and the start of each cluster, in order of start."""
    records = [bytes([PLAN_HEADER, VERSION, order, site.cluster_count])]
    for number in sorted(range(site.cluster_count), key=starts.__getitem__):
        records.append(bytes([PLAN_CLUSTER, number]) + starts[number].to_bytes(4, "big") + described(site, number))
    return b"".join(record.hex().upper().encode() + b"\n" for record in records)


def described(site, number):
    """What a plan says of a cluster beside its number and its start: length, tag length and tag."""
    cluster = site.clusters[number]
    return interval(cluster.order).to_bytes(4, "big") + bytes([cluster.tag_length]) + cluster.tag_kept()


def plan_of(site):
    """The plan text of sound records at the largest order that has one, or the refusal by 7 or 8."""
    orders = fitting_orders(site)
    for order in orders:
        distances = shortest_distances(site.cluster_count, constraints(site, order))
        if distances is not None:
            return plan_text(site, order, starts_of(site, sequence(site, distances)))
    return 8 if orders else 7, 0, NO_PLACE


def plan_records(site, room_length):
    """The plan text of records that may be anything, or their refusal; it is never by 1, 2 or 3."""
    answer = reference.check(site) or plan_of(site)
    return (9, 0, NO_PLACE) if isinstance(answer, bytes) and len(answer) > room_length else answer


def plan_or_refusal(text, room_length):
    """The plan text of a site text, or its refusal."""
    site = reference.read(text)
    return site if isinstance(site, tuple) else plan_records(site, room_length)


def plan(text, room_length):
    """The number that the C function gives back, and the bytes that it writes into the room."""
    answer = plan_or_refusal(text, room_length)
    if isinstance(answer, tuple):
        refusal, line, _ = answer
        return 65_536 * refusal + line, b""
    return len(answer), answer


def printed(text):
    """What the program prints for a text: the plan text, or the line of the refusal."""
    answer = plan_or_refusal(text, inf)
    return b"8F%02X%04X%02X\n" % answer if isinstance(answer, tuple) else answer


def apart_inside(site, order, starts):
    """Whether starts keep the portions apart and inside the interval."""
    ends = [start + length for start, length in zip(starts, portions(site))]
    apart = all(ends[one] <= starts[other] or ends[other] <= starts[one]
                for one, other in combinations(range(site.cluster_count), 2))
    return apart and all(0 <= start and end <= interval(order) for start, end in zip(starts, ends))


def in_time(site, order, starts):
    """Whether starts let each flow cross no more periods than its deadline allows."""
    return all(crossings(path(site, flow), starts) <= allowed(flow.deadline, interval(order)) for flow in flows(site))


def is_placing(site, order, starts):
    """Whether starts, one a cluster, are a placing at an order."""
    return apart_inside(site, order, starts) and in_time(site, order, starts)


def placings(site, order):
    """All sequences that give a placing when set end to end, the lowest first. For up to 6 clusters."""
    if not fits(site, order):
        return
    ways = [(path(site, flow), allowed(flow.deadline, interval(order))) for flow in flows(site)]
    for placed in permutations(range(site.cluster_count)):
        starts = starts_of(site, placed)
        if all(crossings(way, starts) <= most for way, most in ways):
            yield placed


def placing_exists(site, order):
    """Whether any placing exists: one that does can be set end to end."""
    return any(True for _ in placings(site, order))
