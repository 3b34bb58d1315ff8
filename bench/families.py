"""Sees that bench/sites/slowest.site is the slowest of its family, and prints the rounds that each member takes:
by halves, as the library searches for the order, and in turn from the largest order down, as the plain C of
tests/reference does.

The family: shapes of trees, the flows up their edges in several orders, and the edge that a flow down turns
into a negative loop. Rounds are counted in place and from the depths, each side's over its own list of the
constraints. Exit status 1 where a member takes more rounds than the stored site, either way.
"""

import random
import sys
from pathlib import Path

from make_sites import CLUSTERS, slow
from plan_building import binary, chain, comb, star
import planning
import reference


def plain_list(site, order):
    """The constraints as plain C lists them: for each child the ones from and to its parent, then the flows'."""
    return planning.constraints(site, order)


def library_list(site, order):
    """The library lists them otherwise: the flows', up the tree by falling number, down it by rising number."""
    found, of_tree = planning.constraints(site, order), 2 * (site.cluster_count - 1)
    return found[of_tree:] + found[1:of_tree:2][::-1] + found[:of_tree:2]


def rounds_at(site, limits):
    """How many rounds the relaxing over these constraints takes, and whether it settles."""
    distances = [planning.depth(site, cluster) for cluster in range(site.cluster_count)]
    for number in range(1, site.cluster_count + 1):
        changed = False
        for start, end, limit in limits:
            reach = distances[start] + limit
            if reach < distances[end]:
                if reach < 0:
                    return number, False
                distances[end], changed = reach, True
        if not changed:
            return number, True
    return site.cluster_count, False


def in_turn(tried):
    """The rounds over orders, the largest first, up to the first that settles."""
    total = 0
    for number, settled in tried:
        total += number
        if settled:
            break
    return total


def by_halves(tried):
    """The rounds where the largest order is tried first, and then the one in the middle of those left."""
    total, first, last, at = 0, 0, len(tried), 0
    while first < last:
        number, settled = tried[at]
        total += number
        first, last = (first, at) if settled else (at + 1, last)
        at = first + (last - first - 1) // 2
    return total


def rounds(text):
    """The rounds that a site takes, by halves and in turn."""
    site = reference.read(text)
    orders = planning.fitting_orders(site)
    return (by_halves([rounds_at(site, library_list(site, order)) for order in orders]),
            in_turn([rounds_at(site, plain_list(site, order)) for order in orders]))


def family():
    """The rounds, the shape, how the flows are listed and the turned edge of each member."""
    edges = list(range(1, CLUSTERS))
    shuffled = random.Random(1).sample(edges, len(edges))
    for shape in chain, comb, binary, star:
        for listed, name in (edges, "root first"), (edges[::-1], "deepest first"), (shuffled, "shuffled"):
            for turned in 1, 20, 40, 62, 63:
                yield *rounds(slow(shape(CLUSTERS), listed, turned)), shape.__name__, name, turned


if __name__ == "__main__":
    members = sorted(family(), reverse=True)
    for halves, turns, shape, listed, turned in members:
        print(f"{halves:4} rounds by halves, {turns:4} in turn: {shape}, {listed}, loop at the edge above {turned}")
    stored = rounds((Path(__file__).parent / "sites" / "slowest.site").read_bytes())
    print(f"{stored[0]:4} rounds by halves, {stored[1]:4} in turn: the slowest site of the benchmark")
    sys.exit(any(member[side] > stored[side] for member in members for side in (0, 1)))
