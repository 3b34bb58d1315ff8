"""The sites of the benchmark: `make_sites.py NAME` prints one, `make_sites.py --into FOLDER` writes them all.

longest: 11,721 bytes, 64 clusters with tags of 64 bytes that differ in their last bytes, as a plant's do,
and 128 flows with deadlines so loose that the first order tried has a plan after one round. Its time is
reading and writing.

slowest: planned at order 6 only, the smallest that 64 clusters fit, after 568 rounds over 254 constraints
at nine orders where each is tried in turn, and after 316 at five where they are tried by halves. The tree
is a chain. A flow from each cluster up to its parent, with a deadline that never allows a crossing, says
that N does not grow on that edge. They stand with the deepest first, so that the 0 of the root comes down
one level a round, and all distances change in every round. A flow down the last edge allows a crossing at
order 6 and none above it, which closes a negative loop that shows when the 0 arrives: in round 63.
families.py found it, and sees that no member of its family takes more.

no-flows: the clusters of the longest site alone. alike: the same with tags that differ in one byte, in the
middle. low-chain: a chain of 64, planned at the smallest order that fits and at no other, with flows from the
root to all clusters and back. random-N: a random tree of N clusters, and two flows a cluster between random
ones, with deadlines that are met at the smallest order that fits. refused-first and refused-last: the longest
site with a field out of range in its first line, and in its last.
"""

import sys
from pathlib import Path

sys.path.insert(0, str(Path(__file__).parent.parent / "tests"))
from plan_building import LONGEST_TIME, binary, both_ways, chain, interval, site

CLUSTERS, FLOWS = 64, 128
FITTING = 6
LONGEST_TAGS = [b"LONGEST-SITE-OF-THE-BENCHMARK-TAG-OF-SIXTY-FOUR-BYTES-ROUTER".ljust(60, b"-") + b"%04d" % number
                for number in range(CLUSTERS)]
SHORT_TAGS = [b"%02d" % number for number in range(CLUSTERS)]


def longest():
    """The longest site there is, planned at the first order tried."""
    flows = both_ways([(c, 0) for c in range(CLUSTERS)], LONGEST_TIME, LONGEST_TIME)
    return site(binary(CLUSTERS), flows, tags=LONGEST_TAGS)


def slow(parents, edges, turned):
    """A flow up each edge, in this order, and one down the edge above `turned` that only order 6 allows to
    cross. An edge is named by its child. Flows from a cluster to itself, which say nothing, come before."""
    parent = [0xFF, *parents]
    up = [(child, parent[child], LONGEST_TIME, 1) for child in edges]
    down = [(parent[turned], turned, LONGEST_TIME, 2 * interval(FITTING))]
    idle = [(c % CLUSTERS, c % CLUSTERS, LONGEST_TIME, 1) for c in range(FLOWS - len(up) - len(down))]
    return site(parents, idle + up + down, tags=SHORT_TAGS)


def slowest():
    """The site with the most rounds that families.py found."""
    return slow(chain(CLUSTERS), range(CLUSTERS - 1, 0, -1), CLUSTERS - 1)


def no_flows():
    """64 tags of 64 bytes without flows."""
    return site(binary(CLUSTERS), tags=LONGEST_TAGS)


def alike():
    """64 tags of 64 bytes that agree in all but the byte in the middle."""
    return site(binary(CLUSTERS), tags=[b"A" * 31 + bytes([0x30 + c]) + b"A" * 32 for c in range(CLUSTERS)])


def low_chain():
    """A chain whose deepest cluster may be 32 crossings away from the root both ways: half its depth."""
    flows = both_ways([(c, 0) for c in range(1, CLUSTERS)], LONGEST_TIME, 33 * interval(FITTING))
    return site(chain(CLUSTERS), flows, tags=SHORT_TAGS)


def random_tree(power):
    """A random tree of 2^power clusters, by a fixed row of numbers."""
    state = 2463534242
    clusters = 2 ** power

    def below(limit):
        nonlocal state
        state ^= state << 13 & 0xFFFFFFFF
        state ^= state >> 17
        state ^= state << 5 & 0xFFFFFFFF
        return state % limit

    parents = [below(c) for c in range(1, clusters)]
    flows = [(below(clusters), below(clusters), LONGEST_TIME, (clusters // 2 + 1) * interval(power))
             for _ in range(2 * clusters)]
    return site(parents, flows, tags=[b"ABCDEFGHIJKLMNO" + bytes([0x30 + c]) for c in range(clusters)])


def refused_first():
    """The version is 2."""
    return longest().replace(b"0101", b"0102", 1)


def refused_last():
    """The last deadline is 0."""
    return longest()[:-9] + b"00000000\n"


SITES = {"longest": longest, "slowest": slowest, "no-flows": no_flows, "alike": alike, "low-chain": low_chain,
         **{f"random-{2 ** power}": lambda power=power: random_tree(power) for power in range(3, 7)},
         "refused-first": refused_first, "refused-last": refused_last}

if __name__ == "__main__":
    if sys.argv[1] == "--into":
        for name, make in SITES.items():
            (Path(sys.argv[2]) / f"{name}.site").write_bytes(make())
    else:
        sys.stdout.buffer.write(SITES[sys.argv[1]]())
