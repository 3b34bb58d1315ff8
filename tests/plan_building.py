"""What the cases of plan_cases are built from: shapes of trees, site texts, and the case itself."""

from dataclasses import dataclass

from planning import interval
from reference import LONGEST_TIME
from site_building import LARGEST_TEXT, OPEN, by, cluster, flow, header, text_of

LONGEST_PLAN = 9_673


@dataclass(frozen=True)
class Case:
    """A text and a room, and what docs/FORMATS.md answers, as we state it here without planning.py."""
    text: bytes
    room: int = LARGEST_TEXT
    states: object = OPEN     # a refusal, or the beacon order and the clusters in order of start


def planned(text, order, *clusters, room=LARGEST_TEXT):
    return Case(text, room, (order, clusters))


def refused(text, number, line=0, room=LARGEST_TEXT):
    """Refused for no field; for one, Case states it."""
    return Case(text, room, by(number, line))


def chain(count):
    """The parents of clusters 1 and on, each the parent of the next."""
    return list(range(count - 1))


def star(count):
    return [0] * (count - 1)


def binary(count):
    return [(i - 1) // 2 for i in range(1, count)]


def comb(count):
    """A spine of even numbers; each of them has the next odd number as a tooth."""
    return [i - 1 if i % 2 else i - 2 for i in range(1, count)]


def tag_of(number, length=1):
    """Tags that differ in their last byte only: A, B, C and on."""
    return b"~" * (length - 1) + bytes([0x21 + (0x20 + number) % 94])


def site(parents, flows=(), orders=None, tags=None):
    """A site's text from the parents of clusters 1 and on; orders are 0 where none are given."""
    count = len(parents) + 1
    orders = orders or [0] * count
    tags = tags or [tag_of(i) for i in range(count)]
    return text_of([header(count, len(flows))]
                   + [cluster(*fields) for fields in zip([0xFF, *parents], orders, tags)]
                   + [flow(*fields) for fields in flows])


def both_ways(pairs, period, first, second=None):
    """For each pair a flow there with the first deadline and one back with the second, or the same."""
    return [fields for one, other in pairs
            for fields in ((one, other, period, first), (other, one, period, second or first))]
