"""What the cases of the checker are built from: the lines of plans, and the cases themselves.

A plan is given by its lines, which are made here and not by planning.py.
"""

from itertools import accumulate

from plan_building import chain, interval, site, star, tag_of
from plan_rules import P
from site_building import *

# Where each field begins in a line of a plan, and its bytes; a tag's are its first byte's.
PLAN_LAYOUT = {"kind": (0, 1), "version": (1, 1), "order": (2, 1), "count": (3, 1),
               "cluster": (1, 1), "start": (2, 4), "length": (6, 4), "tag length": (10, 1), "tag byte": (11, 1)}
# The lines of the first, a middle and the last of 64 clusters.
ROWS = 2, 33, 65


def plan_header(order, count):
    return line_of(0x81, 1, order, count)


def place_line(number, start, tag, length=960):
    return line_of(0x82, number, *struct.pack(">II", start, length), len(tag), *tag)


def placed(order, starts, tags=None, orders=None):
    """The lines of a plan from the start of each cluster, listed in order of start as a dict does."""
    tags = tags or [tag_of(i) for i in range(len(starts))]
    orders = orders or [0] * len(starts)
    return [plan_header(order, len(starts)),
            *(place_line(i, start, tags[i], interval(orders[i])) for i, start in starts.items())]


def packed(order, sequence, tags=None, orders=None):
    """The lines of a plan of clusters that start in this sequence, end to end."""
    lengths = [interval(orders[i]) if orders else 960 for i in sequence]
    return placed(order, dict(zip(sequence, accumulate(lengths, initial=0))), tags, orders)


def spaced(order, count):
    """The lines of a plan of clusters in order of their numbers, each followed by a gap as long as its portion."""
    return placed(order, {i: 1_920 * i for i in range(count)})


def plan_set(lines, number, name, value, place=0):
    """The lines of a plan with another value in a field of one; the place is that of a tag byte in its tag."""
    begins, width = PLAN_LAYOUT[name]
    return replaced(lines, number, number_set(lines[number - 1], begins + place, width, value))


def retagged(lines, number, tag):
    """The lines of a plan with another tag in one, and its length with it."""
    return replaced(lines, number, lines[number - 1][:20] + line_of(len(tag), *tag))


def refusal_by(number):
    return None if number is None else by(number)


def checks_text(text, plan, number):
    """A sound site text and a plan text: refused by a number, or accepted by None, and so are the text's records."""
    refusal = refusal_by(number)
    return Case(text, None, room=0, plan_room=0, plan=plan, checks=refusal, checks_records=refusal)


def checks(text, lines, number):
    """The same with the lines of a plan."""
    return checks_text(text, text_of(lines), number)


CHAIN, CHAIN_LINES = P[3], packed(2, (2, 1, 0))
WIDE, WIDE_LINES = site(star(64)), packed(14, range(64))
