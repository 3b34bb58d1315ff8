"""The checker of docs/FORMATS.md ("Checking a plan") in Python, independent of the product.

It stands on the lines and records of reference.py and on what planning.py says a placing is. An answer is None for a
plan of the site, or a refusal as in reference.py: its number, its line, and the place of a field or NO_PLACE.
"""

import reference
from planning import PLAN_CLUSTER, PLAN_HEADER, VERSION, apart_inside, described, in_time, permitted
from reference import LARGEST_ORDER, NO_PLACE


def check(text, plan):
    """Whether a text is a plan for the site of a text."""
    site = reference.read(text)
    return site if isinstance(site, tuple) else check_records(site, plan)


def check_records(site, plan):
    """Whether a text is a plan for records that may be anything; their refusal is never by 1, 2 or 3."""
    refusal = reference.check(site)
    number = None if refusal else plan_fault(site, plan)
    return (number, 0, NO_PLACE) if number else refusal


def plan_fault(site, plan):
    """The number by which a plan for sound records is refused, or None: the first that applies to the whole plan."""
    if not layout_kept(plan):
        return 20
    header, *lines = records_in(plan)
    order = header[2]
    if order > LARGEST_ORDER or not permitted(site, order):
        return 21
    if header[3] != site.cluster_count or not clusters_right(site, lines):
        return 22
    starts = [start_in(line) for line in sorted(lines, key=number_in)]
    if not apart_inside(site, order, starts):
        return 23
    return None if in_time(site, order, starts) else 24


def records_in(plan):
    """The records of a text whose lines are well-formed."""
    return [bytes.fromhex(line.decode()) for line, _ in reference.lines(plan)]


def layout_kept(plan):
    """Whether there is a line, each is well-formed and ended, the first a header and the others clusters'."""
    if not all(ended and reference.well_formed(line) for line, ended in reference.lines(plan)):
        return False
    records = records_in(plan)
    return len(records) > 0 and is_header(records[0]) and all(is_cluster(record) for record in records[1:])


def is_header(record):
    return len(record) == 4 and record[:2] == bytes([PLAN_HEADER, VERSION])


def is_cluster(record):
    return record[0] == PLAN_CLUSTER and len(record) >= 11 and len(record) == 11 + record[10]


def number_in(line):
    return line[1]


def start_in(line):
    return int.from_bytes(line[2:6], "big")


def clusters_right(site, lines):
    """Whether there is one line for each cluster, with its length and its tag, and the starts are in order."""
    numbers, starts = [number_in(line) for line in lines], [start_in(line) for line in lines]
    return (sorted(numbers) == list(range(site.cluster_count)) and starts == sorted(starts)
            and all(line[6:] == described(site, number_in(line)) for line in lines))
