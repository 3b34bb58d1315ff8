"""Cases of records handed straight to the planner: its room, whole sites, two faults, and random records."""

from random import Random

from plan_building import LONGEST_PLAN, LONGEST_TIME, binary, both_ways, chain, site, star, tag_of
from plan_limits import CHAIN, CHAIN_PLAN, plans, with_and_without_room
from plan_rules import P, own_flow
from plan_sites import near, random_site
from planning import interval
from site_building import *


def rooms():
    """Rooms around the plan's length and none; all other refusals come before 9, as a text and as records."""
    for text, order, clusters in ((P[1], 14, (0,)), (P[2], 14, (0, 1, 2)), (CHAIN, *CHAIN_PLAN),
                                  (P[5], 2, (0, 2, 1)), (P[7], 1, (0, 1)), (P[10], 2, (1, 0, 2))):
        length = 9 + 25 * len(clusters)
        for room in 0, 1, length - 1, length, length + 1:
            yield plans(text, (order, clusters) if room >= length else by(9), room=room)
    for text, number in (P[8], 7), (own_flow(959), 7), (P[4], 8):
        length = 9 + 25 * text.count(b"\n02")
        for room in 0, 1, length - 1, length, length + 1:
            yield plans(text, by(number), room=room)
    for number, line in (1, 2), (2, 2), (3, 2), (10, 1), (11, 2), (12, 2), (13, 5), (14, 5), (5, 2), (6, 3):
        for room in 0, 83, 84:
            yield Case(text_of(made_bad(P3, number, line)), by_bad(number, line), ZERO, plans=ZERO, plan_room=room)


def patched_rooms():
    """Patches that make the plan longer or shorter, or that leave none, in rooms around its length."""
    tags = *tag_patches(b"Boiler", 1), *tag_patches(b"Mast-East", 2)
    for length, patches in ((84, ()), (84 + 10 + 16, tags), (59, (patch("cluster count", 2), patch("source", 1)))):
        clusters = (1, 0) if length == 59 else (2, 1, 0)
        for room in 0, length - 1, length, length + 1:
            yield plans(CHAIN, (2, clusters) if room >= length else by(9), *patches, room=room)
    for answer, patched in (by(7), patch("period", 3_839)), (by(8), patch("deadline", 7_679, 1)):
        for room in 0, 83, 84, 85:
            yield plans(P[5], answer, patched, room=room)


def longest_plans():
    """The longest plan text, of the longest site, and the same records patched so that there is none."""
    upward = [(j % 64, 0, 61_440, 61_440) for j in range(128)]
    text = site(star(64), upward, tags=[tag_of(i, 64) for i in range(64)])
    no_deadline = by_field(193, "deadline")
    for answer, plan_room, *patches in ((by(9), LONGEST_PLAN - 1),
                                        ((6, (*range(1, 64), 0)), LONGEST_PLAN),
                                        (by(7), 0, patch("order", 1, 63)),
                                        (by(8), 0, patch("sink", 1, 64)),
                                        (no_deadline, LONGEST_PLAN, patch("deadline", 0, 127))):
        written = answer if answer == no_deadline else by(9)
        yield Case(text, None, written, tuple(patches), 0, plans=answer, plan_room=plan_room)


def fullest_sites():
    """64 clusters and 128 flows: the last cluster and the last flow decide."""
    upward = [(j % 64, 0, 61_440, 61_440) for j in range(128)]
    text = site(star(64), upward)
    length = 9 + 25 * 64
    for answer, *patches in ((by(7), patch("period", 61_439, 127)), (by(8), *flow_patches(0, 63, 61_440, 61_440)),
                             (by_field(193, "period"), patch("period", LARGEST_NUMBER, 127)),
                             (by_field(65, "order"), patch("order", 255, 63)), (by(5, 65), patch("parent", 63, 63)),
                             (by(6, 65), patch("tag byte", 0x41, 63)),
                             (by_field(1, "cluster count"), patch("cluster count", 65)),
                             (by_field(1, "flow count"), patch("flow count", 129))):
        yield plans(text, answer, *patches, room=0)
    for room in length - 1, length, length + 1:
        answer = (6, (*range(1, 64), 0)) if room >= length else by(9)
        yield Case(text, None, by(9), room=0, plans=answer, plan_room=room)
    deep = site(chain(64), both_ways([(63, 0)], LONGEST_TIME, 1))
    for up in 1, 20, 64:
        times = patch("deadline", up * 61_440), patch("deadline", (65 - up) * 61_440, 1)
        yield plans(deep, (6, (*range(up - 1), *range(63, up - 2, -1))), *times)
        if up == 20:
            yield plans(deep, by(8), patch("deadline", up * 61_440 - 1), times[1])
    for parent, i in (0, 63), (62, 63), (30, 62), (61, 62):
        yield Case(site(binary(64), [(63, 62, 61_440, 5 * 61_440)]), patches=(patch("parent", parent, i),))


def two_faults():
    """The first bad line decides and in it the test that comes first; then 7, 8 and 9."""
    small = text_of(SMALL)
    order, parent, tag = patch("order", 15, 1), patch("parent", 1, 1), tag_patches(b"A", 1)
    by_order, no_tag = by_field(3, "order"), patch("tag length", 0, 1)
    for text, answer, *patches in ((small, by_order, parent, order), (small, by_order, *tag, order),
                                   (small, by_order, parent, *tag, order), (small, by(5, 3), parent, *tag),
                                   (small, by_order, order, no_tag), (small, by_field(3, "tag length"), no_tag, parent),
                                   (small, by(6, 3), *tag, patch("order", 15, 2), patch("period", 0)),
                                   (small, by(5, 2), patch("parent", 0), no_tag),
                                   (small, by_field(2, "tag length"), patch("parent", 0), patch("tag length", 0)),
                                   (small, by_field(5, "source"), patch("source", 3), patch("sink", 3, 1)),
                                   (small, by_field(5, "sink"), patch("sink", 3), patch("period", 0)),
                                   (small, by_field(6, "sink"), patch("sink", 3, 1)),
                                   (small, by_field(5, "source"), patch("source", 256)),
                                   (small, by_field(1, "flow count"), patch("flow count", 129), order),
                                   (small, ZERO, patch("cluster count", 0), patch("flow count", 255)),
                                   (P[8], by_field(4, "deadline"), patch("deadline", 0)),
                                   (P[8], by_field(4, "period"), patch("deadline", 0), patch("period", 0)),
                                   (P[4], by_field(6, "deadline"), patch("deadline", 0, 1)),
                                   (P[4], by(5, 4), patch("parent", 2, 2)), (P[4], by(7), patch("period", 959)),
                                   (P[8], by(7), *flow_patches(1, 0, 1_919, 1)),
                                   (P[5], by(7), patch("order", 2), patch("deadline", 1)),
                                   (P[5], by(8), patch("deadline", 1))):
        yield from with_and_without_room(text, answer, *patches)


def behind():
    """What stands behind the counts and the tag lengths is never looked at."""
    rubbish = (*(patch(name, 255, i) for name in ("parent", "order", "tag length") for i in (3, 63)),
               *(patch("tag byte", 255, i, place) for i in (0, 1, 2, 3, 63) for place in (1, 2, 63)),
               *(patch(name, 255, j) for name in ("source", "sink") for j in (1, 127)),
               *(patch(name, LARGEST_NUMBER, j) for name in ("period", "deadline") for j in (1, 127)))
    yield from with_and_without_room(CHAIN, CHAIN_PLAN, *rubbish)
    yield plans(CHAIN, CHAIN_PLAN, *tag_patches(b"A", 3))
    for count, answer in (0, (14, (0, 1, 2))), (1, (2, (0, 1, 2))), (2, by(8)):
        yield from with_and_without_room(P[4], answer, patch("flow count", count))
    for count in 1, 2:
        yield from with_and_without_room(P[2], (14, tuple(range(count))), patch("cluster count", count))
    root = patch("cluster count", 1), patch("parent", 0xFF), *tag_patches(b"Z")
    for patches, answer in (((), ZERO), (root[:1], by_field(2, "tag length")), (root, (14, (0,))),
                            ((*root, patch("flow count", 1)), by_field(3, "period"))):
        yield Case(b"", by(2, 1), patches=patches, plans=answer)


def random_patch(random, clusters, flows):
    """One field set anew: a time near an interval or a multiple of one, or a small number."""
    kind = random.randrange(len(FIELDS) + 4)
    time = near(random, interval(random.randrange(7)))
    if kind < len(FIELDS) - 2:
        value = (random.randrange(clusters + 2), random.randrange(flows + 2), random.randrange(clusters),
                 random.randrange(5), random.randrange(3), 0x40 + random.randrange(clusters + 2),
                 random.randrange(clusters + 1), random.randrange(clusters + 1))[kind]
        return kind, random.randrange(clusters if 2 <= kind <= 5 else max(flows, 1)), 0, value
    name = ("period", "deadline")[kind % 2]
    many = 1 if name == "period" else 1 + random.randrange(3)
    return patch(name, time * many, random.randrange(max(flows, 1)))


def random_records():
    """Small sites with up to three fields set anew, always the same; every third in a room near the plan's."""
    random = Random(7)
    for number in range(200):
        text = random_site(random, 6)
        clusters, flows = text.count(b"\n02"), text.count(b"\n03")
        patches = tuple(random_patch(random, clusters, flows) for _ in range(random.randrange(4)))
        room = LARGEST_TEXT if number % 3 else 8 + 25 * clusters + random.randrange(3)
        yield Case(text, patches=patches, room=random.randrange(400), plan_room=room)


GROUPS = (rooms, patched_rooms, longest_plans, fullest_sites, two_faults, behind, random_records)
