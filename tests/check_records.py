"""Cases of plans that are checked for records patched after reading, and for sites that are refused themselves."""

from random import Random

from check_building import *
from check_texts import random_lines
from plan_building import LONGEST_TIME
from plan_records import random_patch
from plan_sites import random_site
from site_texts import damaged

OWN = text_of(CHAIN_LINES)


def checks_records(text, plan, refusal, *patches):
    """A sound text whose patched records refuse a plan text so, or accept it by None."""
    return Case(text, None, patches=patches, room=0, plan_room=0, plan=plan, checks_records=refusal)


def refused_sites():
    """The refusal of a site text comes first, with its line; the plan may be sound, broken or empty."""
    for number, line in (1, 1), (1, 5), (2, 2), (3, 4), (10, 1), (11, 2), (12, 3), (13, 5), (14, 5), (5, 2), (6, 4):
        text = text_of(made_bad(P3, number, line))
        for plan in OWN, OWN[:-1], b"", text:
            yield Case(text, by_bad(number, line), ZERO, room=0, plan_room=0, plan=plan, checks=by_bad(number, line),
                       checks_records=ZERO)
    for text, refusal in (b"", by(2, 1)), (CHAIN[:-1], by(1, 5)), (CHAIN + b"03\n", by(2, 6)), (OWN, by(2, 1)):
        yield Case(text, refusal, ZERO, room=0, plan_room=0, plan=OWN, checks=refusal, checks_records=ZERO)
    for number, line in (11, 65), (5, 33), (6, 65):
        text = text_of(made_bad(CLUSTERS_ONLY, number, line))
        yield Case(text, by_bad(number, line), ZERO, room=0, plan_room=0, plan=OWN, checks=by_bad(number, line),
                   checks_records=ZERO)


def refused_records():
    """Records that are refused themselves, before anything of the plan."""
    for refusal, *patches in ((ZERO, patch("cluster count", 0)), (ZERO, patch("cluster count", 65)),
                              (by_field(1, "flow count"), patch("flow count", 129)),
                              (by_field(2, "order"), patch("order", 15)),
                              (by_field(4, "order"), patch("order", 255, 2)),
                              (by_field(3, "tag length"), patch("tag length", 0, 1)),
                              (by_field(3, "tag length"), patch("tag length", 65, 1)),
                              (by_field(3, "tag byte", 1), patch("tag length", 2, 1)),
                              (by_field(4, "tag byte"), patch("tag byte", 0x20, 2)),
                              (by_field(5, "source"), patch("source", 3)), (by_field(5, "sink"), patch("sink", 255)),
                              (by_field(5, "period"), patch("period", 0)),
                              (by_field(5, "deadline"), patch("deadline", LONGEST_TIME + 1)),
                              (by(5, 2), patch("parent", 0)), (by(5, 3), patch("parent", 1, 1)),
                              (by(6, 4), patch("tag byte", 0x41, 2)),
                              (by_field(5, "tag length"), patch("cluster count", 4)),
                              (by_field(6, "period"), patch("flow count", 2))):
        for plan in OWN, b"":
            yield checks_records(CHAIN, plan, refusal, *patches)
    for refusal, *patches in ((by_field(65, "order"), patch("order", 15, 63)), (by(5, 65), patch("parent", 63, 63)),
                              (by(6, 65), patch("tag byte", 0x41, 63)),
                              (by_field(193, "deadline"), patch("flow count", 128),
                               *(patch(name, 1, j) for name in ("period", "deadline") for j in range(127)),
                               patch("period", 1, 127))):
        yield checks_records(WIDE, text_of(WIDE_LINES), refusal, *patches)


def patched_fields():
    """Each field of sound records set anew: the chain's plan, and one that follows the change."""
    boiler = [b"A", b"Boiler", b"C"]
    for patches, own, follows in (
            ((), None, packed(2, (2, 1, 0))),
            ((patch("order", 1, 2),), 22, packed(2, (2, 1, 0), orders=[0, 0, 1])),
            (tag_patches(boiler[1], 1), 22, packed(2, (2, 1, 0), boiler)),
            ((patch("tag byte", 0x44, 0),), 22, packed(2, (2, 1, 0), [b"D", b"B", b"C"])),
            ((patch("period", 3_839), patch("cluster count", 2), patch("source", 1)), 21, packed(1, (1, 0))),
            ((patch("period", 7_680),), None, packed(3, (2, 1, 0))),
            ((patch("deadline", 7_680),), None, packed(2, (0, 2, 1))),
            ((patch("deadline", 11_520),), None, packed(2, (0, 1, 2))),
            ((patch("source", 1),), None, packed(2, (1, 0, 2))),
            ((patch("source", 0), patch("sink", 2)), 24, packed(2, (0, 1, 2))),
            ((patch("sink", 2),), None, packed(2, (0, 1, 2))),
            ((patch("parent", 0, 2),), None, packed(2, (2, 0, 1))),
            ((patch("flow count", 0),), None, packed(14, (0, 1, 2))),
            ((patch("cluster count", 2), patch("flow count", 0)), 22, packed(14, (1, 0)))):
        yield checks_records(CHAIN, OWN, refusal_by(own), *patches)
        yield checks_records(CHAIN, text_of(follows), None, *patches)
    for patches, number in (((patch("order", 2, 2),), 23), ((patch("order", 14, 2),), 23)):
        follows = packed(2, (2, 1, 0), orders=[0, 0, patches[0][3]])
        yield checks_records(CHAIN, text_of(follows), by(number), *patches)


def patched_times():
    """Periods and deadlines of records on both sides of what a plan needs."""
    for period, number in (3_839, 21), (3_840, None), (LONGEST_TIME, None), (1, 21):
        yield checks_records(CHAIN, OWN, refusal_by(number), patch("period", period))
    for crossings, sequence in (1, (0, 2, 1)), (2, (0, 1, 2)):
        for deadline, number in ((crossings + 1) * 3_840, None), ((crossings + 1) * 3_840 - 1, 24), (1, 24):
            yield checks_records(CHAIN, text_of(packed(2, sequence)), refusal_by(number), patch("deadline", deadline))
    text = site(chain(3), [(2, 0, LONGEST_TIME, 1)] * 128)
    for place in 0, 64, 127:
        for name, value, number in (("period", 3_840, None), ("period", 3_839, 21), ("source", 1, None),
                                    ("sink", 2, None)):
            yield checks_records(text, OWN, refusal_by(number), patch(name, value, place))
        yield checks_records(text, OWN, by(24), patch("source", 0, place), patch("sink", 1, place))


def patched_tags():
    """Tags of 64 bytes patched in the 17th and in the last byte, and rubbish behind a tag, which is not looked at."""
    own = [tag_of(i, 64) for i in range(3)]
    text = site(chain(3), tags=own)
    plan = text_of(packed(3, (0, 1, 2), own))
    for i in range(3):
        for place in 0, 16, 63:
            yield checks_records(text, plan, by(22), patch("tag byte", 0x21, i, place))
        yield checks_records(text, plan, by(22), patch("tag length", 63, i))
    rubbish = (*(patch("tag byte", 255, i, place) for i in range(3) for place in (1, 16, 63)),
               *(patch(name, 255, 3) for name in ("parent", "order", "tag length")),
               *(patch(name, 255, 1) for name in ("source", "sink")), patch("period", 1, 1), patch("deadline", 1, 1))
    yield checks_records(CHAIN, OWN, None, *rubbish)
    last = patch("tag byte", 0x30, 63)
    for tag, number in (b"0", None), (tag_of(63), 22):
        yield checks_records(WIDE, text_of(retagged(WIDE_LINES, 65, tag)), refusal_by(number), last)


def after_refusal():
    """Records that are zero after a refused text, and patched to one cluster."""
    root = patch("cluster count", 1), patch("parent", 0xFF), *tag_patches(b"Z")
    for plan, refusal in ((text_of(packed(14, (0,), [b"Z"])), None), (text_of(packed(14, (0,))), by(22)), (b"", by(20)),
                          (text_of(packed(15, (0,), [b"Z"])), by(21))):
        yield Case(b"", by(2, 1), patches=root, room=0, plan_room=0, plan=plan, checks=by(2, 1), checks_records=refusal)


def random_records():
    """Small sites with some plan, sound or damaged, and up to two fields set anew, always the same."""
    random = Random(10)
    for _ in range(150):
        text = random_site(random, 5)
        sizes = text.count(b"\n02"), text.count(b"\n03")
        patches = tuple(random_patch(random, *sizes) for _ in range(random.randrange(3)))
        plan = text_of(random_lines(random, text))
        plan = plan if random.randrange(4) else damaged(plan, random)
        yield Case(text, None, patches=patches, room=0, plan_room=0, plan=plan)


GROUPS = (refused_sites, refused_records, patched_fields, patched_times, patched_tags, after_refusal, random_records)
