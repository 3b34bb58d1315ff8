"""Cases of records that are patched after reading and then written."""

from random import Random

from site_building import *


def records_refused():
    """Records refused at the first, a middle and the last cluster, and at each line of a small site."""
    clusters, small = text_of(CLUSTERS_ONLY), text_of(SMALL)
    for i in 1, 31, 63:
        yield writes(clusters, by(6, 2 + i), patch("tag byte", 0x21 + i - 1, i))
    for i in range(3):
        for length in 0, 65, 255:
            yield writes(small, by_field(2 + i, "tag length"), patch("tag length", length, i))
        yield writes(small, by_field(2 + i, "tag byte"), patch("tag byte", 0x7F, i))
        yield writes(small, by_field(2 + i, "order"), patch("order", 255, i))
    for j in range(2):
        for name, value in (("source", 3), ("source", 256), ("sink", 255), ("sink", 65_535), ("period", 1_000_000_001),
                            ("deadline", 0)):
            yield writes(small, by_field(5 + j, name), patch(name, value, j))


def two_faults():
    """The first bad record decides, in it the test that comes first, and all come before the room."""
    text = text_of(SMALL)
    order, parent, tag = patch("order", 15, 1), patch("parent", 1, 1), tag_patches(b"A", 1)
    by_order = by_field(3, "order")
    for answer, patches in ((by_order, (parent, order)), (by_order, (*tag, order)), (by_order, (parent, *tag, order)),
                            (by(5, 3), (parent, *tag)),
                            (by(6, 3), (*tag, patch("order", 15, 2), patch("period", 0))),
                            (by_order, (order, patch("tag length", 0, 2), patch("source", 3))),
                            (by_field(1, "flow count"), (patch("flow count", 129), order)),
                            (by_field(5, "deadline"), (patch("deadline", 0), patch("source", 3, 1)))):
        for room in 0, LARGEST_TEXT:
            yield writes(text, answer, *patches, room=room)


def behind():
    """What stands behind the counts and the tag lengths is never looked at."""
    text = text_of(SMALL)
    yield writes(text, text,
                 *(patch(name, 255, i) for name in ("parent", "order", "tag length") for i in (3, 63)),
                 *(patch(name, 255, j) for name in ("source", "sink") for j in (2, 127)),
                 *(patch(name, LARGEST_NUMBER, j) for name in ("period", "deadline") for j in (2, 127)))
    yield writes(text, text, *tag_patches(b"A", 3))
    yield writes(text, text, patch("tag byte", 255, 0, 1), patch("tag byte", 0, 1, 63), patch("tag byte", 32, 2, 2))
    yield writes(pair(b"A", b"B"), by(6, 3), patch("tag byte", 0x43, 0, 1), patch("tag byte", 0x41, 1))
    yield writes(pair(b"A", b"AB"), pair(b"A", b"AB"), patch("tag byte", 0x42, 0, 1))


def zero_behind():
    """Entries past the counts and bytes past a tag's length are zero after reading."""
    for name, count, refusal in (("cluster count", 2, by_field(3, "tag length")),
                                 ("flow count", 2, by_field(4, "period"))):
        yield writes(one(), refusal, patch(name, count))
    yield writes(one(), text_of([header(2, 1), cluster(0xFF, 0, b"A"), cluster(0, 0, b"B"), flow(0, 0)]),
                 patch("cluster count", 2), *tag_patches(b"B", 1))
    yield writes(one(), text_of([header(1, 2), cluster(0xFF, 0, b"A"), flow(0, 0), flow(0, 0, 1, 2)]),
                 patch("flow count", 2), patch("period", 1, 1), patch("deadline", 2, 1))
    for length in 2, 64:
        yield writes(one(), by_field(2, "tag byte", 1), patch("tag length", length))


def zero_after_refusal():
    """Records are zero after a refusal, also where the lines before it are sound."""
    root = patch("cluster count", 1), patch("parent", 0xFF), *tag_patches(b"Z")
    for text, refusal in ((b"", by(2, 1)), (text_of(SMALL[:-1]), by(2, 6)),
                          (text_of(made_bad(SMALL, 14, 6)), by_bad(14, 6)), (text_of(SMALL) + b"0", by(1, 7))):
        yield Case(text, refusal, by_field(2, "tag length"), (patch("cluster count", 1),))
        yield Case(text, refusal, by_field(3, "period"), (*root, patch("flow count", 1)))
        yield Case(text, refusal, text_of([header(1, 0), cluster(0xFF, 0, b"Z")]), root)


def changed():
    """Records patched to another sound site."""
    text = text_of(SMALL)
    for old, new, *patches in ((b"4D617374", b"50617374", patch("tag byte", 0x50, 1, 0)),
                               (b"4D617374", b"4D617321", patch("tag byte", 0x21, 1, 3)),
                               (b"02010A", b"020004", patch("parent", 0, 2), patch("order", 4, 2)),
                               (flow(2, 0), flow(1, 2, 1, 0x01020304), *flow_patches(1, 2, 1, 0x01020304))):
        yield writes(text, text.replace(old, new), *patches)
    yield writes(text, text_of([header(1, 0), SMALL[1]]), patch("cluster count", 1), patch("flow count", 0))
    yield writes(text, by_field(4, "source"), patch("cluster count", 2))


def damaged_records():
    """A small site's records with fields set to values near their limits, always in the same way."""
    random = Random(2)
    values = 0, 1, 2, 3, 14, 15, 0x21, 0x41, 0x7E, 0x7F, 0xFF
    for _ in range(150):
        patches = [(random.randrange(len(FIELDS)), random.randrange(4), random.randrange(5),
                    values[random.randrange(len(values))]) for _ in range(1 + random.randrange(3))]
        yield Case(text_of(SMALL), patches=tuple(patches), room=random.randrange(400))


GROUPS = (records_refused, two_faults, behind, zero_behind, zero_after_refusal, changed, damaged_records)
