"""Cases on both sides of every limit of a field, as texts and as records, and of the room."""

from site_building import *


def counts():
    for clusters, flows in (1, 0), (1, 128), (63, 2), (64, 0), (64, 128):
        yield reads(text_of(sound(clusters, flows)))
    for clusters, flows in (0, 0), (0, 1), (65, 0), (255, 0), (1, 129), (64, 255), (65, 129), (255, 255):
        bad = "flow count" if 1 <= clusters <= 64 else "cluster count"
        yield from both(text_of(SMALL), text_of([header(clusters, flows)]), by_field(1, bad),
                        patch("cluster count", clusters), patch("flow count", flows))
    for clusters, flows, bad in (65, 0, "cluster count"), (1, 129, "flow count"):
        yield reads(text_of(sound(clusters, flows)), by_field(1, bad), asked=1)


def versions():
    for version in 0, 1, 2, 255:
        refusal = None if version == 1 else by_field(1, "version")
        yield reads(text_of(replaced(P3, 1, header(3, 1, version))), refusal, asked=1)


def orders():
    for order in 0, 1, 14, 15, 16, 255:
        yield from both_set(ONE, 2, by_field(2, "order") if order > 14 else None, ("order", order))


def times():
    for name in "period", "deadline":
        for time in 0, 1, 959, 1_000_000_000, 1_000_000_001, 0x80000000, LARGEST_NUMBER:
            refusal = None if 1 <= time <= 1_000_000_000 else by_field(3, name)
            yield from both_set(ONE, 3, refusal, (name, time))


def ends():
    """Sources and sinks that are there, and that are not."""
    for count in 1, 3, 64:
        lines = sound(count, 1)
        for end in count - 1, count, 255:
            for name in "source", "sink":
                refusal = by_field(2 + count, name) if end >= count else None
                yield from both_set(lines, 2 + count, refusal, (name, end))


def far_clusters():
    """The fields of the first, a middle and the last of 64 clusters: just outside their ranges, and just inside."""
    for number in 2, 33, 65:
        lines = replaced(CLUSTERS_ONLY, number, CLUSTERS_ONLY[number - 1][:6] + line_of(64, *b"A" * 64))
        yield from both_set(lines, number, by_field(number, "order"), ("order", 15))
        yield from both_set(lines, number, None, ("order", 14), ("tag byte", 0x21, 31), ("tag byte", 0x7E, 63))
        for byte, place in (0x20, 0), (0x7F, 31), (0x20, 63):
            yield from both_set(lines, number, by_field(number, "tag byte", place), ("tag byte", byte, place))
        no_tag = lines[number - 1][:6] + b"00"
        yield reads(text_of(replaced(lines, number, no_tag)), by_field(number, "tag length"))
        for length in 0, 65, 255:
            yield writes(text_of(lines), by_field(number, "tag length"), patch("tag length", length, number - 2))


def far_flows():
    """The fields of the first, a middle and the last of 128 flows: just outside their ranges, and just inside."""
    for number in 66, 130, 193:
        lines = sound(64, min(number - 64, 128))
        for name, value in (("source", 64), ("sink", 64), ("period", 0), ("period", 1_000_000_001), ("deadline", 0),
                            ("deadline", 1_000_000_001)):
            yield from both_set(lines, number, by_field(number, name), (name, value))
        yield from both_set(lines, number, None, ("source", 63), ("period", 1), ("deadline", 1_000_000_000))
        yield from both_set(lines, number, None, ("sink", 63), ("period", 1_000_000_000), ("deadline", 1))


def two_faults_of_headers():
    """Two bad fields of a header: the first decides."""
    for values, bad in (((2, 0, 0), "version"), ((2, 65, 0), "version"), ((0, 1, 129), "version"),
                        ((2, 65, 129), "version"), ((1, 0, 129), "cluster count"), ((1, 65, 255), "cluster count")):
        version, clusters, flows = values
        yield reads(text_of(replaced(P3, 1, header(clusters, flows, version))), by_field(1, bad), asked=1)
    for clusters in 0, 65:
        yield writes(text_of(P3), by_field(1, "cluster count"), patch("cluster count", clusters),
                     patch("flow count", 129))


def two_faults_of_clusters():
    """Two faults of a cluster: the first bad field decides, a bad field before the parent, that before the tag."""
    for name, value in ("order", 15), ("tag byte", 0x20):
        yield from both_set(ONE, 2, by_field(2, name), (name, value), ("parent", 0))
    for lines, number in (sound(3, 0, 3), 3), (sound(64, 0, 3), 65):
        order, parent, first_tag = ("order", 15), ("parent", number - 2), ("tag byte", 0x21, 2)
        first, second, third = (("tag byte", byte, place) for place, byte in enumerate((0x20, 0x7F, 0xFF)))
        by_order = by_field(number, "order")
        for refusal, *fields in ((by_order, order, first), (by_order, order, parent), (by_order, order, first_tag),
                                 (by_order, order, parent, third), (by_field(number, "tag byte"), first, third),
                                 (by_field(number, "tag byte", 1), second, third),
                                 (by_field(number, "tag byte", 1), second, parent),
                                 (by_field(number, "tag byte", 2), third, parent), (by(5, number), parent, first_tag)):
            yield from both_set(lines, number, refusal, *fields)
        text, by_length, i = text_of(lines), by_field(number, "tag length"), number - 2
        for refusal, line in ((by_order, cluster(0, 15, b"")), (by_order, cluster(i, 255, b"")),
                              (by_length, cluster(i, 0, b""))):
            yield reads(text_of(replaced(lines, number, line)), refusal)
        for length in 0, 65, 255:
            bad_length = patch("tag length", length, i)
            yield writes(text, by_order, patch("order", 15, i), bad_length)
            yield writes(text, by_length, bad_length, patch("tag byte", 0x20, i))
            yield writes(text, by_length, bad_length, patch("parent", i, i))


def two_faults_of_flows():
    """Two bad fields of a flow: the first decides."""
    neighbours = ("source", "sink"), ("sink", "period"), ("period", "deadline")
    for lines, number, pairs in ((sound(3, 2), 5, (*neighbours, ("source", "period"), ("sink", "deadline"))),
                                 (FULL, 193, neighbours)):
        for bad in pairs:
            fields = [(name, 255 if name in ("source", "sink") else 0) for name in bad]
            yield from both_set(lines, number, by_field(number, bad[0]), *fields)


def parents():
    """Parents lower, equal, higher and FF, of the root and of the first, a middle and the last other."""
    for parent in 0xFF, 0, 1, 0xFE:
        yield from both_set(ONE, 2, None if parent == 0xFF else by(5, 2), ("parent", parent))
    for i in 1, 31, 63:
        lines = sound(min(i + 2, 64), 0)
        for parent in 0, i - 1, i, i + 1, 0xFE, 0xFF:
            yield from both_set(lines, 2 + i, None if parent < i else by(5, 2 + i), ("parent", parent))


def tag_lengths():
    """A text can't hold a tag length out of range and be of the right length, but for 0; records can."""
    for length in 1, 2, 63, 64:
        tag = b"A" * length
        yield from both(one(), one(cluster(0xFF, 0, tag)), None, *tag_patches(tag))
    yield reads(one(b"02FF0000"), by_field(2, "tag length"))
    yield reads(one(b"02FF000041"), by(3, 2))
    for length in 65, 255:
        yield reads(one(line_of(2, 0xFF, 0, length, *b"A" * 64)), by(3, 2))
    yield reads(one(cluster(0xFF, 0, b"A" * 65)), by(1, 2))
    for length in 0, 65, 128, 255:
        yield writes(one(cluster(0xFF, 0, b"A" * 64)), by_field(2, "tag length"), patch("tag length", length))


def tag_bytes():
    """Tag bytes at the first, a middle and the last place of a tag."""
    for length in 1, 3, 64:
        lines = replaced(ONE, 2, cluster(0xFF, 0, b"A" * length))
        for place in sorted({0, length // 2, length - 1}):
            for byte in 0x00, 0x20, 0x21, 0x7E, 0x7F, 0x80, 0xFF:
                refusal = None if 0x21 <= byte <= 0x7E else by_field(2, "tag byte", place)
                yield from both_set(lines, 2, refusal, ("tag byte", byte, place))


def unlike_tags():
    """Tags that agree in a prefix, or over the shorter length, and are not the same."""
    for first, second in ((b"A" * 16 + b"B", b"A" * 16 + b"C"), (b"A" * 63 + b"B", b"A" * 63 + b"C"),
                          (b"B" + b"A" * 63, b"C" + b"A" * 63), (b"A", b"a"), (b"A", b"AA"), (b"AA", b"A"),
                          (b"A" * 16, b"A" * 17), (b"A" * 64, b"A" * 63)):
        yield from both(pair(b"A", b"B"), pair(first, second), None,
                        *tag_patches(first), *tag_patches(second, 1))


def same_tags():
    """Tags that are the same, at cluster 1 and at cluster 63."""
    for length in 1, 16, 17, 64:
        tag = b"A" * length
        yield from both(pair(b"A", b"B"), pair(tag, tag), by(6, 3), *tag_patches(tag), *tag_patches(tag, 1))
    for length, earlier in (1, 0), (1, 31), (1, 62), (17, 0), (64, 0):
        yield from both_set(sound(64, 0, length), 65, by(6, 65), ("tag byte", 0x21 + earlier, length - 1))


def rooms():
    """Rooms shorter than the answer by one, as long, and longer; the shortest rooms for any answer."""
    for lines, longer in (sound(1, 0), 1), (P3, 1), (SMALL, 1), (LONGEST, 0):
        text = text_of(lines)
        for room in range(len(text) - 1, len(text) + longer + 1):
            yield writes(text, text if room >= len(text) else by(9), room=room)
    for room in 0, 1:
        yield writes(text_of(P3), by(9), room=room)
        yield Case(b"", by(2, 1), ZERO, room=room)


GROUPS = (counts, versions, orders, times, ends, far_clusters, far_flows, two_faults_of_headers,
          two_faults_of_clusters, two_faults_of_flows, parents, tag_lengths, tag_bytes, unlike_tags, same_tags, rooms)
