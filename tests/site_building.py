"""What the cases of demands.py are built from: lines, sites, patches of records, and the case itself."""

import struct
from dataclasses import dataclass

from reference import NO_PLACE

LARGEST_TEXT = 12_288
LARGEST_NUMBER = 4_294_967_295
FIELDS = ("cluster count", "flow count", "parent", "order", "tag length", "tag byte",
          "source", "sink", "period", "deadline")
OPEN = "open"

# Where each field begins in its record, its bytes, and the refusal outside its range; a tag's are its first byte's.
LAYOUT = {"version": (1, 1, 10), "cluster count": (2, 1, 10), "flow count": (3, 1, 10),
          "parent": (1, 1, 5), "order": (2, 1, 11), "tag length": (3, 1, 12), "tag byte": (4, 1, 12),
          "source": (1, 1, 13), "sink": (2, 1, 13), "period": (3, 4, 14), "deadline": (7, 4, 14)}
# For each refusal by a field one that is outside its range.
BAD = {10: ("version", 2), 11: ("order", 15), 12: ("tag byte", 0x20), 13: ("sink", 255), 14: ("deadline", 0)}


@dataclass(frozen=True)
class Case:
    """A text, and what docs/FORMATS.md says of it, as we state it here without the reference."""
    text: bytes
    reads: object = OPEN     # the reader's refusal, or None where it accepts
    writes: object = OPEN    # the writer's refusal, or the text it gives
    patches: tuple = ()
    room: int = LARGEST_TEXT
    line: int = 2
    plans: object = OPEN     # the planner's refusal, or the beacon order and the clusters in order of start
    plan_room: int = LARGEST_TEXT
    plan: object = None      # the plan text that is checked; None for the planner's own where the site is small
    checks: object = OPEN    # the checker's refusal, or None where it says yes
    checks_records: object = OPEN  # the same for the patched records


def by(number, line=0, place=NO_PLACE):
    """A refusal, for a field at a place or for none."""
    return number, line, place


# What records that are all zero are refused by: no clusters.
ZERO = by(10, 1, 2)


def reads(text, refusal=None, asked=2):
    """A text that is accepted and given back, or refused; the records are then zero."""
    return Case(text, refusal, ZERO if refusal else text, line=asked)


def writes(text, answer, *patches, room=LARGEST_TEXT):
    """A sound text whose patched records are refused, by the planner too but for 9, or written as a text."""
    refused = isinstance(answer, tuple) and answer[0] != 9
    return Case(text, None, answer, patches, room, plans=answer if refused else OPEN)


def both(base, text, refusal, *patches):
    """A text, and the records of a sound one patched to the same fields: the answer is the same."""
    yield reads(text, refusal)
    yield writes(base, refusal or text, *patches)


def patch(name, value, index=0, place=0):
    """One field of the records set to a value."""
    return FIELDS.index(name), index, place, value


def tag_patches(tag, index=0):
    return (patch("tag length", len(tag), index),
            *(patch("tag byte", byte, index, place) for place, byte in enumerate(tag)))


def flow_patches(source, sink, period=3_840, deadline=3_840):
    return (patch("source", source), patch("sink", sink),
            patch("period", period), patch("deadline", deadline))


def line_of(*numbers):
    """A line without its LF."""
    return bytes(numbers).hex().upper().encode()


def header(clusters, flows, version=1):
    return line_of(1, version, clusters, flows)


def cluster(parent, order, tag):
    return line_of(2, parent, order, len(tag), *tag)


def flow(source, sink, period=3_840, deadline=3_840):
    return line_of(3, source, sink, *struct.pack(">II", period, deadline))


def text_of(lines):
    return b"".join(line + b"\n" for line in lines)


def sound(clusters, flows, tag_length=1):
    """The lines of a sound site whose tags differ in their last byte only."""
    tags = [b"~" * (tag_length - 1) + bytes([0x21 + i]) for i in range(clusters)]
    return ([header(clusters, flows), cluster(0xFF, 0, tags[0])]
            + [cluster((i - 1) // 2, i % 15, tags[i]) for i in range(1, clusters)]
            + [flow(j % clusters, 7 * j % clusters, 960 * (j + 1), 1_000_000_000 - j) for j in range(flows)])


def one(cluster_line=cluster(0xFF, 0, b"A")):
    """The text of one cluster and one flow, lines 2 and 3."""
    return text_of(replaced(ONE, 2, cluster_line))


def pair(first, second):
    """The text of a root and its child with these tags."""
    return text_of([header(2, 0), cluster(0xFF, 0, first), cluster(0, 0, second)])


def replaced(lines, number, line):
    """The lines with another one at this number."""
    return lines[:number - 1] + [line] + lines[number:]


def byte_set(text, place, byte):
    """The bytes with another one at this place."""
    return text[:place] + bytes([byte]) + text[place + 1:]


def number_set(line, begins, width, value):
    """The line with another number in the bytes of its record from one on."""
    return line[:2 * begins] + line_of(*value.to_bytes(width, "big")) + line[2 * (begins + width):]


def field_set(line, name, value, place=0):
    """The line with another value in a field; the place is that of a tag byte in its tag."""
    begins, width, _ = LAYOUT[name]
    return number_set(line, begins + place, width, value)


def by_field(line, name, place=0):
    """The refusal of a line for this field."""
    begins, _, number = LAYOUT[name]
    return by(number, line, begins + place)


def both_set(lines, number, refusal, *fields):
    """Fields of one line set to values, in the text and in the records: the answer is the same."""
    line, clusters = lines[number - 1], int(lines[0][4:6], 16)
    index = number - 2 if number < 2 + clusters else number - 2 - clusters
    for field in fields:
        line = field_set(line, *field)
    yield from both(text_of(lines), text_of(replaced(lines, number, line)), refusal,
                    *(patch(name, value, index, *place) for name, value, *place in fields))


def made_bad(lines, refusal, number):
    """The lines with the one at this number made bad by a refusal number, and by none that is tested earlier."""
    line = lines[number - 1]
    if refusal in BAD:
        return replaced(lines, number, field_set(line, *BAD[refusal]))
    bad = {1: line[:-1],
           2: b"00" + line[2:],
           3: line + b"41",
           5: field_set(line, "parent", 0xFE),
           6: line[:6] + lines[number - 2][6:]}
    return replaced(lines, number, bad[refusal])


def by_bad(refusal, number):
    """The refusal of a line that was made bad by a refusal number."""
    return by_field(number, BAD[refusal][0]) if refusal in BAD else by(refusal, number)


ONE = [header(1, 1), cluster(0xFF, 0, b"A"), flow(0, 0)]
P3 = [b"01010301", b"02FF000141", b"0200000142", b"0201000143", b"03020000000F0000000F00"]
SMALL = [header(3, 2), cluster(0xFF, 0, b"A"), cluster(0, 14, b"Mast"), cluster(1, 10, b"|~"),
         flow(2, 0), flow(0, 1, 1_000_000_000, 0x0ABCDEF0)]
CLUSTERS_ONLY = sound(64, 0)
FULL = sound(64, 128)
LONGEST = sound(64, 128, 64)
