"""The site part of docs/FORMATS.md ("Site text", "Refusal numbers") in Python, independent of the product.

The reader, the check of records, the site writer and the part shown. A refusal is three numbers: its own,
its line, and the place of the field that decided, NO_PLACE where none did.
"""

from dataclasses import dataclass, field

CLUSTERS, FLOWS, TAG = 64, 128, 64
LARGEST_ORDER = 14
LONGEST_TIME = 1_000_000_000
LONGEST_LINE = 136
DIGITS = b"0123456789ABCDEF"
HEADER, CLUSTER, FLOW = 1, 2, 3
VERSION = 1
NO_PARENT = 0xFF
NO_PLACE = 0xFF


@dataclass
class Cluster:
    parent: int = 0
    order: int = 0
    tag: bytearray = field(default_factory=lambda: bytearray(TAG))
    tag_length: int = 0

    def tag_kept(self):
        """The tag's bytes up to its length."""
        return bytes(self.tag[:self.tag_length])


@dataclass
class Flow:
    source: int = 0
    sink: int = 0
    period: int = 0
    deadline: int = 0


@dataclass
class Site:
    """All records, zero where nothing was read, and the two counts."""
    cluster_count: int = 0
    flow_count: int = 0
    clusters: list = field(default_factory=lambda: [Cluster() for _ in range(CLUSTERS)])
    flows: list = field(default_factory=lambda: [Flow() for _ in range(FLOWS)])


def lines(text):
    """The text's lines, each without its LF, and whether it has one. Nothing after the last LF is no line."""
    *ended, rest = text.split(b"\n")
    return [(line, True) for line in ended] + ([(rest, False)] if rest else [])


def shown(text, line):
    """The part shown for a line: its bytes without LF, empty for line 0 and after the last line."""
    present = lines(text)
    return present[line - 1][0] if 1 <= line <= len(present) else b""


def read(text):
    """The site of a text, or the refusal of its first bad line or of the line that is missing."""
    site = Site()
    present = lines(text)
    for number, (line, ended) in enumerate(present, 1):
        fault = take(site, number, line, ended)
        if fault:
            return at_line(number, fault)
    if len(present) < 1 + site.cluster_count + site.flow_count:
        return at_line(len(present) + 1, whole_line(2))
    return site


def place(text):
    """The place of the field for which reading refuses a text; NO_PLACE for every other text."""
    site = read(text)
    return site[2] if isinstance(site, tuple) else NO_PLACE


def whole_line(number):
    """A fault of a line that is none of a field: a refusal number and no place."""
    return number, NO_PLACE


def at_line(line, fault):
    """The refusal of a line with this fault."""
    number, its_place = fault
    return number, line, its_place


def first_bad(*fields):
    """The fault of the first field outside its range, or None; each has its place, its number, a value, its range."""
    for its_place, number, value, least, most in fields:
        if not least <= value <= most:
            return number, its_place
    return None


def take(site, number, line, ended):
    """Takes one more line into the site; its fault, a refusal number and a place, or None."""
    if not ended or not well_formed(line) or len(line) > LONGEST_LINE:
        return whole_line(1)
    record = bytes.fromhex(line.decode())
    kind = record[0]
    if kind != kind_due(site, number):
        return whole_line(2)
    if len(record) != length_due(record):
        return whole_line(3)
    if kind == HEADER:
        return take_header(site, record)
    if kind == CLUSTER:
        return take_cluster(site, number - 2, record)
    return take_flow(site, number - 2 - site.cluster_count, record)


def well_formed(line):
    """Whether a line is of digits only, an even number of them and at least 2."""
    return all(c in DIGITS for c in line) and len(line) % 2 == 0 and len(line) > 0


def kind_due(site, number):
    """The kind due at a line once the lines before it are taken; None after the last."""
    if number == 1:
        return HEADER
    if number <= 1 + site.cluster_count:
        return CLUSTER
    if number <= 1 + site.cluster_count + site.flow_count:
        return FLOW
    return None


def length_due(record):
    """The length a record of its kind has; a cluster too short to give its tag length should have had 4."""
    if record[0] == HEADER:
        return 4
    if record[0] == FLOW:
        return 11
    return 4 + record[3] if len(record) >= 4 else 4


def take_header(site, record):
    site.cluster_count, site.flow_count = record[2], record[3]
    return first_bad((1, 10, record[1], VERSION, VERSION)) or counts_fault(site)


def take_cluster(site, i, record):
    cluster = site.clusters[i]
    cluster.parent, cluster.order, cluster.tag_length = record[1:4]
    cluster.tag[:cluster.tag_length] = record[4:]
    return cluster_fault(site, i)


def take_flow(site, j, record):
    flow = site.flows[j]
    flow.source, flow.sink = record[1], record[2]
    flow.period = int.from_bytes(record[3:7], "big")
    flow.deadline = int.from_bytes(record[7:11], "big")
    return flow_fault(site, j)


def counts_fault(site):
    """The fault of a count out of range, or None."""
    return first_bad((2, 10, site.cluster_count, 1, CLUSTERS), (3, 10, site.flow_count, 0, FLOWS))


def cluster_fault(site, i):
    """The fault of cluster i where all before it are sound, or None: of its fields, its parent or its tag."""
    cluster, tag = site.clusters[i], site.clusters[i].tag_kept()
    fault = first_bad((2, 11, cluster.order, 0, LARGEST_ORDER), (3, 12, cluster.tag_length, 1, TAG),
                      *((4 + b, 12, byte, 0x21, 0x7E) for b, byte in enumerate(tag)))
    if fault:
        return fault
    if not (cluster.parent < i or i == 0 and cluster.parent == NO_PARENT):
        return whole_line(5)
    if tag in [earlier.tag_kept() for earlier in site.clusters[:i]]:
        return whole_line(6)
    return None


def flow_fault(site, j):
    """The fault of flow j where a cluster isn't there or a time is out of range, or None."""
    flow, last = site.flows[j], site.cluster_count - 1
    return first_bad((1, 13, flow.source, 0, last), (2, 13, flow.sink, 0, last),
                     (3, 14, flow.period, 1, LONGEST_TIME), (7, 14, flow.deadline, 1, LONGEST_TIME))


def check(site):
    """The refusal of records that may be anything, with the line and the place they would have, or None."""
    fault = counts_fault(site)
    if fault:
        return at_line(1, fault)
    for i in range(site.cluster_count):
        fault = cluster_fault(site, i)
        if fault:
            return at_line(2 + i, fault)
    for j in range(site.flow_count):
        fault = flow_fault(site, j)
        if fault:
            return at_line(2 + site.cluster_count + j, fault)
    return None


def write(site, room_length):
    """The text of a site's records, or the refusal of the records, then by 9 where the room is shorter."""
    refusal = check(site)
    if refusal:
        return refusal
    text = text_of(site)
    return text if len(text) <= room_length else at_line(0, whole_line(9))


def text_of(site):
    """The text of sound records."""
    records = [bytes([HEADER, VERSION, site.cluster_count, site.flow_count])]
    for cluster in site.clusters[:site.cluster_count]:
        records.append(bytes([CLUSTER, cluster.parent, cluster.order, cluster.tag_length]) + cluster.tag_kept())
    for flow in site.flows[:site.flow_count]:
        times = flow.period.to_bytes(4, "big") + flow.deadline.to_bytes(4, "big")
        records.append(bytes([FLOW, flow.source, flow.sink]) + times)
    return b"".join(record.hex().upper().encode() + b"\n" for record in records)
