"""Checks a picture that `cartheron picture` printed against the independent planner of planning.py.

    python3 tests/picture.py SITE PICTURE

It has to be well-formed XML that needs no script and no other file, with all of every tag, a bar for
each cluster at its place in time, each flow's words, and a mark for each crossing, once over the bars
and once in the flow's lane. Everything has to lie inside the picture. Prints what is wrong.
"""

import re
import sys
from xml.etree import ElementTree

import planning
import reference

SVG = "{http://www.w3.org/2000/svg}"
LETTER = 7.3  # the width of a letter of a tag, in pixels


def of_class(picture, name):
    return [e for e in picture.iter() if name in e.get("class", "").split()]


def words(element):
    return "".join(element.itertext())


def rows(site, cluster=planning.ROOT):
    """The clusters as an indented tree, from the top row down."""
    children = [c for c in range(1, site.cluster_count) if site.clusters[c].parent == cluster]
    return [cluster] + [row for child in children for row in rows(site, child)]


def tag(cluster):
    return bytes(cluster.tag[:cluster.tag_length]).decode("ascii")


def plan_of(text):
    """The records of a site that has a plan, its interval, and the start of each cluster."""
    site = reference.read(text)
    number, plan = planning.plan(text, 9673)
    assert number <= 65535, "the site has no plan"
    header, *lines = [bytes.fromhex(line) for line in plan.decode("ascii").split()]
    starts = {line[1]: int.from_bytes(line[2:6], "big") for line in lines}
    return site, planning.interval(header[2]), starts


def faults(text, svg):
    site, interval, starts = plan_of(text)
    picture = ElementTree.fromstring(svg)
    if picture.tag != SVG + "svg":
        yield "the root element is not svg"
    if re.search(rb"<script|href|@import|url\((?!#)", svg) or svg.count(b"://") != 1:
        yield "something outside the picture is wanted"
    if any(not re.fullmatch(r"\d+(\.\d\d)?", e.get(name)) for e in picture.iter()
           for name in ("x", "y", "width", "height", "cx", "cy", "r") if e.get(name) is not None):
        yield "a number is not whole or with two decimals"
    yield from tree_faults(site, picture)
    yield from bar_faults(site, starts, picture)
    yield from flow_faults(site, interval, starts, picture)


def tree_faults(site, picture):
    shown = of_class(picture, "tag")
    if [words(e) for e in shown] != [f"{c} {tag(site.clusters[c])}" for c in rows(site)]:
        yield "the tree has other rows"
    heights = [float(e.get("y")) for e in shown]
    if any(below - above < 20 for above, below in zip(heights, heights[1:])):
        yield "two rows of the tree overlap"
    plot = min(float(bar.get("x")) for bar in bars(picture))
    if any(float(e.get("x")) + LETTER * len(words(e)) > plot for e in shown):
        yield "a tag runs into the bars"
    indents = sorted({(planning.depth(site, c), float(e.get("x"))) for e, c in zip(shown, rows(site))})
    if any(deeper[1] - higher[1] < 8 or deeper[0] == higher[0] for higher, deeper in zip(indents, indents[1:])):
        yield "the indentation is not the depth"


def bars(picture):
    """The bars of the clusters: those that have a title."""
    return [g.find(SVG + "rect") for g in picture.iter(SVG + "g")
            if g.find(SVG + "title") is not None and g.find(SVG + "rect") is not None]


def bar_faults(site, starts, picture):
    shown, lengths = dict(zip(rows(site), bars(picture), strict=True)), planning.portions(site)
    used = max(starts[c] + lengths[c] for c in starts)
    left = min(float(bar.get("x")) for bar in shown.values())
    axis = max(of_class(picture, "axis"), key=lambda e: float(e.get("x2")))
    scale = (float(axis.get("x2")) - left) / used
    for c, bar in shown.items():
        if abs(float(bar.get("x")) - left - starts[c] * scale) > 0.02:
            yield f"the bar of cluster {c} starts elsewhere"
        if abs(float(bar.get("width")) - max(2, lengths[c] * scale)) > 0.03:
            yield f"the bar of cluster {c} has another width"
    for box in picture.iter(SVG + "rect"):
        for place, length in ("x", "width"), ("y", "height"):
            if float(box.get(place)) + float(box.get(length)) > float(picture.get(length)):
                yield "a box lies outside the picture"
    for ring in picture.iter(SVG + "circle"):
        for place, length in ("cx", "width"), ("cy", "height"):
            if not 0 <= float(ring.get(place)) <= float(picture.get(length)) - 8:
                yield "a flow's end lies outside the picture"


def flow_faults(site, interval, starts, picture):
    crossed = [planning.crossings(planning.path(site, flow), starts) for flow in planning.flows(site)]
    heads = [f"{j}: {flow.source} to {flow.sink}, {crossed[j]} of {planning.allowed(flow.deadline, interval)}"
             for j, flow in enumerate(planning.flows(site))]
    if [words(e) for e in of_class(picture, "head") if "end" not in e.get("class")] != heads:
        yield "the lanes have other heads"
    drawn = [g for g in of_class(picture, "flow") if g.find(SVG + "title") is not None]
    for j, group in enumerate(drawn):
        if len(of_class(group, "mark")) != 2 * crossed[j]:
            yield f"flow {j} has other marks"
        if len(of_class(group, "source")) != 2 or len(of_class(group, "sink")) != 2:
            yield f"flow {j} has not two ends, twice"
    if len(drawn) != len(heads):
        yield "there are more flows, or fewer"


if __name__ == "__main__":
    with open(sys.argv[1], "rb") as site_file, open(sys.argv[2], "rb") as picture_file:
        wrong = list(faults(site_file.read(), picture_file.read()))
    print("\n".join(f"{sys.argv[2]}: {fault}" for fault in wrong), end="\n" if wrong else "")
    sys.exit(bool(wrong))
