"""The stored input and the stored expected output of the test program demands.

`python3 tests/demands.py input` prints the input, `python3 tests/demands.py output` what the program has
to print, by reference.py and planning.py.

The input is a sequence of cases. A case is a head line in hexadecimal (text length, room for a site's
text, room for a plan, line asked for, length of a plan text, number of patches), the site text, an LF, the plan
text, an LF, and for each patch of the records a line (kind, index, place, value); the kinds are the places in
FIELDS. The program reads the text, shows its parts for the line asked for and for the line of the refusal, plans
the text as the commissioning and as the survey tool, plans it and has what was written checked, writes it back,
asks for the place of its bad field, and checks the plan text for it. Then it patches the records that reading
gave, plans them, writes them, takes them there and back, and checks the plan text for them. Each room is the start
of a space of '.', and after each answer stands how many bytes of the space changed. A refusal is printed as `plan`
does: 8F, its number, its line in two bytes, and its place.
"""

import struct
import sys
from dataclasses import dataclass, replace
from math import inf

import check_limits
import check_records
import check_texts
import checking
import plan_limits
import plan_records
import planning
import reference
import site_limits
import site_records
import site_texts
from site_building import FIELDS

GROUPS = (site_texts.GROUPS + site_limits.GROUPS + site_records.GROUPS + plan_limits.GROUPS
          + plan_records.GROUPS + check_texts.GROUPS + check_limits.GROUPS + check_records.GROUPS)
SMALL_TEXT = 400


def cases():
    """All cases, always the same."""
    found = [case for group in GROUPS for case in group()]
    return [replace(case, plan=own_plan(case)) if case.plan is None else case for case in found]


def own_plan(case):
    """The planner's plan of a case's records, else of its text, where that is small; else the empty text."""
    if len(case.text) > SMALL_TEXT:
        return b""
    for answer in planning.plan_records(records_of(case), inf), planning.plan_or_refusal(case.text, inf):
        if isinstance(answer, bytes):
            return answer
    return b""


def hex_line(layout, *numbers):
    return struct.pack(">" + layout, *numbers).hex().upper().encode() + b"\n"


def stored_input(case):
    """A case as the program reads it."""
    head = hex_line("IIIIIH", len(case.text), case.room, case.plan_room, case.line, len(case.plan), len(case.patches))
    patches = b"".join(hex_line("BBBI", *patch) for patch in case.patches)
    return head + case.text + b"\n" + case.plan + b"\n" + patches


def patched(site, patches):
    """The records with fields set anew, one patch after another."""
    for kind, index, place, value in patches:
        name = FIELDS[kind].replace(" ", "_")
        if name in ("cluster_count", "flow_count"):
            setattr(site, name, value)
        elif name in ("parent", "order", "tag_length"):
            setattr(site.clusters[index], name, value)
        elif name == "tag_byte":
            site.clusters[index].tag[place] = value
        else:
            setattr(site.flows[index], name, value)
    return site


@dataclass(frozen=True)
class Answers:
    """What the clients get: of the text first, then of the patched records."""
    read: object         # the reader's refusal, or the two counts
    commissioned: tuple  # the number, and the bytes that were written
    rewritten: tuple     # the same
    place: int           # of the bad field
    checked: object      # the checker's refusal, or None
    planned: object      # the planner's refusal, or the plan text
    written: object      # the writer's refusal, or the text
    back: object         # the writer's refusal, or the two counts that reading its text gives
    records_checked: object  # the checker's refusal, or None


def refusal_or_counts(site):
    return site if isinstance(site, tuple) else bytes([site.cluster_count, site.flow_count])


def number_of(answer):
    """A refusal or a text as the C functions give it, and the bytes that they write."""
    if isinstance(answer, tuple):
        return 65_536 * answer[0] + answer[1], b""
    return len(answer), answer


def passed(commissioned):
    """What planning and checking what was written gives: 0 for a plan, else the refusal."""
    number, written = commissioned
    return 0 if written else number, written


def records_of(case):
    """The records that reading gives, all zero after a refusal, with the case's patches."""
    site = reference.read(case.text)
    return patched(reference.Site() if isinstance(site, tuple) else site, case.patches)


def answers(case):
    """What the clients get for a case."""
    site, records = reference.read(case.text), records_of(case)
    rewritten = site if isinstance(site, tuple) else reference.write(site, case.room)
    written = reference.write(records, case.room)
    back = written if isinstance(written, tuple) else refusal_or_counts(reference.read(written))
    return Answers(refusal_or_counts(site), planning.plan(case.text, case.plan_room), number_of(rewritten),
                   reference.place(case.text), checking.check(case.text, case.plan),
                   planning.plan_records(records, case.plan_room), written, back,
                   checking.check_records(records, case.plan))


def refusal_printed(number, line, place):
    return hex_line("BBHB", 0x8F, number, line, place)


def check_printed(refusal):
    """A refusal, or 80."""
    return refusal_printed(*refusal) if refusal else hex_line("B", 0x80)


def counts_printed(answer):
    """A refusal, or 80 and the two counts."""
    return refusal_printed(*answer) if isinstance(answer, tuple) else hex_line("BBB", 0x80, *answer)


def text_printed(answer, *order):
    """A refusal, or 80, the length, the order of a plan and the text; and how many bytes changed."""
    if isinstance(answer, tuple):
        return refusal_printed(*answer) + hex_line("I", 0)
    head = hex_line("BI" + "B" * len(order), 0x80, len(answer), *order)
    return head + answer + hex_line("I", len(answer))


def line_printed(case, counts):
    """Of the line asked for by itself, ended, after a header of these counts: its refusal, or 80."""
    site = reference.Site()
    site.cluster_count, site.flow_count = counts
    fault = reference.take(site, max(1, case.line), reference.shown(case.text, case.line), True)
    return check_printed(fault and reference.at_line(case.line % 65_536, fault))


def expected_output(case):
    """What the program prints for a case."""
    return answers_printed(case, answers(case))


def answers_printed(case, given):
    """The answers to a case as the program prints them."""
    printed = counts_printed(given.read)
    for line in case.line, given.read[1] if isinstance(given.read, tuple) else 0:
        printed += reference.shown(case.text, line) + b"\n"
    printed += line_printed(case, (0, 0) if isinstance(given.read, tuple) else given.read)
    for number, written in given.commissioned, given.commissioned, passed(given.commissioned), given.rewritten:
        printed += hex_line("II", number, len(written))
    printed += hex_line("I", given.place) + hex_line("I", number_of(given.checked or b"")[0])
    order = () if isinstance(given.planned, tuple) else (int(given.planned[4:6], 16),)
    printed += text_printed(given.planned, *order) + text_printed(given.written)
    changed = 0 if isinstance(given.written, tuple) else len(given.written)
    return printed + counts_printed(given.back) + hex_line("I", changed) + check_printed(given.records_checked)


if __name__ == "__main__":
    printed_for = {"input": stored_input, "output": expected_output}[sys.argv[1]]
    for case in cases():
        sys.stdout.buffer.write(printed_for(case))
