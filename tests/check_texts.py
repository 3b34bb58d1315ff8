"""Cases of plan texts: the worked ones, the layout of every line, what decides where several faults are, and damage."""

from itertools import combinations, permutations
from random import Random

from check_building import *
from plan_building import LONGEST_PLAN
from plan_rules import own_flow
from plan_sites import near, random_site
from site_texts import damaged


def worked_plans():
    """The plans of the worked sites, and texts that come near one for the sites that have none."""
    for number, order, *sequence in ((1, 14, 0), (2, 14, 0, 1, 2), (3, 2, 2, 1, 0), (5, 2, 0, 2, 1), (6, 2, 0, 2, 1),
                                     (7, 1, 0, 1), (10, 2, 1, 0, 2)):
        yield checks(P[number], packed(order, sequence), None)
    yield checks(own_flow(960), packed(0, (0,)), None)
    tags = [b"A" * 16 + b"B", b"A" * 16 + b"C"]
    yield checks(pair(*tags), packed(14, (0, 1), tags), None)
    for sequence in permutations(range(3)):
        for order, number in (1, 23), (2, 24), (3, 21):
            yield checks(P[4], packed(order, sequence), number)
    for order, number in (0, 23), (1, 21):
        yield checks(P[8], packed(order, (0, 1)), number)


def other_plans():
    """Sequences, orders and gaps that are not the planner's."""
    for sequence in permutations(range(3)):
        for order in 2, 9, 14:
            yield checks(P[2], packed(order, sequence), None)
        one_each_way = sequence not in ((0, 1, 2), (2, 1, 0))
        yield checks(P[6], packed(2, sequence), None if one_each_way else 24)
        yield checks(P[6], packed(3, sequence), 24)
        yield checks(CHAIN, packed(2, sequence), None if sequence == (2, 1, 0) else 24)
    for starts in {0: 0, 1: 960, 2: 2_880}, {0: 1, 1: 961, 2: 1_921}, {0: 960, 1: 1_920, 2: 2_880}:
        yield checks(P[2], placed(2, starts), None)


def no_plans():
    """Texts without a line, of other lines, and the site itself."""
    for text in P[1], CHAIN, WIDE:
        for plan in b"", b"\n", b"0", b"8", b"81", b"81\n", text, text + text:
            yield checks_text(text, plan, 20)


def broken(line):
    """Lines that break the layout in one place, whatever record they were."""
    return (line[:-1], b"", line[:-2], line + b"41", line + b"\r", number_set(line, 0, 1, 0x83),
            byte_set(line, len(line) - 1, 0x47))


def broken_more(line, first):
    """More of them, where the line is the first or another."""
    yield from (line + b"0", line[:2], b" " + line[1:], byte_set(line, 0, 0xFF), byte_set(line, 3, 0x61))
    kinds = (0x00, 0x01, 0x02, 0x80, 0x82, 0xFF) if first else (0x00, 0x02, 0x80, 0x81, 0xFF)
    yield from (number_set(line, 0, 1, kind) for kind in kinds)
    if first:
        yield from (number_set(line, 1, 1, version) for version in (0x00, 0x02, 0x81, 0xFF))
    else:
        yield from (number_set(line, 10, 1, length) for length in (0x00, 0x02, 0x41, 0xFF))
        yield from (line.lower(), line[:20], line[:20] + b"00" * 12)


def broken_lines():
    """Every line of a small plan, and the header, the first, a middle and the last line of one with 64 clusters."""
    for number, line in enumerate(CHAIN_LINES, 1):
        for other in *broken(line), *broken_more(line, number == 1):
            yield checks(CHAIN, replaced(CHAIN_LINES, number, other), 20)
    for number in 1, *ROWS:
        line = WIDE_LINES[number - 1]
        for other in *broken(line), line.lower():
            yield checks(WIDE, replaced(WIDE_LINES, number, other), 20)


def broken_ends():
    """Lines without LF, with CR, with more behind the last LF; a line too many is 22 if it keeps the layout."""
    for text, lines in (P[1], packed(14, (0,))), (CHAIN, CHAIN_LINES), (WIDE, WIDE_LINES):
        plan = text_of(lines)
        for other in (plan[:-1], plan[:-2], plan + b"\n", b"\n" + plan, plan + b"8", plan + lines[-1], plan + b"\r",
                      plan.replace(b"\n", b"\r\n"), plan.replace(b"\n", b""), plan.replace(b"\n", b"\n\n"), plan + plan,
                      plan + text, lines[0]):
            yield checks_text(text, other, 20)
        yield checks_text(text, plan[:9], 22)
        yield checks(text, [*lines, lines[-1]], 22)
        yield checks(text, [*lines, lines[-1], lines[-1][:-2]], 20)


def with_faults(numbers, last=True):
    """The lines of a plan for P5 with the faults of these numbers; 20 and 22 in the last line or the header."""
    lines = packed(3 if 21 in numbers else 2, (0, 1, 2) if 24 in numbers else (0, 2, 1))
    if 23 in numbers:
        lines = plan_set(lines, 3, "start", 959)
    if 22 in numbers:
        lines = plan_set(lines, 4, "tag byte", 0x7E) if last else plan_set(lines, 1, "count", 2)
    if 20 in numbers:
        lines = replaced(lines, 4, lines[3] + b"\r") if last else replaced(lines, 1, lines[0] + b"\r")
    return lines


def lowest_decides():
    """Every set of the five numbers: the lowest applies, wherever the other faults stand."""
    yield checks(P[5], with_faults(()), None)
    for count in range(1, 6):
        for numbers in combinations(range(20, 25), count):
            for last in False, True:
                yield checks(P[5], with_faults(numbers, last), min(numbers))
    for start, number in ((1_920 - 1, 23), (959, 22)):
        yield checks(P[5], plan_set(with_faults((24,)), 4, "start", start), number)


def tag_lengths():
    """Tag lengths that no cluster has: 22 with as many bytes behind, 20 with one more or fewer."""
    for number in 2, 3, 4:
        for length in 0, 2, 64, 65, 128, 255:
            lines = retagged(CHAIN_LINES, number, b"C" * length)
            yield checks(CHAIN, lines, 22)
            yield checks(CHAIN, replaced(lines, number, lines[number - 1] + b"43"), 20)
            if length > 0:
                yield checks(CHAIN, replaced(lines, number, lines[number - 1][:-2]), 20)


def longest_plans():
    """The longest plan, one line more, faults at its end, and the longest texts handed in."""
    tags = [tag_of(i, 64) for i in range(64)]
    text, lines = site(star(64), tags=tags), packed(6, range(64), tags)
    plan = text_of(lines)
    assert len(plan) == LONGEST_PLAN
    for other, number in ((plan, None), (plan + text_of([lines[-1]]), 22),
                          (text_of(plan_set(lines, 65, "tag byte", 0x20, 63)), 22),
                          (text_of(plan_set(lines, 65, "start", 63 * 960 + 1)), 23),
                          (plan + b"0" * (LARGEST_TEXT - LONGEST_PLAN), 20)):
        yield checks_text(text, other, number)
    plan = text_of(CHAIN_LINES)
    many = (LARGEST_TEXT - len(plan)) // 25
    for other, number in ((b"8" * LARGEST_TEXT, 20), (plan + b"82" * 6_000 + b"\n", 20),
                          (plan + text_of(CHAIN_LINES[-1:] * many), 22),
                          (plan + text_of(CHAIN_LINES[-1:] * (many - 1) + [b"00"]), 20)):
        yield checks_text(CHAIN, other, number)


def damaged_plans():
    """Plans of small sites damaged once or twice, always in the same way."""
    random = Random(8)
    plans = ((P[2], packed(3, (1, 0, 2))), (CHAIN, CHAIN_LINES), (P[5], packed(2, (0, 2, 1))),
             (P[7], packed(1, (0, 1))), (P[10], packed(2, (1, 0, 2))))
    for _ in range(200):
        text, lines = plans[random.randrange(len(plans))]
        plan = damaged(text_of(lines), random)
        if random.randrange(2):
            plan = damaged(plan, random)
        yield Case(text, None, room=0, plan_room=0, plan=plan)


def random_lines(random, text):
    """The lines of some plan for a small site: any sequence, gaps now and then, and a start that is one off."""
    orders = [int(line[4:6], 16) for line in text.split(b"\n") if line[:2] == b"02"]
    sequence, starts, start = list(range(len(orders))), {}, 0
    random.shuffle(sequence)
    for i in sequence:
        start += (0, 0, 0, 0, 0, 1, 960, random.randrange(4_000))[random.randrange(8)]
        starts[i] = start if random.randrange(8) else max(near(random, start), 0)
        start += interval(orders[i])
    least = next((order for order in range(15) if start <= interval(order)), 14)
    order = min(max(least + (-1, 0, 0, 1, 2)[random.randrange(5)], 0), 15)
    return placed(order, starts, orders=orders)


def random_plans():
    """Small sites with some plan, always the same."""
    random = Random(9)
    for _ in range(250):
        text = random_site(random, 6)
        yield Case(text, None, room=0, plan_room=0, plan=text_of(random_lines(random, text)))


GROUPS = (worked_plans, other_plans, no_plans, broken_lines, broken_ends, lowest_decides, tag_lengths, longest_plans,
          damaged_plans, random_plans)
