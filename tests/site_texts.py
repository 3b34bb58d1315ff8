"""Cases of sound and refused texts, and of the parts shown for their lines."""

from random import Random

import reference
from site_building import *


def worked_texts():
    """The worked texts of docs/FORMATS.md, and the shortest ones."""
    yield reads(text_of(P3))
    yield reads(b"01010100\n", by(2, 2))
    yield reads(b"01010100", by(1, 1))
    yield reads(b"", by(2, 1))
    yield reads(b"\n", by(1, 1))
    yield reads(b"0", by(1, 1))
    yield reads(b"01010100\n\n", by(1, 2))
    yield reads(b"01010200\n02FF000141\n02000F0142\n", by(11, 3, 2))
    yield reads(b"01020000\n", by(10, 1, 1), asked=1)
    yield reads(b"01010100\n02FF0003412043\n", by(12, 2, 5))
    yield reads(b"01010200\n02FF000141\n02010F0142\n", by(11, 3, 2))
    yield reads(b"01010101\n02FF000141\n0300010000078000000780\n", by(13, 3, 2))
    yield reads(b"01010101\n02FF000141\n0300000000078000000000\n", by(14, 3, 7))
    yield reads(text_of(SMALL))


def refusals_by_line():
    """Each number at each line of a small site, and those of no field at middle and last lines of the fullest."""
    for lines, numbers, places in ((SMALL, (1, 2, 3), range(1, 7)),
                                   (SMALL, (10,), (1,)),
                                   (SMALL, (11, 12, 5), (2, 3, 4)),
                                   (SMALL, (13, 14), (5, 6)),
                                   (SMALL, (6,), (3, 4)),
                                   (CLUSTERS_ONLY, (1, 2, 3, 5, 6), (33, 65)),
                                   (FULL, (1, 2, 3), (130, 193))):
        for refusal in numbers:
            for number in places:
                yield reads(text_of(made_bad(lines, refusal, number)), by_bad(refusal, number), asked=min(number, 2))
    yield reads(text_of(FULL + [b"03"]), by(2, 194))


def missing_lines():
    """Texts that end before a line that is due, and inside one."""
    for lines, places in (SMALL, range(1, 7)), (CLUSTERS_ONLY, (33, 65)), (FULL, (66, 193)):
        for number in places:
            yield reads(text_of(lines[:number - 1]), by(2, number))
    for number in range(1, 7):
        yield reads(text_of(SMALL[:number])[:-1], by(1, number))


def other_kinds():
    """Lines of every kind where another is due."""
    for number in range(1, 7):
        for line in (header(3, 2), cluster(0, 0, b"Z"), flow(0, 0), b"00", b"04", b"10", b"81010203", b"FF"):
            if line[:2] != SMALL[number - 1][:2]:
                yield reads(text_of(replaced(SMALL, number, line)), by(2, number))


def lengths():
    """Lines of 135 to 140 digits, and records shorter and longer than their kind."""
    lines = [header(1, 1), cluster(0xFF, 0, b"A"), flow(0, 0), b"03"]
    for number, line in enumerate(lines, 1):
        well_formed = 2 if number == 4 else 3
        for digits, refusal in (135, 1), (136, well_formed), (137, 1), (138, 1), (140, 1):
            longer = (line + b"41" * 70)[:digits]
            yield reads(text_of(replaced(lines[:3], number, longer)), by(refusal, number))
    longest = cluster(0xFF, 0, b"A" * 64)
    for line, refusal in ((longest, None), (longest[:-1], by(1, 2)), (longest[:-2], by(3, 2)),
                          (longest + b"4", by(1, 2)), (longest + b"41", by(1, 2))):
        yield reads(one(line), refusal)
    for number, line in enumerate(SMALL, 1):
        for digits in 2, 4, 6, len(line) - 2:
            yield reads(text_of(replaced(SMALL, number, line[:digits])), by(3, number))
        yield reads(text_of(replaced(SMALL, number, line + b"21")), by(3, number))
        yield reads(text_of(replaced(SMALL, number, b"")), by(1, number))


def lines_after_last():
    """Well-formed lines after the last one due are 2, malformed ones 1."""
    for lines in sound(1, 0), SMALL:
        number = len(lines) + 1
        for extra in b"00", header(1, 0), cluster(0, 0, b"Z"), flow(0, 0), b"FF", b"00" * 68:
            yield reads(text_of(lines + [extra]), by(2, number), asked=number)
        for extra in b"", b"0", b"020", b"0a", b"03\r", b"00" * 69:
            yield reads(text_of(lines + [extra]), by(1, number), asked=number)
        for rest in b"0", b"03", flow(0, 0), b"\r":
            yield reads(text_of(lines) + rest, by(1, number), asked=number)


def characters():
    """Characters that are no digits: neighbours of the digits, lower case, CR, bytes with the high bit."""
    text = text_of(SMALL)
    for place in 0, 1, 9, 28, len(text) - 3, len(text) - 2:
        for byte in b"/:@G`g\0\x80\xFF \t\r.\xB0\xC6":
            yield reads(byte_set(text, place, byte), by(1, 1 + text.count(b"\n", 0, place)))
    for place, byte in enumerate(text):
        if byte in b"ABCDEF":
            yield reads(byte_set(text, place, byte + 0x20), by(1, 1 + text.count(b"\n", 0, place)))
    for end, line in (b"\r\n", 1), (b"\r", 1), (b"\n\r", 2):
        yield reads(text.replace(b"\n", end), by(1, line))
    for number, line in enumerate(SMALL, 1):
        yield reads(text_of(replaced(SMALL, number, line + b"\r")), by(1, number))


def two_bad_lines():
    """The first bad line decides, also before one of an earlier test, a missing line and an extra one."""
    for refusal, number in (2, 2), (3, 2), (11, 2), (12, 2), (5, 2), (6, 3):
        lines = made_bad(SMALL, refusal, number)
        for text in text_of(made_bad(lines, 1, 4)), text_of(lines[:number]), text_of(lines) + b"\n":
            yield reads(text, by_bad(refusal, number))
    for refusal, number, later in ((10, 1, 11), (11, 2, 12), (12, 3, 11), (12, 2, 5), (11, 3, 14), (13, 5, 14),
                                   (14, 5, 13)):
        lines = made_bad(made_bad(SMALL, refusal, number), later, 6 if later > 12 else 4)
        yield reads(text_of(lines), by_bad(refusal, number))


def two_faults():
    """Of two faults in a line the one that is tested first decides."""
    for number, line, *refusal in (
            (1, b"0102410", 1), (1, b"020241", 2), (1, b"0102410000", 3), (1, b"01024181", 10, 1),
            (3, b"04fF000141", 1), (3, b"0400000", 1), (3, b"020F00014", 1), (3, b"00" * 69, 1),
            (3, b"0300", 2), (3, b"04FF0F0141", 2), (3, b"01010F00", 2),
            (3, b"02000F014242", 3), (3, b"0209000142FF", 3), (3, b"02FF0F", 3), (3, b"02FF0F00FF", 3),
            (3, b"02010F0142", 11, 2), (3, b"02FF000120", 12, 4), (3, b"02FF0000", 12, 3), (3, b"02000F0141", 11, 2),
            (3, b"02010F0141", 11, 2), (3, b"0201000141", 5), (3, b"02FF000141", 5), (3, b"0200000141", 6),
            (5, b"0203", 2), (5, b"03030000000000000000", 3), (5, b"0303000000000000000000", 13, 1)):
        yield reads(text_of(replaced(SMALL, number, line)), by(refusal[0], number, *refusal[1:]),
                    asked=min(number, 2))


def longest_texts():
    """The longest site with more behind it, the longest texts handed in, and a small site after them."""
    text = text_of(LONGEST)
    yield reads(text + b"\n", by(1, 194), asked=194)
    yield reads(text + b"0", by(1, 194), asked=193)
    yield reads(text + b"0" * (LARGEST_TEXT - len(text)), by(1, 194), asked=195)
    yield reads(b"0" * LARGEST_TEXT, by(1, 1), asked=1)
    yield reads(b"\n" * LARGEST_TEXT, by(1, 1), asked=LARGEST_TEXT)
    yield reads(one())


def lines_asked():
    """Parts shown for line 0, the lines there, the one after the last, and lines far beyond."""
    small = text_of(SMALL)
    for text, refusal in ((small, None), (b"", by(2, 1)), (b"01010100", by(1, 1)), (b"01010100\n", by(2, 2)),
                          (b"\n", by(1, 1)), (b"\n\n0", by(1, 1)), (small[:-1], by(1, 6)), (small + b"\n", by(1, 7)),
                          (small.replace(b"\n", b"\n\n"), by(1, 2)), (small.replace(b"\n", b"\r\n"), by(1, 1))):
        last = len(reference.lines(text))
        for asked in sorted({0, 1, 2, last, last + 1, last + 2, 255, 256, 65_535, 65_537, 0x80000000,
                             LARGEST_NUMBER}):
            yield reads(text, refusal, asked)


def damaged(text, random):
    """A text with a byte set, put in or taken out, or a line dropped, doubled or swapped."""
    lines = text.split(b"\n")
    first, second = random.randrange(len(lines)), random.randrange(len(lines))
    swapped = lines.copy()
    swapped[first], swapped[second] = lines[second], lines[first]
    place = random.randrange(len(text) + 1)
    characters = b"0123456789ABCDEF\nG\0\xFF"
    character = characters[random.randrange(len(characters)):][:1]
    byte_changed = text[:place] + character + text[place + 1:]
    return (byte_changed, byte_changed, byte_changed,
            text[:place] + character + text[place:],
            text[:place] + text[place + 1:],
            b"\n".join(lines[:first] + lines[first + 1:]),
            b"\n".join(lines[:first + 1] + lines[first:]),
            b"\n".join(swapped))[random.randrange(8)]


def damaged_texts():
    """Small sound sites damaged once or twice, always in the same way."""
    random = Random(1)
    for _ in range(400):
        text = damaged(text_of((SMALL, P3)[random.randrange(2)]), random)
        if random.randrange(2):
            text = damaged(text, random)
        yield Case(text, line=random.randrange(9), room=random.randrange(70, 140))


GROUPS = (worked_texts, refusals_by_line, missing_lines, other_kinds, lengths, lines_after_last, characters,
          two_bad_lines, two_faults, longest_texts, lines_asked, damaged_texts)
