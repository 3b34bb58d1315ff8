"""The stored input and the stored expected output of the test program plan_cases.

`python3 tests/plan_cases.py input` prints the input, `python3 tests/plan_cases.py output` what the
program has to print, by planning.py.

The input is a sequence of cases. A case is a head line in hexadecimal (text length, room length), the
site text and an LF. The program fills a room with '.', plans the text into it and prints the number that
came back, the plan text where that is a length, how many bytes of the room are not '.' any more, and the
place of the text's bad field.
"""

import sys

import plan_rules
import plan_sites
from demands import hex_line
from planning import plan
from reference import place

GROUPS = plan_rules.GROUPS + plan_sites.GROUPS


def cases():
    """All cases, always the same."""
    return [case for group in GROUPS for case in group()]


def stored_input(case):
    """A case as the program reads it."""
    return hex_line("II", len(case.text), case.room) + case.text + b"\n"


def expected_output(case):
    """What the program prints for a case."""
    number, written = plan(case.text, case.room)
    return hex_line("I", number) + written + hex_line("I", len(written)) + hex_line("I", place(case.text))


if __name__ == "__main__":
    printed_for = {"input": stored_input, "output": expected_output}[sys.argv[1]]
    for case in cases():
        sys.stdout.buffer.write(printed_for(case))
