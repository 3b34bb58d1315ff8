"""Checks the worked sites and the worked plan of docs/FORMATS.md, which a reader may take for the truth, against
planning.py and checking.py.

Run by `python3 -m unittest discover tests`.
"""

import re
import unittest
from pathlib import Path

from checking import check
from planning import printed

FORMATS = (Path(__file__).parent.parent / "docs" / "FORMATS.md").read_text()


def section(title):
    return FORMATS.split(f"\n## {title}\n")[1].split("\n## ")[0]


SITES, PLANS = section("Worked sites"), section("Worked plans")


def spelled(cell):
    """The text that stands in a cell of the table: / is LF, and blanks are no part of it."""
    return re.search("`(.*)`", cell)[1].replace(" ", "").replace("/", "\n").encode()


def given_whole(part):
    """The texts that stand in a section line by line, without the words beside the lines."""
    blocks = re.findall(r"(?:^    .*\n)+", part, re.MULTILINE)
    return ["".join(line.split()[0] + "\n" for line in block.splitlines()).encode() for block in blocks]


class WorkedSites(unittest.TestCase):
    def test_the_site_given_whole(self):
        site, answer = given_whole(SITES)
        self.assertEqual((len(site), len(answer)), (65, 84))
        self.assertEqual(printed(site), answer)

    def test_the_table(self):
        rows = [line.strip("| ").split(" | ") for line in SITES.splitlines() if line.startswith("| ")][1:]
        self.assertEqual(len(rows), 23)
        for case, site, answer in rows:
            self.assertEqual(printed(spelled(site)), spelled(answer), case)


class WorkedPlans(unittest.TestCase):
    def test_the_plan_given_whole(self):
        site, answer = given_whole(SITES)
        self.assertEqual(given_whole(PLANS), [answer])
        self.assertIsNone(check(site, answer))


if __name__ == "__main__":
    unittest.main()
