"""Prints how many instructions each side of the benchmark takes for each site, and their ratio.

    instructions.py COUNTS STORED           compares the ratios with the stored ones
    instructions.py COUNTS STORED --write   stores these counts

COUNTS is a folder with what bench/count.c gives under callgrind: `names`, and `out.1`, `out.2` and on. STORED is
a file with a name and the counts of the library and of the plain C in each line; it may be missing, or a site
may be missing in it. Exit status 1 where a ratio is more than a third above the stored one, or a count is missing.
"""

import sys
from pathlib import Path

GROWTH = 4 / 3


def counted(file):
    """The number of instructions in a file of callgrind's."""
    totals = [line.split()[1] for line in file.read_text().splitlines() if line.startswith("totals:")]
    return int(totals[0])


def counts_in(folder):
    """The counts of the library and of the plain C by the name of the site."""
    names = (folder / "names").read_text().split()
    return {name: (counted(folder / f"out.{2 * i + 1}"), counted(folder / f"out.{2 * i + 2}"))
            for i, name in enumerate(names)}


def stored_in(file):
    """The stored counts, in the same way."""
    lines = [line.split() for line in file.read_text().splitlines()] if file.exists() else []
    return {name: (int(ours), int(plain)) for name, ours, plain in lines}


def judge(counts, stored):
    """Prints a line for each site. The names of those whose ratio grew too far."""
    print(f"{'instructions a call':24} {'ours':>11} {'plain C':>9} {'ratio':>7} {'stored':>7}")
    grown = []
    for name, (ours, plain) in counts.items():
        ratio = ours / plain
        before = stored[name][0] / stored[name][1] if name in stored else None
        print(f"  {name:24} {ours:9} {plain:9} {ratio:7.2f} {'-' if before is None else f'{before:.2f}':>7}")
        if before is not None and ratio > GROWTH * before:
            grown.append(name)
    return grown


if __name__ == "__main__":
    counts, file = counts_in(Path(sys.argv[1])), Path(sys.argv[2])
    if not counts or 0 in (number for pair in counts.values() for number in pair):
        sys.exit("FAILED: callgrind counted nothing")
    grown = judge(counts, {} if "--write" in sys.argv else stored_in(file))
    if "--write" in sys.argv:
        file.write_text("".join(f"{name} {ours} {plain}\n" for name, (ours, plain) in counts.items()))
        print(f"stored in {file}")
    if grown:
        sys.exit(f"FAILED: the ratio grew by more than a third: {', '.join(grown)}")
