#!/bin/sh
# Builds the fuzzing entry tests/fuzz.c with its own driver and runs it over the stored sites, alone and with their
# plans, and over every cut of the pump hall's text and of its plan behind it, where a fuzzer would begin.
#   tests/fuzz.sh [--native]
set -eu
cd "$(dirname "$0")/.."
. tests/build.sh
compile fuzz -Itests tests/fuzz.c tests/reference/read.c tests/reference/plan.c tests/reference/check.c
cuts=$built/fuzz.cuts
rm -rf "$cuts"
mkdir "$cuts"
python3 - "$cuts" sites/pump-hall.site sites/tank-farm.site bench/sites/*.site <<'END'
import sys
from pathlib import Path

sys.path.insert(0, "tests")
from planning import printed

cuts = Path(sys.argv[1])
for number, name in enumerate(sys.argv[2:]):
    site = Path(name).read_bytes()
    both = site + b"\0" + printed(site)
    (cuts / f"{number}.both").write_bytes(both)
    if number == 0:
        for cut in range(len(both)):
            (cuts / f"{cut}").write_bytes(both[:cut])
END
run_program "$built/fuzz" sites/*.site bench/sites/*.site "$cuts"/*
