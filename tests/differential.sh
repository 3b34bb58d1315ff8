#!/bin/sh
# Builds tests/differential.c and runs it: the library against the plain C of tests/reference and of bench.
#   tests/differential.sh [--native] [SEED [COUNT]]
#   tests/differential.sh [--native] --case SEED NUMBER
set -eu
cd "$(dirname "$0")/.."
. tests/build.sh
compile_plain
compile differential -Itests -Ibench $comparison $plain
# an emulator takes some ten times as long, so there a fifth of the texts has to do
if [ $# -eq 0 ] && [ -z "$native" ] && [ "$(uname -m)" != x86_64 ]; then set -- 1 40000; fi
run_program "$built/differential" "$@"
