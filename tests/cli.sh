#!/bin/sh
# Tries the command cartheron: its stored cases, its files, its JSON, and its functions on the comparison's texts and
# plans. Then the same of cli/ compiled natively with the address and undefined-behaviour sanitizers: with the library
# on x86-64, and elsewhere with the plain C of tests/reference in its place.
set -eu
cd "$(dirname "$0")/.."
. tests/build.sh
functions=$(ls cli/*.c | grep -v '^cli/main\.c$')
reference=$(ls tests/reference/*.c)
runs="tests/cli_runs.c $(ls tests/generator*.c) $functions"

echo "cli: the analyzer of gcc"
for file in cli/*.c; do
    cc -std=c11 -O2 -Wall -Wextra -Werror -fanalyzer -Iinclude -c -o target/analyzed.o "$file"
done

bin/cartheron --version
run="$emulator target/cartheron"
tests/cli_cases.sh target/cli.cases $run
for site in sites/*.site bench/sites/*.site; do
    status=0
    bin/plan "$site" >target/cli.program || status=$?
    [ "$status" -le 1 ]
    [ "$status" -eq 1 ] || $run plan "$site" | cmp - target/cli.program
    $run rewrite "$site" | cmp - "$site"
done
python3 tests/cli_files.py $run
python3 tests/cli_checking.py $run
for site in pump-hall tank-farm; do
    $run picture sites/$site.site | python3 -c 'import sys, xml.etree.ElementTree as xml; xml.parse(sys.stdin)'
done
for test in cli_texts cli_plans; do
    compile $test -Itests tests/$test.c $runs $reference
done
if [ -z "$emulator" ]; then every=1; else every=10; fi
run_program target/cli_texts 1 20000 $every
run_program target/cli_plans 1 $((20000 / every))
{ run_program target/cli_texts --json 2 300 && run_program target/cli_plans --json 2 300; } | python3 tests/cli_json.py $run

echo "cli: with the sanitizers"
if [ "$(uname -m)" = x86_64 ]; then planner=$library; else planner=tests/cli_stand_in.c; fi
sanitize() { # PROGRAM FILE..
    program=target/$1
    shift
    cc -std=c11 -g -O1 -Wall -Wextra -Werror -fsanitize=address,undefined -fno-sanitize-recover=all \
        -Iinclude -Itests -o "$program" "$@" $reference $planner
}
# Leaks are looked for in these two alone: looking takes seconds at each end of a program on some machines.
for test in cli_texts cli_plans; do
    sanitize $test.sanitized tests/$test.c $runs
    target/$test.sanitized
done
sanitize cartheron.sanitized cli/*.c
ASAN_OPTIONS=detect_leaks=0
export ASAN_OPTIONS
tests/cli_cases.sh target/cli.sanitized target/cartheron.sanitized
python3 tests/cli_files.py target/cartheron.sanitized
python3 tests/cli_checking.py target/cartheron.sanitized
