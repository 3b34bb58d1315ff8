#!/bin/sh
# Builds the C clients and runs them. `client` checks answers of docs/FORMATS.md and the stack that each function
# takes, `plan_cases` is compared with the independent planner of planning.py.
#   tests/client.sh [--native]
set -eu
cd "$(dirname "$0")/.."
. tests/build.sh
compile client tests/client.c tests/client_check.c tests/client_stack.c
compile plan_cases tests/plan_cases.c
run_program "$built/client"
python3 tests/plan_cases.py input >target/plan_cases.in
python3 tests/plan_cases.py output >target/plan_cases.expected
run_program "$built/plan_cases" <target/plan_cases.in >target/plan_cases.out
cmp target/plan_cases.out target/plan_cases.expected
echo "plan_cases: as the independent planner answers"
