#!/bin/sh
# Runs bin/plan as a script would and compares it with the independent planner of planning.py: over the stored
# sites, by file and from standard input, over texts that are far too long or never end, through short reads.
set -eu
cd "$(dirname "$0")/.."
work=$(mktemp -d)
trap 'rm -rf "$work"' EXIT

fail() {
    echo "FAILED: $*"
    exit 1
}
expected() { # what the program has to print for the site in a file
    python3 -c '
import sys
sys.path.insert(0, "tests")
import planning
sys.stdout.buffer.write(planning.printed(open(sys.argv[1], "rb").read()))
' "$1"
}
agrees() { # STATUS FILE: bin/plan on the file, which has to end so
    expected "$2" >"$work/expected"
    status=0
    bin/plan "$2" >"$work/out" 2>"$work/err" || status=$?
    [ "$status" -eq "$1" ] || fail "bin/plan $2: exit status $status, not $1: $(cat "$work/err")"
    [ ! -s "$work/err" ] || fail "bin/plan $2 has words of its own: $(cat "$work/err")"
    cmp "$work/expected" "$work/out" || fail "bin/plan $2 printed something else"
}

# built now, if it has to be, since building is told
bin/plan </dev/null >"$work/out" 2>&1 || true

agrees 0 sites/pump-hall.site
agrees 0 sites/tank-farm.site
agrees 1 sites/raw-water-no-fit.site
agrees 1 sites/boiler-house-late.site

bin/plan <sites/pump-hall.site >"$work/out"
expected sites/pump-hall.site | cmp - "$work/out" || fail "a site on standard input"
{ head -c 5 sites/pump-hall.site && sleep 0.2 && tail -c +6 sites/pump-hall.site; } | bin/plan >"$work/out"
expected sites/pump-hall.site | cmp - "$work/out" || fail "a site through short reads"

: >"$work/empty"
agrees 1 "$work/empty"
{ cat sites/tank-farm.site && head -c 3000000 /dev/zero | tr '\0' '0'; } >"$work/long"
agrees 1 "$work/long"
sed '3s/^02/0g/' sites/pump-hall.site >"$work/damaged"
agrees 1 "$work/damaged"
sed '3s/^020000/02000F/' sites/pump-hall.site >"$work/field"
agrees 1 "$work/field"
[ "$(cat "$work/out")" = 8F0B000302 ] || fail "a superframe order of 15 in line 3: $(cat "$work/out")"
sed '$s/........$/00000000/' sites/pump-hall.site >"$work/field"
agrees 1 "$work/field"
sed '5p' sites/pump-hall.site | sed '1s/0108/0109/' >"$work/repeated"
agrees 1 "$work/repeated"

# An endless input is read only as far as the verdict needs, and kept nowhere.
endless() { # FILE..: bin/plan on an input that never ends
    status=0
    timeout 120 bin/plan "$@" </dev/zero >"$work/out" || status=$?
    [ "$status" -eq 1 ] && [ "$(cat "$work/out")" = 8F010001FF ] || fail "an endless input: exit status $status"
}
endless
endless /dev/zero

fails() { # WHAT COMMAND..: the command has to end with status 2
    what=$1
    shift
    status=0
    "$@" >/dev/null 2>"$work/err" || status=$?
    [ "$status" -eq 2 ] && [ -s "$work/err" ] || fail "$what: exit status $status"
}
fails "a folder" bin/plan sites
fails "a folder as standard input" sh -c 'bin/plan <sites'
fails "no such file" bin/plan sites/none.site
fails "two files" bin/plan sites/pump-hall.site sites/pump-hall.site
fails "a full disk" sh -c 'bin/plan sites/pump-hall.site >/dev/full'
echo "bin/plan: as the independent planner answers"
