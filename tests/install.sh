#!/bin/bash
# Installs into an empty folder, and tries there what a C programmer would: the command answers, the
# examples of cartheron(3) compile as printed with the flags of pkg-config, plan and check, and the completion
# completes. Then uninstalls, after which the folder is empty again.
set -eu
cd "$(dirname "$0")/.."
. tests/build.sh
. tests/need.sh
need make make
need pkg-config pkg-config
need mandoc mandoc
need python3 python3
work=$(mktemp -d)
trap 'rm -rf "$work"' EXIT
fail() {
    echo "FAILED: $*"
    exit 1
}

example() { # PAGE NUMBER: a program under EXAMPLES, counted from 1, as a terminal shows it
    mandoc -T ascii "$1" | python3 -c '
import re, sys, textwrap
shown = re.sub(".\b", "", sys.stdin.read())
examples = re.search(r"^EXAMPLES\n(.*)^SEE ALSO", shown, re.M | re.S)[1]
programs = re.findall(r"^(( *)#include <stdio\.h>\n.*?^\2}\n)(?=\n* *[A-Z]|\s*\Z)", examples, re.M | re.S)
print(textwrap.dedent(programs[int(sys.argv[1]) - 1][0]), end="")
' "$2"
}
client() { # ROOT PREFIX: builds the examples with what is installed there, and runs them
    local at=$1$2 name
    PKG_CONFIG_PATH=$at/lib/pkgconfig PKG_CONFIG_SYSROOT_DIR=$1 pkg-config --cflags --libs cartheron >"$work/flags"
    example "$at/share/man/man3/cartheron.3" 1 >"$work/planning.c"
    example "$at/share/man/man3/cartheron.3" 2 >"$work/checking.c"
    for name in planning checking; do
        $cc $cflags -static -o "$work/$name" "$work/$name.c" $(cat "$work/flags")
    done
    run_program "$work/planning" <sites/pump-hall.site >"$work/plan" || fail "the example does not plan"
    bin/plan sites/pump-hall.site | cmp - "$work/plan" || fail "the example plans otherwise"
    sed 's/^0200/02ff/' sites/pump-hall.site >"$work/damaged"
    if run_program "$work/planning" <"$work/damaged" 2>"$work/words"; then fail "a damaged site was planned"; fi
    grep -q '^line 3: refused (1): 02ff' "$work/words" || fail "the example said: $(cat "$work/words")"
    says 0 "a plan for the site" sites/pump-hall.site "$work/plan"
    says 0 "a plan for the site" sites/pump-hall.site sites/pump-hall-vendor.plan
    says 1 "no plan for the site (24)" sites/pump-hall.site sites/pump-hall-vendor-late.plan
    says 1 "no plan for the site (20)" sites/pump-hall.site "$work/words"
    says 1 "the site is refused (1) at line 3" "$work/damaged" "$work/plan"
}
says() { # STATUS WORDS SITE PLAN: what the example that checks says of two files
    local status=0
    run_program "$work/checking" "$3" "$4" >"$work/said" || status=$?
    [ "$status $(cat "$work/said")" = "$1 $2" ] || fail "the example said of $4: $(cat "$work/said") ($status)"
}
command_answers() { # FILE
    run_program "$1" --version >/dev/null || fail "the installed command has no version"
    run_program "$1" plan sites/pump-hall.site | cmp - "$work/plan" || fail "the installed command plans otherwise"
    run_program "$1" check sites/pump-hall.site "$work/plan" >/dev/null || fail "the installed command does not check"
}
completes() { # EXPECTED WORD..: what the completion offers for the last word
    local expected=$1
    shift
    COMP_WORDS=("$@") COMP_CWORD=$(($# - 1))
    _cartheron
    [ "${COMPREPLY[*]}" = "$expected" ] || fail "completion of '$*' gave '${COMPREPLY[*]}'"
}

mkdir "$work/stage"
make -s install DESTDIR="$work/stage" >/dev/null
(cd "$work/stage/usr/local" && find . ! -type d -printf '%m %P\n' | LC_ALL=C sort -k 2) | diff - /dev/fd/3 3<<'FILES' ||
755 bin/cartheron
644 include/cartheron.h
644 lib/libcartheron.a
644 lib/pkgconfig/cartheron.pc
644 share/bash-completion/completions/cartheron
644 share/man/man1/cartheron.1
644 share/man/man3/cartheron.3
644 share/man/man5/cartheron.5
FILES
    fail "other files are installed"
client "$work/stage" /usr/local
command_answers "$work/stage/usr/local/bin/cartheron"
. "$work/stage/usr/local/share/bash-completion/completions/cartheron"
completes "picture" cartheron pi
completes "plan show site picture rewrite check --help --version" cartheron ''
completes "--json" cartheron show --j
completes "" cartheron plan --j
completes "--json" cartheron check --j
completes "sites/pump-hall.site" cartheron plan sites/pump-hall.s
completes "sites/pump-hall.site" cartheron plan -o sites/pump-hall.s
completes "sites/pump-hall.site" cartheron check sites/pump-hall.s
completes "sites/pump-hall-vendor.plan" cartheron check sites/pump-hall.site sites/pump-hall-vendor.
make -s uninstall DESTDIR="$work/stage"
[ -z "$(ls -A "$work/stage")" ] || fail "uninstalling left $(find "$work/stage")"

mkdir "$work/own"
make -s install PREFIX="$work/own" >/dev/null
client "" "$work/own"
grep -q "^prefix=$work/own\$" "$work/own/lib/pkgconfig/cartheron.pc" || fail "another prefix in cartheron.pc"
touch "$work/own/lib/of-another"
make -s uninstall PREFIX="$work/own"
[ "$(cd "$work/own" && find . -type f)" = ./lib/of-another ] || fail "uninstalling left or took $(find "$work/own")"
echo "install: installed, used and uninstalled, twice"
