#!/bin/sh
# Builds the example client examples/commission.c and runs it over the stored sites and damaged texts. Exit
# status, standard output and standard error of each case have to be those stored in tests/commission; what came
# of this run is left in target/commission.cases.
set -eu
cd "$(dirname "$0")/.."
. tests/build.sh
compile commission examples/commission.c
cases=target/commission.cases
rm -rf "$cases"
mkdir "$cases"

run() { # CASE: the client with the text on standard input
    result=$cases/$1
    status=0
    run_program target/commission >"$result.out" 2>"$result.err" || status=$?
    {
        echo "exit status $status"
        echo "-- standard output"
        cat "$result.out"
        echo "-- standard error"
        cat "$result.err"
    } >"$result"
    rm "$result.out" "$result.err"
}

for site in sites/*.site; do
    run "$(basename "$site")" <"$site"
done
run a-folder <sites
sed '3s/^02/0g/' sites/pump-hall.site | run other-character
{ head -n 3 sites/pump-hall.site && printf '02\0001\033\n'; } | run odd-bytes
head -n 9 sites/pump-hall.site | run missing-line
sed '1s/^0101/0102/' sites/pump-hall.site | run bad-version
sed '3s/^020000/02000F/' sites/pump-hall.site | run bad-order
sed '3s/4E4F/204F/' sites/pump-hall.site | run bad-tag-byte
sed '$s/^03..../030008/' sites/pump-hall.site | run no-such-sink
sed '$s/........$/00000000/' sites/pump-hall.site | run bad-deadline
run empty-text </dev/null
run endless </dev/zero

diff -r tests/commission "$cases"
echo "commission: $(ls "$cases" | wc -l) cases as stored"
