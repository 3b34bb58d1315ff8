#!/bin/sh
# Runs the command cartheron over the stored sites, damaged texts and wrong uses. Exit status, standard output
# and standard error of each case have to be those stored in tests/cli.
#   tests/cli_cases.sh RUNS COMMAND..    the command and how it is started; what came of it is left in RUNS
set -eu
cd "$(dirname "$0")/.."
runs=$1
shift
rm -rf "$runs"
mkdir -p "$runs" target
command=$*

run() { # CASE ARGUMENT..: the command so called, with the text on standard input
    result=$runs/$1
    shift
    status=0
    $command "$@" >"$result.out" 2>"$result.err" || status=$?
    {
        echo "exit status $status"
        echo "-- standard output"
        cat "$result.out"
        echo "-- standard error"
        cat "$result.err"
    } >"$result"
    rm "$result.out" "$result.err"
}
pump_hall() { # CASE COMMAND: the plan of the pump hall with its lines changed by a command of sed
    sed "$2" sites/pump-hall.site | run "$1" plan
}
vendor() { # CASE COMMAND: a vendor's plan of the pump hall with its lines changed by a command of sed, checked
    sed "$2" sites/pump-hall-vendor.plan | run "$1" check sites/pump-hall.site -
}
small() { # CASE LINE..: a plan of these lines, checked for the site in target/small.site
    small=$1
    shift
    site "$@" | run "$small" check target/small.site -
}
digits() { # COUNT: so many digits 0
    head -c "$1" /dev/zero | tr '\0' 0
}
site() { # LINE..: a text of these lines, a site or a plan
    printf '%s\n' "$@"
}

for file in sites/*.site; do
    name=$(basename "$file" .site)
    for print in plan show site rewrite; do
        run "$name-$print" $print "$file" </dev/null
    done
    for print in show site; do
        run "$name-$print.json" $print --json "$file" </dev/null
    done
    { $command plan "$file" 2>/dev/null || true; } | run "$name-check" check "$file" -
done
site 01010100 02FF000141 | run smallest-show show
site 01010100 02FF000141 | run smallest-show.json show --json
site 01010100 02FF000141 | run smallest-site.json site --json
site 01010101 02FF00025C22 030000000003C000000001 | run short-deadline-show show
site 01010101 02FF00025C22 030000000003C000000001 | run short-deadline-show.json show --json

run by-standard-input show <sites/pump-hall.site
run by-dash show - <sites/pump-hall.site
run behind-two-dashes show -- sites/pump-hall.site </dev/null
run help --help </dev/null
for print in plan show site picture rewrite check; do
    run "help-$print" $print --help </dev/null
done
run version --version </dev/null

run no-command </dev/null
run no-such-command print sites/pump-hall.site </dev/null
run no-such-option plan --fast sites/pump-hall.site </dev/null
run no-such-file plan sites/none.site </dev/null
run a-folder plan sites </dev/null
run a-folder-as-input plan <sites
run two-files plan sites/pump-hall.site sites/tank-farm.site </dev/null
run json-of-plan plan --json sites/pump-hall.site </dev/null
run output-without-file plan -o </dev/null
run output-twice plan -o a -o b </dev/null
run output-into-no-folder plan -o none/plan sites/pump-hall.site </dev/null
run output-onto-a-folder plan -o sites sites/pump-hall.site </dev/null
run name-with-controls plan "$(printf 'no\033[31m\nsite')" </dev/null

pump_hall 1-other-character '3s/^02/0g/'
pump_hall 1-lower-case '3s/4F/4f/'
pump_hall 1-blank '3s/4F/4 /'
pump_hall 1-carriage-returns "s/\$/$(printf '\r')/"
pump_hall 1-odd-digits '10s/.$//'
pump_hall 1-empty-line '2s/.*//'
{ head -n 3 sites/pump-hall.site && digits 137 && echo; } | run 1-one-digit-too-many plan
{ head -n 3 sites/pump-hall.site && digits 30000; } | run 1-very-long-line plan
{ head -n 3 sites/pump-hall.site && printf '02\0001\n'; } | run 1-nul-byte plan
{ digits 100 && printf '\377\033\t' && digits 100; } | run 1-fault-far-in plan
head -c 40 sites/pump-hall.site | run 1-text-ends-inside plan
run 2-empty-text plan </dev/null
head -n 9 sites/pump-hall.site | run 2-missing-flow plan
head -n 1 sites/pump-hall.site | run 2-missing-cluster plan
pump_hall 2-other-kind '4s/^02/03/'
pump_hall 2-no-header '1s/^01/02/'
pump_hall 2-line-too-many '$p'
pump_hall 3-byte-too-many '5s/$/41/'
pump_hall 3-byte-too-few '15s/..$//'
pump_hall 3-header-too-long '1s/$/00/'
pump_hall 3-cluster-without-length '3s/.*/020000/'
pump_hall 3-tag-cut '3s/..$//'
pump_hall 10-no-version '1s/^0101/0100/'
pump_hall 10-version '1s/^0101/0102/'
pump_hall 10-no-clusters '1s/08/00/'
pump_hall 10-clusters '1s/08/41/'
pump_hall 10-flows '1s/06$/81/'
pump_hall 10-version-and-clusters '1s/^010108/010200/'
pump_hall 11-order '3s/^020000/02000F/'
pump_hall 11-order-and-tag-byte '3s/^0200001C50/02000F1C20/'
pump_hall 11-order-and-parent '6s/^020100/02040F/'
pump_hall 12-no-tag '3s/.*/02000000/'
pump_hall 12-tag-byte-below '4s/2D/20/'
pump_hall 12-tag-byte-above '4s/50/7F/'
site 01010100 "02FF0040$(digits 63 | sed 's/0/41/g')7F" | run 12-last-tag-byte plan
pump_hall 13-source '10s/^0303/0308/'
pump_hall 13-sink '10s/^030300/0303FF/'
pump_hall 13-sink-and-period '10s/^03030000098968/03030800000000/'
site 01010101 02FF000141 0300010000078000000780 | run 13-only-cluster plan
pump_hall 14-no-period '11s/001C9C38/00000000/'
pump_hall 14-period '11s/001C9C38/3B9ACA01/'
pump_hall 14-no-deadline '12s/........$/00000000/'
pump_hall 14-deadline '12s/........$/3B9ACA01/'
pump_hall 14-period-and-deadline '11s/001C9C380003D090/0000000000000000/'
pump_hall 5-root-with-parent '2s/^02FF/0200/'
pump_hall 5-parent-not-lower '6s/^0201/0204/'
pump_hall 5-second-root '6s/^0201/02FF/'
sed '5p' sites/pump-hall.site | sed '1s/0108/0109/' | run 6-tag-used plan
sed '5p' sites/pump-hall.site | sed '1s/0108/0109/' | run 6-tag-used-site site
pump_hall 7-no-fit '10s/00098968/000003C0/'
site 01010101 02FF000141 030000000003BF00000001 | run 7-no-interval-as-short plan
site 01010200 02FF0E0141 02000E0142 | run 7-no-interval-as-long plan
site 01010201 02FF0E0141 02000E0142 03010000000001000003C0 | run 7-neither plan
pump_hall 8-no-placing '14,15s/........$/00000001/'

# a plan that is one
run check-vendor check sites/pump-hall.site sites/pump-hall-vendor.plan </dev/null
run check-vendor.json check --json sites/pump-hall.site sites/pump-hall-vendor.plan </dev/null
run check-site-by-dash check - sites/pump-hall-vendor.plan <sites/pump-hall.site
$command plan sites/pump-hall.site | sed '$s/^8206000021C0/82060000EC40/' | run check-idle-to-the-end check sites/pump-hall.site -
vendor check-touching '3s/00000F00/00000780/'
site 01010100 02FF000141 >target/small.site
small check-smallest 81010E01 820000000000000003C00141
small check-order-0 81010001 820000000000000003C00141
small check-order-13 81010D01 820000000000000003C00141
site 01010101 02FF000141 03000000000780000003C0 >target/small.site
small check-short-deadline 81010101 8200000003C0000003C00141

# a wrong use, and a site that is refused
run check-without-plan check sites/pump-hall.site </dev/null
run check-both-by-dash check - - </dev/null
run check-three-files check sites/pump-hall.site sites/pump-hall-vendor.plan sites/tank-farm.site </dev/null
run check-no-such-plan check sites/pump-hall.site sites/none.plan </dev/null
run check-a-folder check sites/pump-hall.site sites </dev/null
run check-exchanged check sites/pump-hall-vendor.plan sites/pump-hall.site </dev/null
sed '3s/^020000/02000F/' sites/pump-hall.site | run check-site-refused check - sites/pump-hall-vendor-late.plan
run check-site-without-plan check sites/boiler-house-late.site sites/pump-hall-vendor.plan </dev/null

# 20: the layout
vendor 20-other-character '4s/^82/8X/'
vendor 20-lower-case '3s/4E/4e/'
vendor 20-carriage-returns "s/\$/$(printf '\r')/"
vendor 20-odd-digits '2s/.$//'
vendor 20-empty-line '1s/$/\n/'
vendor 20-empty-line-at-the-end '$s/$/\n/'
head -c 100 sites/pump-hall-vendor.plan | run 20-text-ends-inside check sites/pump-hall.site -
run 20-a-site check sites/pump-hall.site sites/pump-hall.site </dev/null
site 8F0B000302 | run 20-error-line check sites/pump-hall.site -
vendor 20-header-twice 1p
vendor 20-no-header 1d
vendor 20-no-version '1s/^8101/8100/'
vendor 20-version '1s/^8101/8102/'
vendor 20-header-too-short '1s/..$//'
vendor 20-header-too-long '1s/$/00/'
vendor 20-cluster-without-length '3s/.*/820100000F00000003C0/'
vendor 20-tag-cut '3s/..$//'
vendor 20-byte-too-many '9s/$/41/'
vendor 20-first-of-two '3s/..$//; 4s/^82/8X/'
vendor 20-before-others '1s/05/0F/; $s/^82/83/'
{ cat sites/pump-hall-vendor.plan && printf '82\0001\n'; } | run 20-nul-byte check sites/pump-hall.site -
{ cat sites/pump-hall-vendor.plan && printf '82080000000000000000FF' && digits 509 && printf '\033[31m\n'; } |
    run 20-fault-far-in check sites/pump-hall.site -
{ cat sites/pump-hall-vendor.plan && printf '82080000000000000000FF' && digits 511 && echo; } |
    run 20-one-digit-too-many check sites/pump-hall.site -
{ head -n 3 sites/pump-hall-vendor.plan && digits 30000; } | run 20-very-long-line check sites/pump-hall.site -
{ head -n 1 sites/pump-hall-vendor.plan && yes 8200000000000003C00000 | head -n 123455 && echo 82; } |
    run 20-far-down check sites/pump-hall.site -

# 21: the order
vendor 21-order-15 '1s/05/0F/'
vendor 21-order-255 '1s/05/FF/'
vendor 21-longer-than-a-period '1s/05/0A/'
site 01010101 02FF000141 0300000000077F00000780 >target/small.site
small 21-only-order-0 81010101 820000000000000003C00141
site 01010101 02FF000141 0300000000078000000780 >target/small.site
small 21-permitted 81010101 820000000000000003C00141
small 21-one-above 81010201 820000000000000003C00141
site 01010101 02FF000141 030000000003BF00000001 >target/small.site
small 21-none-is 81010001 820000000000000003C00141

# 22: the clusters
vendor 22-count '1s/08/09/'
vendor 22-count-and-missing '1s/08/07/; 5d'
vendor 22-missing 5d
vendor 22-missing-more '3,8d'
vendor 22-unknown '5s/^8203/8208/'
vendor 22-unknown-and-count '1s/08/07/; 5s/^8203/82FF/'
vendor 22-twice '5s/^8203/8202/'
vendor 22-line-too-many '$p'
vendor 22-length '5s/000003C0/00000780/'
vendor 22-length-0 '5s/000003C0/00000000/'
vendor 22-tag-length '3s/1C50/1B50/; 3s/..$//'
vendor 22-tag-byte '3s/30313031$/30313131/'
vendor 22-no-tag '3s/1C50.*/00/'
vendor 22-tag-control '3s/30313031$/1B313031/'
{ head -n 2 sites/pump-hall-vendor.plan && printf '820100000F00000003C0FF' && digits 510 | sed 's/00/7F/g' && echo; } |
    run 22-tag-of-255 check sites/pump-hall.site -
vendor 22-start-before '4s/00001E00/00000EFF/'
vendor 22-start-and-length '4s/00001E00000003C0/00000EFF00000780/'
vendor 22-before-others '4s/00001E00/00000F01/; 9s/^8207/8206/'

# 23: the portions
vendor 23-overlap '3s/00000F00/0000077F/'
vendor 23-same-start '3s/00000F00/00000000/'
vendor 23-inside '3s/00000F00/000000F0/'
vendor 23-past-the-interval '$s/00006900/00007081/'
vendor 23-wholly-past '$s/00006900/FFFFFFFF/'
vendor 23-past-twice '8s/00005A00/FFFFFFFE/; 9s/00006900/FFFFFFFF/'
vendor 23-overlap-and-past '8s/00005A00/00006E00/; 9s/00006900/00007081/'
vendor 23-order-too-small '1s/05/02/'

# 24: the flows
run 24-late check sites/pump-hall.site sites/pump-hall-vendor-late.plan </dev/null
vendor 24-interval-longer-than-deadlines '1s/05/08/'
site 01010202 02FF000141 0200000142 0300010003C0000003C000 0301000003C0000003BFFF >target/small.site
small 24-one-late 81010702 820000000000000003C00141 8201000003C0000003C00142
site 01010202 02FF000141 0200000142 0300010003C0000003C000 0301000003C0000003C000 >target/small.site
small 24-none-late 81010702 820000000000000003C00141 8201000003C0000003C00142
site 01010301 02FF000141 0200000142 0200000143 03010200000F0000000F00 >target/small.site
small 24-no-shorter-interval-fits 81010203 820000000000000003C00141 8202000003C0000003C00143 820100000780000003C00142

diff -r tests/cli "$runs"
echo "cartheron: $(ls "$runs" | wc -l) cases as stored"
