#!/bin/sh
# Sees that tests/differential.c can fail: bends the plain C of tests/reference or of bench in one place at a
# time, into errors that look right, and each time the comparison has to report a difference.
#   tests/bent.sh [--native]
set -eu
cd "$(dirname "$0")/.."
. tests/build.sh
bent=$built/bent
rm -rf "$bent"
mkdir "$bent"
cp tests/reference/*.c tests/reference/*.h bench/plain*.c bench/plain*.h "$bent"
tried=0

objects() { # FILE..: makes the object of each
    for source in "$@"; do
        $cc $cflags -I"$headers" -Itests -Ibench -c -o "$bent/$(basename "$source" .c).o" "$source"
    done
}
bent_sources() { # FILE: the sources in which a file of the plain C takes part
    case $1 in *.h) ls "$bent"/*.c ;; *) echo "$bent/$1" ;; esac
}
objects $(ls $comparison | grep -v '^tests/reference/') "$bent"/*.c

bend() { # WHAT FOLDER/FILE SED-COMMAND
    file=$(basename "$2")
    sed "$3" "$2" >"$bent/$file"
    if cmp -s "$2" "$bent/$file"; then
        echo "bent: '$1' changes nothing"
        exit 1
    fi
    objects $(bent_sources "$file")
    compile bent.program "$bent"/*.o
    if run_program "$built/bent.program" 1 20000 >"$built/bent.out" 2>&1 || ! grep -q '^repeat it:' "$built/bent.out"; then
        echo "bent: '$1' was not reported"
        exit 1
    fi
    cp "$2" "$bent/$file"
    objects $(bent_sources "$file")
    tried=$((tried + 1))
}

read=tests/reference/read.c
plan=tests/reference/plan.c
check=tests/reference/check.c
bend "tags compared over 16 bytes" $read 's/memcmp(a->tag, b->tag, a->tag_length)/memcmp(a->tag, b->tag, a->tag_length < 16 ? a->tag_length : 16)/'
bend "tags compared over the shorter length" $read 's/a->tag_length == b->tag_length \&\& //'
bend "a missing line one off" $read 's/    return of_line(\*line < 2 + /    (*line)--;\n    return of_line(*line + 1 < 2 + /'
bend "its own number taken for a parent, as the root" $read 's/bytes\[1\] >= number)/bytes[1] > number)/;s/->parent = bytes\[1\];/->parent = bytes[1] == number ? 0 : bytes[1];/'
bend "an order of 15 taken" $read 's/REFERENCE_LARGEST_ORDER, BAD_ORDER/REFERENCE_LARGEST_ORDER + 1, BAD_ORDER/'
bend "the last bad field for the first" $read 's/for (size_t i = 0; i < count; i++) {/for (size_t i = count; i-- > 0;) {/'
bend "the last bad byte of a tag for the first" $read 's/place = CLUSTER_LENGTH; place < record->length \(.*\); place++/place = record->length; place-- > CLUSTER_LENGTH \1;/'
bend "the parent asked before the fields" $read 's/    struct verdict verdict = test_cluster/    if (number > 0 \&\& bytes[1] >= number)\n        return of_line(WRONG_PARENT);\n&/'
bend "the tag compared before the fields" $read '/^static struct verdict read_cluster/,/^}/{/refusal != NONE/d;/return verdict;/d;s/number == 0 ? .* >= number/verdict.refusal == NONE \&\& (&)/;s/of_line(NONE)/verdict/}'
place='s/\.place = field->place/.place ='
bend "a place one off" $read "$place field->place + 1/"
bend "the place of a tag byte counted from the tag" $read "$place field->place > 3 \&\& field->width == 1 ? field->place - 4 : field->place/"
bend "the place of a deadline given as its end" $read "$place field->place == 7 \&\& field->width == 4 ? 11 : field->place/"
bend "the place of a count given for the version's" $read "$place field->place == 1 \&\& field->least == 1 ? 2 : field->place/"
bend "FF for a bad field" $read "$place NO_PLACE/"
bend "a bad time as a cluster that is not there" $read 's/LONGEST_TIME, BAD_TIME/LONGEST_TIME, NO_CLUSTER/'
bend "a bad order as a bad header" $read 's/REFERENCE_LARGEST_ORDER, BAD_ORDER/REFERENCE_LARGEST_ORDER, BAD_HEADER/'
bend "one crossing too many allowed" tests/reference/layout.h 's|(int32_t)(deadline / interval) - 1|(int32_t)(deadline / interval)|'
bend "the downward part forgotten" $plan 's/allowed_crossings(flow->deadline, interval) - down\[f\]/allowed_crossings(flow->deadline, interval) - 0 * down[f]/'
bend "a full period refused" $plan 's/symbols((unsigned)order) >= sum/symbols((unsigned)order) > sum/'
bend "smaller orders not tried" $plan 's/            return NONE;/            return NONE;\n        break;/'
bend "ties by the highest number" $plan 's/size_t next = 0;/size_t next = site->clusters - 1u;/;s/            next++;/            next--;/'
bend "a byte written behind the answer" $plan 's/    put_plan(\&site, \&plan, room);/    put_plan(\&site, \&plan, room);\n    if (room_len > length)\n        room[length] = 0;/'
bend "a room of just the length refused" $plan 's/room_len < length/room_len <= length/'
bend "only neighbours asked to be apart, not the interval's end" $check 's/end_of(site, starts, c) > symbols(order)/order > REFERENCE_LARGEST_ORDER/'
bend "portions that overlap by one symbol taken" $check 's/> starts\[other\] \&\& end_of(site, starts, other) > starts\[c\]/> starts[other] + 1u \&\& end_of(site, starts, other) > starts[c] + 1u/'
bend "portions that start together taken for apart" $check 's/if (end_of(site, starts, c) > starts\[other\]/if (starts[c] != starts[other] \&\& end_of(site, starts, c) > starts[other]/'
bend "the last flow not asked" $check '/^static bool is_late/,/^}/s/f < site->flows/f + 1u < site->flows/'
bend "a flow asked as if it went the other way" $check 's/uint8_t source = flow->source;/uint8_t source = flow->sink;/;s/uint8_t sink = flow->sink;/uint8_t sink = flow->source;/'
bend "the order not asked" $check '/^static bool is_not_permitted/,/^}/s/return true;/return false;/'
bend "the order asked against 14 alone" $check 's/if (symbols(order) > site->flow\[f\].period)/if (order > REFERENCE_LARGEST_ORDER)/'
bend "the tags of a plan compared over 16 bytes" $check 's/cluster->tag, cluster->tag_length) == 0/cluster->tag, cluster->tag_length < 16 ? cluster->tag_length : 16) == 0/'
bend "the tag length of a plan not compared" $check 's/ \&\& line->bytes\[10\] == cluster->tag_length//'
bend "the lengths of a plan not compared" $check 's/number_of(line->bytes + 6, 4) == symbols(cluster->order) \&\& //'
bend "a cluster missing where another comes twice" $check '/^static bool has_wrong_cluster/,/^}/{s/seen\[number\] || //;s/    uint32_t above = 0;/&\n    size_t lines = 0;/;s/        above = start;/&\n        lines++;/;s/if (!seen\[c\])/if (!seen[c] \&\& lines != site->clusters)/}'
bend "the header's number of clusters not asked" $check 's/line.bytes\[3\] != site->clusters/line.bytes[3] == 0/'
bend "starts out of order taken" $check 's/ || start < above)/ || start + 1u < above)/'
bend "the version of a plan not asked" $check 's/ \&\& record->bytes\[1\] == 1//'
bend "the sums of a plan in 32 bits" $check 's/(uint64_t)starts\[cluster\] + /starts[cluster] + /'
bend "22 before 21" $check '/if (is_not_permitted(site, order))/{N;h;d};/return WRONG_CLUSTER;/G'
bend "a last line that is not ended not looked at" $check "/while (walk.at < walk.plan_len)/,/return true;/s/return true;/return memchr(walk.plan + walk.at, '\\\\n', walk.plan_len - walk.at) != NULL;/"
bend "a tag length above 64 as a broken line" $check 's/record->length >= PLACE_LENGTH \&\&/& record->bytes[10] <= REFERENCE_TAG \&\&/'
bend "a tag length of 0 as a broken line" $check 's/record->length >= PLACE_LENGTH \&\&/record->length > PLACE_LENGTH \&\&/'
bend "fast: a tag byte of 7F taken" bench/plain_read.c "s/ | (key_of(high, low) == key_of('7', 'F'))//"
bend "fast: tags compared over the shorter length" bench/plain_read.c 's/eight_at(sums) + length/eight_at(sums) + 0 * length/;s/ \&\& site->tag_length\[i\] == length//'
bend "fast: the sink asked before the source" bench/plain_read.c 's/no_source ? 1 : no_sink ? 2 :/no_sink ? 2 : no_source ? 1 :/'
bend "fast: a bad tag byte as a bad order" bench/plain_read.c 's/return BAD_TAG;/return BAD_ORDER;/'
bend "fast: a place for a refusal that has none" bench/plain_read.c 's/site->place = NO_PLACE;/site->place = 0;/'
bend "fast: a flow whose limit is its source's depth less one left out" bench/plain_plan.c 's/most >= tree->depth\[source\]/most >= tree->depth[source] - 1/'
bend "fast: a lowered cluster leaves its parent alone" bench/plain_plan.c 's/        lower(n, site->parent\[c\], n\[c\], \&again);//'
bend "fast: a room of just the length refused" bench/plain_write.c 's/room_len < text_len/room_len <= text_len/'
fast=bench/plain_check.c
bend "fast: portions that overlap by one symbol taken" $fast 's/overlap |= start < ends;/overlap |= start + 1u < ends;/'
bend "fast: the sums of a plan in 32 bits" $fast 's/ends = (uint64_t)start + /ends = start + /'
bend "fast: the digits of the portion not compared" $fast 's/ | unlike(at + 12, portion\[site->order\[c\]\])/ | (0 * unlike(at + 12, portion[site->order[c]]))/'
bend "fast: a cluster twice taken" $fast 's/(taken >> c \& 1) == 0 \&\& //'
bend "fast: the downward part of a path forgotten" $fast 's/ + steps_down(depth, above, source, sink);/ + 0 * steps_down(depth, above, source, sink);/'
bend "fast: a plan that is wrong not looked at for its layout" $fast 's/        length = layout_at(at, end);/        length = right ? layout_at(at, end) : (size_t)(end - at);/'
echo "bent: each of $tried bent programs was reported"
