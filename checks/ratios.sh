#!/bin/sh
# How time grows with the work: the user time of a piece of work, and of a greater one, beside the ratio that is wanted
# at most. It checks how each run ends, and says where the ratio is too great, but no check fails by the clock.
# Other work on the machine only ever adds to a time, so each size counts with its least, and is measured again
# while the ratio is too great, up to five times.
set -eu
cd "$(dirname "$0")/.."
. checks/lib/parts.sh
bench=$PWD/crates/oc_bench/out/oc_bench
[ -x "$bench" ] || skip "the program for measuring the lowest parts isn't built; rt ci leaves it"

# user PIECE COUNT TURNS: the user time of so many runs, in milliseconds. A piece that needs a file gets a new one in each.
file=
user() {
    (
        turn=0
        while [ "$turn" -lt "$3" ]; do
            [ -z "$file" ] || rm -f "$file"
            "$bench" "$1" "$2" ${file:+"$file"} >/dev/null || exit 1
            turn=$((turn + 1))
        done
        times
    ) | awk 'NR == 2 { split($1, t, /[ms]/); printf "%d", t[1] * 60000 + t[2] * 1000 }'
}

# less A B: the lesser of two times, of which the first may be missing.
less() {
    if [ -z "$1" ] || [ "$2" -lt "$1" ]; then echo "$2"; else echo "$1"; fi
}

# grows PIECE SMALL GREAT TURNS MOST: the greater one takes at most that many times as long.
grows() {
    small=
    great=
    round=0
    while :; do
        small=$(less "$small" "$(user "$1" "$2" "$4")")
        great=$(less "$great" "$(user "$1" "$3" "$4")")
        [ "$small" -gt 0 ] || fail "$1 $2 didn't run, or took no time"
        round=$((round + 1))
        awk -v s="$small" -v g="$great" -v most="$5" 'BEGIN { exit g / s > most }' && break
        [ "$round" -lt 5 ] || break
    done
    awk -v what="$1" -v a="$2" -v b="$3" -v s="$small" -v g="$great" -v turns="$4" -v most="$5" 'BEGIN {
        printf "%s %d: %.1f ms, %d: %.1f ms, ratio %.2f, wanted at most %s%s\n", what, a, s / turns, b, g / turns, g / s, most,
            (g / s > most ? ": TOO GREAT in this run" : "")
    }'
}

# faster PIECE OTHER COUNT TURNS MOST: the one takes at most that many times as long as the other.
faster() {
    one=$(user "$1" "$3" "$4")
    other=$(user "$2" "$3" "$4")
    [ "$other" -gt 0 ] || fail "$2 $3 didn't run, or took no time"
    awk -v what="$1" -v beside="$2" -v count="$3" -v a="$one" -v b="$other" -v turns="$4" -v most="$5" 'BEGIN {
        printf "%s %d: %.1f ms, %s: %.1f ms, %.2f times as long, wanted at most %s%s\n", what, count, a / turns, beside, b / turns, a / b, most,
            (a / b > most ? ": TOO GREAT in this run" : "")
    }'
}

grows lines 100000 400000 4 4.6
grows line 32767 65535 4 2.3
grows decode 100000 400000 20 4.6
grows classes 5000 10000 20 2.6

bench=$parts
grows store_chain 100000 400000 10 4.8
grows store_star 100000 400000 10 4.8
grows activate_chain 15000 60000 40 4.8
grows activate_complete 400 800 40 4.8
grows activate_cycle 1000 4000 200 4.8
grows index 100000 400000 2 4.8
faster index map 100000 4 20

file=$room/slots.oc
grows slots 100000 400000 4 4.6
file=$room/objects.oc
grows objects 100000 400000 2 4.8
