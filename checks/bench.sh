#!/bin/sh
# A small benchmark. It prints its figures, and checks only how each run ends, never how long it takes.
set -eu
cd "$(dirname "$0")/.."
. checks/lib/program.sh
need awk tail
case $(date +%N) in
    *[!0-9]* | '') skip "date tells no nanoseconds here" ;;
esac
# (`env` finds the program, and not a word of the shell)
env time -q -f %M true 2>/dev/null && has_time=yes || has_time=no

# timed SCRIPT: runs a script, and sets `status`, its time `ms`, and `peak`, which tells the memory where that can be had.
timed() {
    status=0
    peak="peak memory unknown, as there is no GNU time here"
    begin=$(date +%s%N)
    if [ $has_time = yes ]; then
        env time -q -f %M -o "$room/peak" "$program" "$room/bench.oc" <"$1" >"$room/said" || status=$?
        peak="$(cat "$room/peak") KB at the peak"
    else
        "$program" "$room/bench.oc" <"$1" >"$room/said" || status=$?
    fi
    ms=$((($(date +%s%N) - begin) / 1000000))
    rm -f "$room/bench.oc"
}

# ends WHAT STATUS LINES: the exit code and the last two lines.
ends() {
    [ "$status" = "$2" ] || fail "$1: exit code $status"
    [ "$(tail -n 2 "$room/said")" = "$(printf "$3")" ] || fail "$1: it ends with other lines"
}

seconds() {
    awk -v ms="$1" 'BEGIN { printf "%.2f s", ms / 1000 }'
}

# makes N: that many objects of two fields, and one query.
makes() {
    awk -v n="$1" 'BEGIN {
        print "class Pilot { name: text, points: i32 }"
        for (i = 1; i <= n; i++) printf "make Pilot { name: \"pilot %d\", points: %d }\n", i, i
        print "query Pilot"
    }' >"$room/script"
    timed "$room/script"
    ends "$1 makes" 0 "found $1\nclosed"
}

makes 50000
few=$ms
makes 100000
ratio=$(awk -v a="$few" -v b="$ms" 'BEGIN { printf "%.1f", b / (a ? a : 1) }')
echo "makes 50000: $(seconds "$few"), 100000: $(seconds "$ms"), ratio $ratio"

# Long scripts need little memory: 100,000,000 bytes of LF, and as many of `#` in one line, which is too long.
hundred_million() {
    awk -v c="$1" 'BEGIN { for (i = 0; i < 1000; i++) s = s c; for (i = 0; i < 100000; i++) printf "%s", s }'
}

hundred_million '\n' >"$room/script"
timed "$room/script"
ends "blank lines" 0 "ready\nclosed"
echo "100 MB of blank lines: $(seconds "$ms"); $peak"

hundred_million '#' >"$room/script"
timed "$room/script"
ends "a long comment" 1 "error long\nclosed"
echo "100 MB in one line: $(seconds "$ms"); $peak"
