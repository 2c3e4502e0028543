#!/bin/sh
# The exit codes of a run, by its words, its script and where its answers go.
set -eu
cd "$(dirname "$0")/.."
. checks/lib/program.sh
need cmp
cd "$room"
mkdir run
count=0

# expect WHAT STATUS WANTED: the status, the answers, which lie in `said`, and no complaint.
expect() {
    [ "$2" = "$3" ] || fail "$1: exit code $2, and not $3"
    cmp -s wanted said || fail "$1: it says something else: $(cat said)"
    [ ! -s complained ] || fail "$1: it writes to the standard error"
    count=$((count + 1))
}

# Faulty words: nothing is said, no byte of the script is read, and no file is made.
refused() {
    status=0
    {
        (cd run && exec "$program" "$@") >said 2>complained || status=$?
        cat >left
    } <script
    expect "the words '$*'" "$status" 2
    cmp -s script left || fail "the words '$*': the script was read"
    [ -z "$(ls -A run)" ] || fail "the words '$*': a file was made"
}

echo 'query Pilot' >script
: >wanted
refused
refused f.oc g.oc
refused --limit 12 f.oc
refused --help
refused -
refused "$(printf 'f\377.oc')"

# A script with no refusal, and one with a refusal.
status=0
printf 'ready\nclosed\n' >wanted
"$program" run/f.oc </dev/null >said 2>complained || status=$?
expect "an empty script" "$status" 0

status=0
printf 'ready\nerror class\nclosed\n' >wanted
"$program" run/f.oc <script >said 2>complained || status=$?
expect "a refused line" "$status" 1

# The answers can't be written. With no standard output, they don't get into the container either.
: >wanted
: >said
status=0
"$program" run/g.oc <script >&- 2>complained || status=$?
expect "no standard output" "$status" 4
! grep -qs ready run/g.oc || fail "no standard output: the answers are in the container"

if [ -c /dev/full ]; then
    status=0
    "$program" run/f.oc <script >/dev/full 2>complained || status=$?
    expect "a full standard output" "$status" 4
else
    echo "skipped: a full standard output, as there is no /dev/full here"
fi

# The script can't be read.
status=0
echo ready >wanted
"$program" run/f.oc <&- >said 2>complained || status=$?
expect "no standard input" "$status" 5

echo "$count runs ended with their exit codes"
