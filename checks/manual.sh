#!/bin/sh
# Runs the scripts of docs/MANUAL.md. Behind each block of a script stands the block of what it says.
set -eu
cd "$(dirname "$0")/.."
. checks/lib/program.sh
need awk diff

# Writes the blocks to 1.script, 1.says, 2.script and so on.
awk -v room="$room" '
    /^```script$/ { n++; block = room "/" n ".script"; next }
    /^```says$/ { block = room "/" n ".says"; next }
    /^```/ { block = ""; next }
    block { print > block }
' docs/MANUAL.md

count=0
for script in "$room"/*.script; do
    says="${script%.script}.says"
    [ -e "$says" ] || fail "a script of the manual says nothing: $(cat "$script")"
    status=0
    "$program" "$room/manual.oc" <"$script" >"$room/said" || status=$?
    diff "$says" "$room/said" || fail "a script of the manual says something else"
    # An error line, and it alone, makes the exit code 1.
    want=0
    ! grep -q '^error ' "$says" || want=1
    [ "$status" = "$want" ] || fail "a script of the manual ended with $status"
    count=$((count + 1))
done
[ "$count" -gt 0 ] || fail "the manual has no script"
echo "$count scripts of the manual said what they should"
