#!/bin/sh
# Runs each script of examples/ on a container of its own. It must say what NAME.says has, and end
# with the exit code in NAME.status, or with 0 where there is no such file.
set -eu
cd "$(dirname "$0")/.."
. checks/lib/program.sh
need diff

count=0
for script in examples/*.script; do
    name=$(basename "$script" .script)
    want=0
    [ ! -e "examples/$name.status" ] || want=$(cat "examples/$name.status")

    status=0
    "$program" "$room/$name.oc" <"$script" >"$room/says" 2>"$room/complains" || status=$?
    diff "examples/$name.says" "$room/says" || fail "$script says something else"
    [ "$status" = "$want" ] || fail "$script ended with $status, and not with $want"
    [ ! -s "$room/complains" ] || fail "$script wrote to the standard error"
    count=$((count + 1))
done
echo "$count examples said what they should"
