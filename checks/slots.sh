#!/bin/sh
# What a slot store asks of a real file: slots of 40 bytes are written with a commit each 300, and each is fetched once.
# Two syncs make the container and four a commit. At most so many bytes are written: 1.3 times those of the slots,
# 1,024 a page of 126 numbers, and 20 a number, which gets its cell once. Each slot is read once.
set -eu
cd "$(dirname "$0")/.."
. checks/lib/parts.sh

# asks COUNT: so many slots.
asks() {
    rm -f "$room/slots.oc"
    said=$(said_by slots "$1" "$room/slots.oc")
    echo "$said"
    echo "$said" | awk -v count="$1" '{
        commits = int((count + 299) / 300)
        pages = int((count + 125) / 126)
        most = 1.3 * 40 * count + 1024 * pages + 20 * count
        wrong = $5 != 4 * commits + 2 || $7 > most || $10 != 40 * count
    } END { exit NR != 1 || wrong }' || fail "slots $1 ask for something else"
}

asks 300
asks 1000
asks 100000
