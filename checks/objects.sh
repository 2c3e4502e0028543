#!/bin/sh
# What an object store asks of a real file: objects of 32 bytes with an indexed number are stored with a commit each 100,
# and the store is attached again. Two syncs make the container and four a commit. At most so many bytes are written: 5
# times those of the records where the numbers ascend, 32 times where they are scattered. An opening reads what the pages,
# the catalog and the segments have, some 24 bytes an object: two entries of 8 bytes and a cell of 8; of the records it
# reads none.
set -eu
cd "$(dirname "$0")/.."
. checks/lib/parts.sh

# asks PIECE COUNT TIMES: so many objects, with at most TIMES the bytes of their records written.
asks() {
    rm -f "$room/objects.oc"
    said=$(said_by "$1" "$2" "$room/objects.oc")
    echo "$said"
    echo "$said" | awk -v count="$2" -v times="$3" '{
        commits = int((count + 99) / 100)
        wrong = $5 != 4 * commits + 2 || $7 > times * 32 * count || $10 != 0
    } END { exit NR != 1 || wrong }' || fail "$1 $2 ask for something else"
    said=$(said_by opened "$2" "$room/objects.oc")
    echo "$said"
    echo "$said" | awk -v count="$2" '{
        wrong = $3 != 0 || $7 != 0 || $10 > 25 * count + 10000
    } END { exit NR != 1 || wrong }' || fail "opened $2 asks for something else"
}

asks objects 1000 5
asks objects_scattered 1000 32
asks objects 100000 5
asks objects_scattered 100000 32
