# For the checks that measure, which read this file at their start from the top of the repository.
# It gives `parts`, the program that runs a piece of work of one part, and all that begin.sh has.
. checks/lib/begin.sh
need awk

parts=$PWD/crates/bench_parts/out/bench_parts
[ -x "$parts" ] || skip "the program for measuring isn't built; rt ci leaves it"

# said_by PIECE COUNT FILE: what the piece says of so much work on that file.
said_by() {
    "$parts" "$@" || fail "$1 $2 didn't run"
}
