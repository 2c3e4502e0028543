# For the checks of the program, which read this file at their start from the top of the repository.
# It gives `program`, which is built where it isn't yet, and all that begin.sh has.
. checks/lib/begin.sh

program=$PWD/crates/ocdb/out/ocdb
# With no make, the program of `rt ci` serves.
if command -v make >/dev/null; then
    make -s ocdb >/dev/null
elif [ ! -x "$program" ]; then
    skip "there is no make here to build the program with"
fi
