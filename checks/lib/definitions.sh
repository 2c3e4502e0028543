# Writes the page of the definitions: those of oc_model and oc_machine, in the order of their files.
# Fails where a definition has no sentence above it. Run it at the top.
cat <<'HEAD'
# The definitions, each in a sentence

Every promise is said with these words. The page is made from the files by `make definitions`, and the project's checks refuse one that is behind them. What each file is about stands in [PROOFS.md](PROOFS.md).
HEAD
set --
for crate in oc_model oc_machine; do
    for file in $(awk '/mod / && !/Examples|Rows|declared/ { print $NF }' "crates/$crate/specs/Lib.antt"); do
        set -- "$@" "crates/$crate/specs/$file.antt"
    done
done
awk -f checks/lib/definitions.awk "$@"
