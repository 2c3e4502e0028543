# For the checks, which read this file, or one that reads it, at their start from the top of the repository.
# It gives `room`, a folder that is removed at the end.

# Ends a check whose tool is missing.
skip() {
    echo "skipped: $*"
    exit 0
}

need() {
    for tool in "$@"; do
        command -v "$tool" >/dev/null || skip "there is no $tool here"
    done
}

fail() {
    echo "FAILED: $*" >&2
    exit 1
}

room=$(mktemp -d)
trap 'rm -rf "$room"' EXIT
trap 'exit 1' HUP INT TERM
