#!/bin/sh
# Each definition has a sentence, and docs/DEFINITIONS.md has it as it stands in the file.
set -eu
cd "$(dirname "$0")/.."
page=$(mktemp)
trap 'rm -f "$page"' EXIT
sh checks/lib/definitions.sh >"$page" || { echo "a definition has no sentence" >&2; exit 1; }
diff docs/DEFINITIONS.md "$page" || { echo "docs/DEFINITIONS.md is behind: make definitions" >&2; exit 1; }
echo "$(grep -c '^- ' "$page") definitions have their sentence"
