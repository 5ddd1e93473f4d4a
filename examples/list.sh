#!/usr/bin/env bash
# Builds the program `ketrumbis` and lists an image: that of the laboratory, or the one that is named.
set -euo pipefail
here=$(cd "$(dirname "$0")" && pwd)
image=$(realpath "${1:-$here/laboratory.image}")
log=$(mktemp)
trap 'rm -f "$log"' EXIT
cd "$here/../crates/ketrumbis"
if ! rt run < "$image" 2> "$log"; then
    cat "$log" >&2
    exit 1
fi
echo
echo 'A line for each account: its number; for each account in order, 1 if a session of it can come to act as that one;'
echo 'and its exposure, the rights on entities that it can come to use, in thousandths of all. A fault is 7, part, record.'
