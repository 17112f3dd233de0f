#!/usr/bin/env bash
# Writes a copy of a static archive in which each function begins at a multiple of 64 bytes: aligned_archive.sh IN OUT
#
# Where a function lies among the lines of the processor's instruction cache can change a loop's time by a tenth and more, and any change
# of the code before it moves it. Two versions of the library are compared by archives written so.
set -euo pipefail
[ $# -eq 2 ] || { echo 'usage: aligned_archive.sh IN OUT' >&2; exit 2; }
in=$(realpath "$1")
out=$(realpath -m "$2")
work=$(mktemp -d)
trap 'rm -rf "$work"' EXIT
cd "$work"
ar x "$in"
for object in *.o; do
    sections=()
    for name in $(objdump -h "$object" | awk '$2 ~ /^\.text/ { print $2 }'); do sections+=(--set-section-alignment "$name=64"); done
    objcopy "${sections[@]}" "$object"
done
rm -f "$out"
ar rcs "$out" ./*.o
