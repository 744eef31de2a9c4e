#!/usr/bin/env bash
# Compares the texts that stand in `told` with what tell prints on their folders, byte for byte, and asks that each
# pattern of tests/told/reasons fits a line of some text.
#
#     tests/told.sh [TELL]
#
# TELL is the program, seen from the repository's top: out/tests/tell if not given.
set -euo pipefail
shopt -s nullglob
unset CDPATH
cd -- "$(dirname -- "${BASH_SOURCE[0]}")/.."
tell=${1:-out/tests/tell}
texts=(examples/*/told tests/told/*/told)
differ=0 missing=0

for text in "${texts[@]}"; do
    if ! "$tell" "$(dirname -- "$text")" | diff -- "$text" - >&2; then
        echo "tell differs from $text" >&2
        differ=$((differ + 1))
    fi
done

while IFS= read -r pattern; do
    if ! grep -qE -- "$pattern" "${texts[@]}"; then
        echo "no text has: $pattern" >&2
        missing=$((missing + 1))
    fi
done <tests/told/reasons

echo "${#texts[@]} texts, $differ differ, $missing reasons are missing"
[ "${#texts[@]}" -gt 0 ] && [ "$differ" -eq 0 ] && [ "$missing" -eq 0 ]
