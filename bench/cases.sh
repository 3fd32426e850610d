#!/bin/bash
# Compares what the checker writes, and its status, with files that say what it is (bench/cases/README.md).
#   bash bench/cases.sh [PROGRAM [FOLDER..]]
# PROGRAM is ./stack where none is named, and the FOLDERs of bench/cases are judged, rules, skipped, weights, words and
# wide where none is named. Each FILE.c of a folder is given on standard input, with the words in FILE.words where that
# stands; the output is compared with FILE.records, and the status with FILE.status. Of the folder `wide` the numbers
# of starts become `_` before. It prints the first lines that differ and ends with `N passed, M failed`, and with
# status 1 where one failed or none passed.
set -eu
top=$(cd "$(dirname "${BASH_SOURCE[0]}")/.." && pwd)
program=${1:-$top/stack}
[ $# -lt 1 ] || shift
[ $# -gt 0 ] || set -- judged rules skipped weights words wide
case $program in */*) program=$(realpath "$program") ;; esac
for folder in "$@"; do
    if ! ls "$top/bench/cases/$folder"/*.records >/dev/null 2>&1; then
        echo "bench/cases.sh: bench/cases/$folder has no records" >&2
        exit 2
    fi
done
"$program" </dev/null >/dev/null # (proves and builds it where it isn't built)
found=$(mktemp)
trap 'rm -f "$found"' EXIT
passed=0 failed=0
for folder in "$@"; do
    for file in "$top/bench/cases/$folder"/*.c; do
        base=${file%.c}
        words=()
        [ ! -f "$base.words" ] || read -r -a words <"$base.words"
        status=0
        "$program" ${words[@]+"${words[@]}"} <"$file" >"$found" 2>/dev/null || status=$?
        if [ "$folder" = wide ]; then
            sed -i '/^  hit: /s/=-\{0,1\}[0-9][0-9]*/=_/g; /^  needs /s/=-\{0,1\}[0-9][0-9]*/=_/g' "$found"
        fi
        if [ "$status" = "$(cat "$base.status")" ] && cmp -s "$found" "$base.records"; then
            passed=$((passed + 1))
        else
            failed=$((failed + 1))
            echo "$folder/$(basename "$file"): status $status, wanted $(cat "$base.status")"
            diff "$found" "$base.records" | head -6 || true
        fi
    done
done
echo "$passed passed, $failed failed"
[ "$failed" = 0 ] && [ "$passed" -gt 0 ]
