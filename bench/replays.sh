#!/bin/bash
# Compares what the replay writes, and its status, with files that say what it is (bench/cases/README.md), changes
# scripts, and replays the starts that the checker prints.
#   bash bench/replays.sh [PROGRAM]
# PROGRAM is ./stack-replay where none is named. Each FILE.script of bench/cases/executions is given on standard input
# with FILE.c behind it; the output is compared with FILE.output, standard error with FILE.fault where that stands and
# else with nothing, and the status with FILE.status. In two of these scripts each byte is changed to two others, one at
# a time: the replay must end with a text and status 0, or without one and with status 8 or 9 and its line; 3 to 7 have
# no cause there. Of each report of examples/*.records the start behind `hit:` is replayed over a memory of zeros, with
# the file behind it as `cc -E` makes it; the text must say that it hits what was reported. It prints what differs and
# ends with `N passed, M failed`, and with status 1 where one failed or none passed.
set -eu
top=$(cd "$(dirname "${BASH_SOURCE[0]}")/.." && pwd)
program=${1:-$top/stack-replay}
case $program in */*) program=$(realpath "$program") ;; esac
"$program" </dev/null >/dev/null 2>&1 || true # (proves and builds it where it isn't built)
work=$(mktemp -d)
trap 'rm -rf "$work"' EXIT
passed=0 failed=0

# Replays standard input, and sets `status`; what was written stands in `found` and `told`.
replay() {
    status=0
    "$program" >"$work/found" 2>"$work/told" || status=$?
}

for script in "$top/bench/cases/executions"/*.script; do
    base=${script%.script}
    fault=$base.fault
    [ -f "$fault" ] || fault=/dev/null
    replay < <(cat "$script" "$base.c")
    if [ "$status" = "$(cat "$base.status")" ] && cmp -s "$work/found" "$base.output" &&
        cmp -s "$work/told" "$fault"; then
        passed=$((passed + 1))
    else
        failed=$((failed + 1))
        echo "$(basename "$base"): status $status, wanted $(cat "$base.status")"
        diff "$work/found" "$base.output" | head -6 || true
    fi
done

# Whether the replay ended as it may where nothing is wrong with its words and streams.
ended() {
    case $status in
        0) [ -s "$work/found" ] && [ ! -s "$work/told" ] ;;
        8) [ ! -s "$work/found" ] && echo 'stack: bad script' | cmp -s - "$work/told" ;;
        9) [ ! -s "$work/found" ] && echo 'stack: the run is too long' | cmp -s - "$work/told" ;;
        *) false ;;
    esac
}

for name in 61000 call-writes; do
    base=$top/bench/cases/executions/$name
    size=$(wc -c <"$base.script")
    for ((at = 0; at < size; at++)); do
        byte=$(od -An -tu1 -j "$at" -N 1 "$base.script")
        for other in $((byte ^ 1)) $((byte ^ 128)); do
            {
                head -c "$at" "$base.script"
                printf '%b' "\\0$(printf '%o' "$other")"
                tail -c "+$((at + 2))" "$base.script"
            } >"$work/script"
            replay < <(cat "$work/script" "$base.c")
            if ended; then
                passed=$((passed + 1))
            else
                failed=$((failed + 1))
                echo "$name: byte $at as $other: status $status"
                head -2 "$work/told"
            fi
        done
    done
done

cd "$top"
for records in examples/*.records; do
    file=${records%.records}.c
    cc -E "$file" >"$work/source"
    while IFS=: read -r name line column rest; do
        IFS= read -r hit
        claim=${rest# unstable: }
        function=${claim##* in }
        printf 'function %s\nstart %s\nfill 0\nturns 10\nend\n' "$function" "${hit#  hit: }" >"$work/script"
        replay < <(cat "$work/script" "$work/source")
        if [ "$status" = 0 ] && grep -qxF "hits ${claim% in *} at $name:$line:$column" "$work/found"; then
            passed=$((passed + 1))
        else
            failed=$((failed + 1))
            echo "$name:$line:$column:$rest: status $status"
            head -6 "$work/found"
        fi
    done < <(grep -A 1 ': unstable: ' "$records" | grep -v '^--$')
done
echo "$passed passed, $failed failed"
[ "$failed" = 0 ] && [ "$passed" -gt 0 ]
