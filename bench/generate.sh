#!/bin/bash
# Times the checker on functions that it generates from a number, each twice.
#   bash bench/generate.sh [PROGRAM]
# With no program it takes ./stack. For each run it prints the number, how many functions, the processor seconds, the
# most memory in KiB, and the summary, which is the same at each run.
set -eu
. "$(dirname "$0")/checker.sh"
measure() { # $2 functions by the number $1
    python3 - "$program" "$1" "$2" <<'PY'
import resource, subprocess, sys
program, number, functions = sys.argv[1:]
words = [program, "--generate", number, "--functions", functions]
taken = subprocess.run(words, stdin=subprocess.DEVNULL, capture_output=True, text=True).stdout
used = resource.getrusage(resource.RUSAGE_CHILDREN)
print(f"{number}, {functions}: {used.ru_utime:.2f} s, {used.ru_maxrss} KiB, {taken.strip()}")
PY
}
for number in 1 5 18446744073709551615; do
    for functions in 1 1000; do
        measure "$number" "$functions"
        measure "$number" "$functions"
    done
done
