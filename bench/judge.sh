#!/bin/bash
# Times the checker on functions of at most 16 input bits, all of whose input maps are run, and on wider ones, which a
# search decides where known starts don't tell.
#   bash bench/judge.sh [PROGRAM]
# With no program it takes ./stack. For each text it prints the processor seconds of the whole run, the most memory in
# KiB, and the last line of the records.
set -eu
. "$(dirname "$0")/checker.sh"
measure() { # the name $1 of what stands in the file text
    local said
    said=$(env time -q -f '%U s, %M KiB' "$program" < "$text" 2>&1 > "$result" | tail -n 1)
    echo "$1: $said, $(tail -n 1 "$result")"
}
tests() { # a function of $1 with $2 divisions by sums of its parameters and $3 tests behind them
    python3 - "$@" > "$text" <<'PY'
import sys
params, divisions, tests = sys.argv[1], int(sys.argv[2]), int(sys.argv[3])
print(f"int f({params}) {{ int s = 0;")
for k in range(divisions):
    print(f"s += {k + 1} / (a + b + {k % 7});")
for k in range(tests):
    print(f"if (a + b == {k % 11}) s += {k};")
print("return s; }")
PY
}
bytes='unsigned char a, unsigned char b'
tests "$bytes" 30 7
measure '16 input bits, 30 divisions, 7 tests: 21 candidates'
tests "$bytes" 60 7
measure '60 divisions'
tests "$bytes" 30 14
measure '14 tests'
tests '_Bool a, unsigned char b' 30 7
measure '9 input bits'
tests '_Bool a, _Bool b' 30 7
measure '2 input bits'
printf 'int f(unsigned char a, unsigned char b) { int s = 1; for (unsigned char i = 0; i < 0; i++) s = 2; while (a > b) { if (10 / b > a) return 1; break; } switch (a) { case 1: s = 10 / b; case 2: if (b == 0) return 3; default: s = 5; } return s; }' > "$text"
measure 'with loops and a switch, 24 input bits'
printf 'int f(unsigned char a, unsigned char b) { int s = 1; while (a > b) { if (10 / b > a) return 1; break; } switch (a) { case 1: s = 10 / b; case 2: if (b == 0) return 3; default: s = 5; } return s; }' > "$text"
measure 'with a loop and a switch'
wide() { # a function of 64 input bits with $1 sums that may overflow and, behind them, $2 tests, of which $3 are unstable
    python3 - "$@" > "$text" <<'PY'
import sys
sums, tests, unstable = map(int, sys.argv[1:])
print("int f(int a, int b) { int s = 0;")
for k in range(sums):
    print(f"s ^= a + {k + 1};")
for k in range(tests):
    print(f"if (a > 2147483647 - {k + 1}) s ^= {k};" if k < unstable else f"if (b > {k}) s ^= {k};")
print("return s; }")
PY
}
for tests in 3 33 333; do
    wide $((3 * tests)) "$tests" 0
    measure "64 input bits, $((3 * tests)) conditions, $tests tests, none unstable"
    wide $((3 * tests)) "$tests" "$tests"
    measure "64 input bits, $((3 * tests)) conditions, $tests tests, each unstable"
done
