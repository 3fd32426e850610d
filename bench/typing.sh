#!/bin/bash
# Times the checker on functions whose bodies it types and doesn't judge: large bodies, and many functions.
#   bash bench/typing.sh [PROGRAM]
# With no program it takes ./stack. For each text it prints the processor seconds of the whole run, reading and
# declaring included, and the last line of the records.
set -eu
. "$(dirname "$0")/checker.sh"
measure() { # the name $1 of what stands in the file text
    local TIMEFORMAT=%U took
    took=$( { time "$program" < "$text" > "$result" 2> /dev/null; } 2>&1 )
    echo "$1: $took s, $(tail -n 1 "$result")"
}
distinct() { # a text that begins with $1, goes on with $2 for each number below $3 in the place of %d, and ends with $4
    python3 -c 'import sys; b, f, n, e = sys.argv[1:]; sys.stdout.write(b + "".join(f.replace("%d", str(k)) for k in range(int(n))) + e)' "$@" > "$text"
}
distinct 'void f(void) {' ';' 19996 '}'
measure '19,996 times ;'
distinct 'void f(void) {' ';' 19997 '}'
measure '19,997 times ;, which is too large'
distinct 'void f(void) {' 'int a%d;' 9998 '}'
measure '9,998 locals'
distinct 'void f(int x) { int *p;' 'int a%d; p = &a%d;' 2500 '}'
measure '2,500 locals whose address is taken'
distinct 'void f(int x) { switch (x) {' 'case %d: ;' 6600 '}}'
measure '6,600 cases'
distinct '' 'int f%d(int x) { int y = x; return y + 1; }' 50000 ''
measure '50,000 functions'
distinct '' 'int f%d(int x) { int y = x; return y + 1; }' 100000 ''
measure '100,000 functions'
