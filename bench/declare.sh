#!/bin/bash
# Times the checker on large files of declarations:
#   bash bench/declare.sh [PROGRAM]
# PROGRAM is ./stack where none is named. For each sort of declaration and number of them it prints the seconds of the
# whole run, the memory at most in megabytes, and the summary. Twice as many should take about twice the time.
set -eu
program=${1:-$(dirname "$0")/../stack}
text=$(mktemp)
trap 'rm -f "$text" "$text.out" "$text.time"' EXIT
"$program" </dev/null >/dev/null # (proves and builds it where it isn't built)
run() { # the name $1 of the text
    /usr/bin/env time -f '%e s, %M kB' -o "$text.time" "$program" <"$text" >"$text.out" || true
    echo "$1: $(tail -n 1 "$text.time"); $(tail -n 1 "$text.out")"
}
for count in 250000 500000 1000000; do
    seq -f 'int a%.0f;' "$count" >"$text"
    run "$count objects"
    { echo 'typedef int t0;'; seq "$((count / 2))" | awk '{ print "typedef t" $1 - 1 " t" $1 ";" }'; } >"$text"
    run "a chain of $((count / 2)) typedef names"
    { echo 'typedef int t0;'; seq "$((count / 2))" | awk '{ print "typedef t" $1 - 1 " *t" $1 ";" }'; } >"$text"
    run "a chain of $((count / 2)) pointers"
    { echo 'typedef int t0;'; seq "$((count / 2))" | awk '{ print "typedef t" $1 - 1 " t" $1 "[1];" }'; } >"$text"
    run "a chain of $((count / 2)) arrays"
    { echo 'enum {'; seq -f 'a%.0f,' "$count"; echo '};'; } >"$text"
    run "$count enumerators"
    { echo 'struct s {'; seq -f 'int a%.0f;' "$count"; echo '};'; } >"$text"
    run "$count members"
done
for count in 5000 10000 20000; do
    { printf 'typedef void F(int'; seq 2 "$count" | awk '{ printf ", int" }'; echo ');'
        seq -f 'F f%.0f;' "$((count / 10))"; } >"$text"
    run "$((count / 10)) functions of one type with $count parameters"
    { echo 'struct s {'; seq -f 'int a%.0f;' "$((count * 10))"; echo '}; void f(struct s *p) {'
        seq -f 'p->a%.0f;' "$((count * 7))" "$((count * 7 + count * 3 / 10 - 1))"; echo '}'; } >"$text"
    run "$((count * 3 / 10)) uses of a struct's $((count * 10)) members"
done
