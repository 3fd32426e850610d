#!/bin/sh
# Sets the scripts of candidates beside other solvers: z3, and a second one, cvc5 or cvc4, where it is on the path.
#   sh bench/smt.sh PROGRAM FILE..
# Each FILE is preprocessed C, as `./stack-build --collect` keeps it. TIME in the environment is how many seconds a
# solver may take for a script, 10 where it isn't set; MOST is how many candidates of a file are asked of, all where it
# isn't set. For each of these it writes both scripts, `--smt N` and `--smt-hit N`, and asks the solvers. A candidate is
# unstable exactly where its second script can be satisfied and its first can't: so there are as many of these as the
# summary says are unstable; as many more as it says are undecided, and as many fewer as no solver answers in time, may
# differ. The number behind the last candidate has to end with status 8, and nothing written. It ends with status 1 at
# the first script or answer that isn't so, or behind a file whose sums differ; for each file it prints how many
# candidates there were, how many were unstable, and of how many no solver answered.
# Debian's packages: z3, and cvc5 or cvc4. Its boolector (1.5) doesn't read definitions.
set -eu
program=$(realpath "${1:?a program}")
shift
time=${TIME:-10}
command -v z3 >/dev/null || { echo "z3 is missing: apt-get install z3" >&2; exit 2; }
second=
for name in cvc5 cvc4; do
    if [ -z "$second" ] && command -v $name >/dev/null; then second=$name; fi
done
work=$(mktemp -d)
trap 'rm -rf "$work"' EXIT

# What a solver answers of the script: sat, unsat, unknown where it took too long, or what it said against the script.
answer() {
    status=0
    case $1 in
    z3) timeout "$time" z3 -smt2 "$work/script" >"$work/answer" 2>&1 || status=$? ;;
    *) timeout "$time" "$1" --lang smt2 "$work/script" >"$work/answer" 2>&1 || status=$? ;;
    esac
    case $status:$(head -n 1 "$work/answer") in
    0:sat | 0:unsat | 0:unknown) head -n 1 "$work/answer" ;;
    124:*) echo unknown ;;
    *) echo "$1 says $(head -n 1 "$work/answer"), status $status" ;;
    esac
}

# What the solvers answer of the script of a file for a word and a number.
asked() {
    "$program" "$1" "$2" <"$3" >"$work/script" 2>"$work/line" || { echo "no script: $(cat "$work/line")"; return; }
    first=$(answer z3)
    [ -n "$second" ] || { echo "$first"; return; }
    other=$(answer "$second")
    if [ "$first" = unknown ]; then echo "$other"
    elif [ "$other" = unknown ] || [ "$other" = "$first" ]; then echo "$first"
    else echo "z3 $first, $second $other"
    fi
}

# Asks of the candidates of a file, up to a number, and counts those that are unstable and those without an answer.
ask_candidates() {
    found=0
    unanswered=0
    number=1
    while [ "$number" -le "$2" ]; do
        free=$(asked --smt "$number" "$1")
        hit=$(asked --smt-hit "$number" "$1")
        case "$hit:$free" in
        sat:unsat) found=$((found + 1)) ;;
        sat:sat | unsat:unsat | unsat:unknown | unknown:sat) ;;
        sat:unknown | unknown:unsat | unknown:unknown) unanswered=$((unanswered + 1)) ;;
        *) echo "$1: candidate $number: hit: $hit; free: $free"; exit 1 ;;
        esac
        number=$((number + 1))
    done
}

for file; do
    status=0
    "$program" <"$file" >"$work/records" 2>"$work/line" || status=$?
    [ "$status" -le 2 ] || { echo "$file: status $status: $(cat "$work/line")"; exit 1; }
    tail -n 1 "$work/records" | tr -d , >"$work/summary"
    read -r _ _ candidates _ unstable _ undecided _ <"$work/summary"
    if [ -n "${MOST:-}" ] && [ "$candidates" -gt "$MOST" ]; then
        ask_candidates "$file" "$MOST"
        echo "$file: $MOST of $candidates candidates: $found unstable, $unanswered unanswered"
        continue
    fi
    ask_candidates "$file" "$candidates"
    status=0
    "$program" --smt "$number" <"$file" >"$work/script" 2>"$work/line" || status=$?
    [ "$status" -eq 8 ] && [ ! -s "$work/script" ] || { echo "$file: status $status of candidate $number"; exit 1; }
    if [ "$found" -gt $((unstable + undecided)) ] || [ $((found + unanswered)) -lt "$unstable" ]; then
        echo "$file: $found unstable by the solvers, $unanswered unanswered; $unstable unstable, $undecided undecided"
        exit 1
    fi
    echo "$file: $candidates candidates, $found unstable, $unanswered unanswered"
done
