#!/bin/bash
# Runs the checker on hostile texts: large or deep ones, and such as cost far more than their size.
#   bash bench/hostile.sh PROGRAM [WORD..]
# It makes each text and runs the program with 10 seconds of a processor (LIMIT in the environment says another
# number) and 2 GB (not where the program is built with AddressSanitizer, which takes much more). With WORDs only texts
# whose names hold one of them are run. For each it prints the status, the processor seconds, the memory in megabytes,
# `over` where a limit was met (of memory: status 7), `crash` where the status is none of the program's, the name of the
# text, and the last record, or else the last line of standard error. It ends with `N passed, M failed`, and with
# status 1 where one failed or none passed. It wants GNU time.
set -eu
program=$(realpath "${1:?a program}")
shift
wanted=("$@")
limit=${LIMIT:-10}
work=$(mktemp -d)
trap 'rm -rf "$work"' EXIT
memory=2097152
words=()
on_answer=ok
on_refusal=over
! grep -q __asan_init "$program" || memory=unlimited

# Prints a text: $1, then $2 for each number from 0 below $3 in the place of each %d, then $4.
text() {
    awk -v first="$1" -v part="$2" -v count="$3" -v last="$4" '
        BEGIN {
            pieces = split(part, piece, "%d")
            printf "%s", first
            for (k = 0; k < count; k++) {
                printf "%s", piece[1]
                for (place = 2; place <= pieces; place++) printf "%d%s", k, piece[place]
            }
            printf "%s\n", last
        }'
}

# Whether a text of this name is to be run.
is_wanted() {
    [ "${#wanted[@]}" -gt 0 ] || return 0
    for word in "${wanted[@]}"; do
        case $1 in *"$word"*) return 0 ;; esac
    done
    return 1
}

# Runs the program on the file `text`, and sets `status`, `seconds` and `megabytes`.
run() {
    status=0
    (
        ulimit -c 0
        ulimit -t "$((limit + 1))"
        ulimit -v "$memory"
        exec env time -q -o "$work/time" -f '%U %S %M' timeout "$((20 * limit))" "$program" "${words[@]}" <"$work/text"
    ) >"$work/out" 2>"$work/errors" || status=$?
    # shellcheck disable=SC2046 # These are three numbers.
    set -- $(tail -n 1 "$work/time")
    seconds=$(echo "$1 $2" | awk '{ printf "%.2f", $1 + $2 }')
    megabytes=$(($3 / 1024))
}

# Runs the program on the text of standard input with the name $1, and prints its row.
hostile() {
    is_wanted "$1" || return 0
    cat >"$work/text"
    run
    case $status in
        [0-6]) verdict=$on_answer ;;
        7) verdict=$on_refusal ;;
        124 | 137 | 152) verdict=over ;;
        *) verdict=crash ;;
    esac
    [ "$verdict" != ok ] || [ "${seconds%.*}" -lt "$limit" ] || verdict=over
    echo "$verdict" >>"$work/verdicts"
    said=$(tail -n 2 "$work/out" | sed -n -e '1s/.*: skipped: /skipped: /p' -e '$s/, 0 [a-z]*//gp' | paste -sd ' ')
    [ -n "$said" ] || said=$(tail -n 1 "$work/errors")
    printf '%4d %8s s %6d MB  %-5s  %s: %s\n' "$status" "$seconds" "$megabytes" "$verdict" "$1" "$said"
}

# The same of a text whose types are too large to be compared, which is to be refused with status 7.
refused() {
    on_answer=over
    on_refusal=ok
    hostile "$1"
}

# The same with a budget of $1 learned clauses for each question.
within() {
    words=(--budget "$1")
    hostile "$2"
}

# --- Declarations ---

# Function types over pointers to the one before, twice: the type of the last one has two to the $1 parameters in it.
doubling() {
    echo 'typedef int F0(int);'
    seq "$1" | awk '{ printf "typedef int F%d(F%d *, F%d *);\n", $1, $1 - 1, $1 - 1 }'
}

text 'int f(int a' ', int a%d' 65534 ') { return a; }' | hostile 'a definition of 65,535 parameters'
text 'int f(int a' ', int a%d' 65534 ');' | hostile 'a declaration of 65,535 parameters'
twice() {
    doubling "$1" && echo "extern F$1 f;" && echo "extern F$1 f;"
}
for lines in 16 20 26 64; do
    doubling "$lines" | hostile "a chain of $lines function types that double"
done
for lines in 16 20 26; do
    twice "$lines" | hostile "a chain of $lines function types that double, and the last one declared twice"
done
twice 64 | refused 'a chain of 64 function types that double, and the last one declared twice'
text 'extern int a' ', a' 99999 ';' | hostile '100,000 declarators of one object'
text 'extern int f(int)' ', f(int)' 99999 ';' | hostile '100,000 declarators of one function'
{
    text 'typedef int F(int a' ', int a%d' 999 ');'
    text 'extern F f' ', f' 99999 ';'
} | hostile '100,000 declarators of one function of 1,000 parameters'
{
    text 'typedef int F(int a' ', int a%d' 9999 ');'
    text 'struct s { int a; ' 'F *m%d;' 9999 '};'
} | hostile '9,999 members of one type of 10,000 parameters'

# --- Structs and initialisers ---

text 'struct s { int a; }; struct t {' 'struct s m%d;' 65535 '};' | hostile 'a struct of 65,535 members of structs'
{
    text 'struct s { int a; }; struct t {' 'struct s m%d;' 65535 '};'
    text 'int f(struct t *p) { int s = 0;' 's += p->m%d.a;' 1000 'return s + p->m65534.a; }'
} | hostile 'a struct of 65,535 members of structs, and 1,001 uses of them'
{
    text 'struct s { int a; }; struct t {' 'struct s m%d;' 65535 '};'
    text '' 'int f%d(struct t *p) { return p->m65534.a + p->m65533.a; }' 2000 ''
} | hostile 'a struct of 65,535 members of structs, and 2,000 functions that use the last two'
text 'struct s0 { int a; };' 'struct t%d { struct s0 m; struct s0 n[9]; }; ' 100000 '' |
    hostile '100,000 structs'
text 'int a[] = {' '%d,' 1000000 '};' | hostile 'an initialiser with 1,000,000 items'
text 'struct s { int x; int y; }; struct s a[] = {' '{ .x = %d },' 300000 '};' |
    hostile 'an initialiser of 300,000 structs'
text 'enum e {' 'a%d = %d,' 500000 '};' | hostile '500,000 enumerators with values'

# --- Bodies ---

# A chain of $2 times $3 in front of an `a`, which are $1, and $4 chains of $5 times that.
chain() {
    text 'int f(int a, int b) { return ' "$3" "$2" 'a; }' | hostile "a chain of $2 $1"
    text 'int f(int a, int b) { int s = 0;' "s += $(text '' "$3" "$5" 'a;')" "$4" 'return s; }' |
        hostile "$4 chains of $5 $1"
}
chain 'sums' 9480 'a + ' 12 380
chain 'choices' 6300 'b ? a : ' 12 380
chain 'conjunctions' 9480 'b && ' 12 380
chain 'casts' 6300 '(long)' 8 380
chain 'products' 9480 'b * ' 1 200
text 'int f(int a) { int i = 0;' 'for (i = 0; i < a; i++) ' 395 'a--; return a; }' | hostile '395 nested loops'
text 'int f(int a) { int i = 0;' 'while (a > i) { int i%d = a; ' 195 "a--; $(text '' '}' 195 '') return a; }" |
    hostile '195 nested loops with a local each'
text 'int f(int a) { int i = 0;' 'if (a > i) while (a / (i + 3) > i) ' 195 'a--; return a; }' |
    hostile '195 nested loops with a division and a test each'
text 'int f(int a) {' 'if (a == %d) { a++; ' 195 "a--; $(text '' '}' 195 '') return a; }" | hostile '195 nested tests'
text 'int f(int a, int b) { int s = 0; switch (a) {' 'case %d: s = b;' 2800 '} return s; }' |
    hostile 'a switch of 2,800 labels, each with an assignment'
text 'int f(int a) { switch (a) {' 'case %d: break;' 3000 '} return a; }' |
    hostile 'a switch of 3,000 labels, each with a break'
text 'int f(int a) { switch (a) {' 'case %d: ' 6000 'a = 1; } return a; }' |
    hostile 'a switch of 6,000 labels of one section'
text 'int f(int a, int b) { int s = 0;' 'int v%d = a + %d; ' 1900 'if (s) s = b; return s; }' | hostile '1,900 locals'
text 'int f(int *p) { int s = 0;' 's += p[%d]; ' 1000 'return s; }' | hostile '1,000 loads'

# --- What is decided ---

text '' 'int f%d(unsigned char a, unsigned char b) { if (a / (b + 1) == %d) return a; return b; }' 9000 '' |
    hostile '9,000 functions of 16 input bits, whose candidates are clear'
text '' 'int f%d(unsigned char a, unsigned char b) { int c = a / b; if (b == 0) return 1; return c + %d; }' 150 '' |
    hostile '150 functions of 16 input bits with reports, all of whose maps are run'
text '' 'int f%d(unsigned char a) { if (100 / a == %d) return a; return 1; }' 9000 '' |
    hostile '9,000 functions of 8 input bits'
hard='if ((a + b + %d) * (a - b) != a * a - b * b + %d * (a - b)) s++; '
text 'int f(unsigned long a, unsigned long b) { int s = 0;' "$hard" 14 'return s; }' |
    within 100 'the greatest weight: 14 tests that no input meets, of four products each, with a budget of 100'
sums='if ((a + %d) + (b - %d) != (a ^ b) + (a & b) + (a & b)) s++; '
text 'int f(unsigned long a, unsigned long b) { int s = 0;' "$sums" 320 'return s; }' |
    hostile 'the greatest weight: 320 tests that no input meets, of sums'
easy='if (a + %d < b) s++; '
text 'int f(int a, int b) { int s = 0;' "$easy" 1000 'return s; }' | hostile '1,000 tests of sums'
text 'int f(int a, int b) { int s = 0;' "s ^= a / (b + %d); if (b == -%d) s++; " 160 'return s; }' |
    hostile '160 unstable tests behind 160 divisions'
text 'int f(int *p, int a) { int s = 0;' "s += p[a + %d]; if (p + a < p) s++; " 100 'return s; }' |
    hostile '100 tests behind 100 loads'
text 'int f(int a) { int i; int s = 0;' 'for (i = a; i < %d; i++) if (i + %d < i) s++; ' 400 'return s; }' |
    hostile '400 loops with an unstable test each'
text '' '# 1 "a%d.c"
int f%d(int x) { return x; }
' 390000 '' | head -c 16777216 | hostile '16 MiB of line markers, each with a function behind it'
text '' '# 1 "a"
' 1864135 '' | hostile '16 MiB of line markers'

touch "$work/verdicts"
passed=$(grep -c ok "$work/verdicts" || :)
failed=$(grep -cv ok "$work/verdicts" || :)
echo "$passed passed, $failed failed"
[ "$failed" = 0 ] && [ "$passed" -gt 0 ]
