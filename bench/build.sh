#!/bin/bash
# Tests ./stack-build and ./stack-show on builds of small trees, with a stand-in for the checker that reports each line
# `if (NAME + 1 < NAME)`; what the checker says isn't tested here. The launchers ./stack, ./stack-audit and
# ./stack-replay are tested with programs that stand in for what they build.
#   bash bench/build.sh [PROGRAM [ZLIB]]
# With PROGRAM, the checker, the files of examples/ are compiled under it too. ZLIB is a folder with the sources of zlib
# (Debian's source package): its `./configure && make` is run with and without the wrappers, with PROGRAM or else the
# stand-in. What clang, ccache, GNU parallel with rsync and script are wanted for is left out where there is none; ssh
# is a stand-in that runs commands on this machine. It prints the name of each test that fails, with what that printed,
# and of each that is left out, and ends with `N passed, M failed`, and with status 1 where one failed or none passed.
set -u
top=$(cd "$(dirname "${BASH_SOURCE[0]}")/.." && pwd)
program=${1:+$(realpath "$1")}
zlib=${2:+$(realpath "$2")}
work=$(mktemp -d)
trap 'rm -rf "$work"' EXIT
work=$(cd "$work" && pwd -P)
unset CC CFLAGS MAKEFLAGS MAKELEVEL NO_COLOR
export TERM=xterm CCACHE_DIR=$work/ccache LC_ALL=C

# --- What the tests share ---

# The stand-in, in a folder whose name has a blank. It ends with status 7 where a text has `fails_here`, is killed where
# it has `is_killed_here`, waits half a minute where it has `waits_here`, and until it is killed where it has
# `is_deaf_here`; --without is its only word, which it notes.
make_checker() {
    mkdir -p "$work/the tools" && cat >"$work/the tools/checker" <<'EOF'
#!/bin/sh
if [ $# -gt 0 ]; then
    [ "$1" = --without ] || exit 3
    printf '%s\n' "$@" >>"$(dirname "$0")/words"
fi
text=$(cat; echo x)
case $text in
    *fails_here*) echo "no memory" >&2; exit 7 ;;
    *is_killed_here*) kill -KILL $$ ;;
    *is_deaf_here*) trap "" TERM; while :; do sleep 1; done ;;
    *waits_here*)
        touch "$(dirname "$0")/waits"
        sleep 30
        ;;
esac
printf '%s' "${text%x}" | awk '
    /^# [0-9]+ "/ {
        line = $2 - 1
        match($0, /"([^"\\]|\\.)*"/)
        file = substr($0, RSTART + 1, RLENGTH - 2)
        gsub(/\\/, "", file)
        next
    }
    { line++ }
    /^(static )?int [a-z_]+\(/ { functions++; name = $0; sub(/\(.*/, "", name); sub(/.* /, "", name) }
    /^union / { skipped++; print file ":" line ":1: skipped: no tree" }
    match($0, /[a-z]+ \+ 1 < [a-z]+/) {
        unstable++
        print file ":" line ":" RSTART ": unstable: always false in " name
        print "  hit: x=0"
        print "  needs signed overflow at " file ":" line ":" RSTART "; without it: x=0"
    }
    END {
        printf "%d functions, %d candidates, ", functions, 2 * functions
        printf "%d unstable, 0 undecided, %d skipped\n", unstable, skipped
        exit unstable > 0
    }'
EOF
    chmod +x "$work/the tools/checker"
    checker="$work/the tools/checker"
}

# Writes a function that the stand-in reports, or doesn't.
unstable() {
    printf 'int %s(int x) {\n    if (x + 1 < x) return 1;\n    return 0;\n}\n' "$1"
}
stable() {
    printf 'int %s(int x) {\n    return x;\n}\n' "$1"
}

# Makes a tree of two folders with a header that both include.
# shellcheck disable=SC2016 # The variables are those of make.
make_tree() {
    mkdir -p tree/first tree/second tree/include
    {
        unstable wraps | sed 's/^int/static int/'
        printf 'union pair {\n    int left, right;\n};\n'
    } >tree/include/shared.h
    { printf '#include "shared.h"\n' && unstable one && printf 'int main(void) { return one(0) + wraps(0); }\n'; } \
        >tree/first/one.c
    { printf '#include "../include/shared.h"\n' && stable two; } >tree/second/two.c
    { printf '#include "shared.h"\n' && unstable three; } >tree/second/three.c
    printf 'all:\n\t$(MAKE) -C first\n\t$(MAKE) -C second\n' >tree/Makefile
    printf 'all: one\none: one.c\n\t$(CC) -O2 -g -MD -I../include one.c -o one\n' >tree/first/Makefile
    printf '%s\n' 'all: liball.a' 'CFLAGS = -O2 -MMD -MF $*.dep -I ../include' 'liball.a: two.o three.o' \
        '	ar rcD liball.a two.o three.o' >tree/second/Makefile
}

# Runs ./stack-build with the stand-in, from the current folder; the summary goes to the file `summary`.
stack_build() {
    "$top/stack-build" --checker "$checker" "$@" 2>summary
}

# Fails, and says where, if a command's status isn't what is wanted.
ends_with() {
    local wanted=$1 status=0
    shift
    "$@" || status=$?
    [ "$status" = "$wanted" ] || { echo "status $status, wanted $wanted: $*" && cat summary && return 1; }
}

# Fails, and shows the difference, if a file isn't what stands on standard input.
holds() {
    diff -u - "$1"
}

# The checksums of all products of a folder.
products() {
    (cd "$1" && find . -type f -print0 | LC_ALL=C sort -z | xargs -0 cksum)
}

# The names of the files that have records.
checked_files() {
    for file in "${1:-stack-out}"/records/*.txt; do
        [ ! -e "$file" ] || cat "${file%.txt}.file"
    done | LC_ALL=C sort
}

# --- Tests of the wrappers ---

test_words_that_are_not_legal() {
    ends_with 64 stack_build
    ends_with 64 stack_build make
    ends_with 64 stack_build --
    ends_with 64 stack_build -- --
    ends_with 64 stack_build -- --without overflow
    ends_with 64 stack_build --seconds none -- true
    ends_with 64 stack_build --collect some --status -- true
    ends_with 64 stack_build --baseline missing -- true
    ends_with 64 stack_build -- --json -- true
    ends_with 64 stack_build -- --strange -- true
    mkdir other && touch other/thing
    ends_with 64 stack_build --out other -- true
    [ "$(ls other)" = thing ]
}

test_statuses() {
    ends_with 0 stack_build -- true
    ends_with 5 stack_build -- sh -c 'exit 5'
    ends_with 127 stack_build -- no_such_command
    printf '#!/bin/sh\nexit 9\n' >broken && chmod +x broken
    checker=$PWD/broken
    ends_with 70 stack_build -- touch built
    [ ! -e built ]
}

# The launcher beside the script runs once, and then what it built.
test_the_checker_beside_the_script() {
    mkdir -p copy/.built
    cp "$top/stack-build" copy
    printf '#!/bin/sh\necho run >>runs\nln -s "%s" copy/.built/stack\n' "$checker" >copy/stack
    chmod +x copy/stack
    unstable f >a.c
    ends_with 0 copy/stack-build -- gcc -c a.c 2>summary
    echo run | holds runs
    [ -s stack-out/reports.txt ]
}

test_words_for_the_checker() {
    stable f >a.c
    stack_build -- --without "null,a b'c" -- cc -c a.c
    printf '%s\n' --without "null,a b'c" --without "null,a b'c" | holds "$work/the tools/words"
}

test_a_parallel_make() {
    make_tree
    make -C tree -j4 >/dev/null
    products tree >plain
    rm -rf tree && make_tree
    stack_build --out 'the results' -- make -C tree -j4 >/dev/null
    products tree | holds plain
    holds 'the results/reports.txt' <<'EOF'
tree/first/one.c:3:9: unstable: always false in one
  hit: x=0
  needs signed overflow at tree/first/one.c:3:9; without it: x=0
tree/include/shared.h:2:9: unstable: always false in wraps
  hit: x=0
  needs signed overflow at tree/include/shared.h:2:9; without it: x=0
tree/second/three.c:3:9: unstable: always false in three
  hit: x=0
  needs signed overflow at tree/second/three.c:3:9; without it: x=0
EOF
    sed -i 's/ in [0-9]* seconds$/ in N seconds/' summary
    holds summary <<EOF
stack-build: 3 files checked, 0 failed, 0 timed out, in N seconds
stack-build: 7 functions, 14 candidates, 3 unstable, 0 undecided, 1 skipped
stack-build: the reports are in $PWD/the results/reports.txt
EOF
    printf 'tree/%s\n' first/one.c second/three.c second/two.c >names
    checked_files 'the results' | holds names
}

test_a_file_that_does_not_compile() {
    stable good >good.c
    echo 'int bad(void) { return; ' >bad.c
    printf 'all: good.o bad.o\n' >Makefile
    ends_with 2 stack_build -- make -k >/dev/null 2>&1
    echo good.c >names
    checked_files | holds names
    grep -q '^stack-build: 1 files checked, 0 failed, 0 timed out' summary
}

test_names_with_blanks() {
    mkdir 'a folder'
    unstable f >"a folder/it's \"a\" file.c"
    stack_build --out "an 'out'" -- gcc -c "a folder/it's \"a\" file.c" -o "a folder/an object.o"
    [ -s "a folder/an object.o" ]
    echo "a folder/it's \"a\" file.c" >names
    checked_files "an 'out'" | holds names
    grep unstable "an 'out'/reports.txt" >found
    echo "a folder/it's \"a\" file.c:2:9: unstable: always false in f" | holds found
}

test_files_elsewhere() {
    mkdir run 'other "folder"' 'other "folder"/deep'
    unstable f >'other "folder"/a.h'
    echo '#include "../a.h"' >'other "folder"/deep/a.c'
    cd run
    stack_build -- sh -c 'cd ../other*/deep && gcc -c a.c'
    echo "$work/test_files_elsewhere/other \"folder\"/deep/a.c" >names
    checked_files | holds names
    grep unstable stack-out/reports.txt >found
    echo "$work/test_files_elsewhere/other \"folder\"/a.h:2:9: unstable: always false in f" | holds found
}

# Words that write files, or change what -E writes.
test_words_of_the_compiler() {
    local words
    printf '#include "b.h"\n#if !defined MADE || !defined TOO\n#error\n#endif\n' >a.c
    unstable f >>a.c
    echo 'typedef int made;' >b.h
    echo '#define C_TOO' >c.h
    for words in '-o a.o' '-oa.o' '-MD' '-MMD -MFa.d -MT x' '-MD -MP -MF a.d -MQ x' '-Wp,-MD,a.d' \
        '-Wp,-DX,-MMD,a.d,-DY' '-save-temps' '-include c.h' '-I . -include ./c.h -DX=1 -D Y -U Z' '-dD -P -C' \
        '-xc' '-x c -std=gnu11' '-Wall -Werror -lm' '-Xlinker -E' '-Wl,-E -L .' '-fstack-usage -fdump-tree-all'; do
        mkdir products && cp a.c b.h c.h products
        # shellcheck disable=SC2086
        (cd products && gcc -DMADE -Wp,-DTOO -c $words a.c)
        products products >plain
        rm -rf products && mkdir products && cp a.c b.h c.h products
        # shellcheck disable=SC2086
        (cd products && stack_build --out ../out -- gcc -DMADE -Wp,-DTOO -c $words a.c)
        mv products/summary .
        products products | holds plain || { echo "with $words" && return 1; }
        [ "$(checked_files out)" = a.c ] || { echo "not checked with $words" && cat out/failed.txt && return 1; }
        head -n 1 out/reports.txt >found
        echo "a.c:6:9: unstable: always false in f" | holds found
        rm -rf products
    done
}

test_dependencies_by_the_environment() {
    stable f >a.c
    DEPENDENCIES_OUTPUT=$PWD/plain gcc -c a.c
    DEPENDENCIES_OUTPUT=$PWD/made stack_build -- gcc -c a.c
    holds made <plain
}

test_compiling_and_linking() {
    unstable f >a.c
    { unstable g && echo 'int main(void) { return g(1); }'; } >b.c
    stack_build -- gcc a.c -O b.c -o both
    ./both
    printf '%s\n' a.c b.c >names
    checked_files | holds names
}

test_other_languages_by_word() {
    unstable f >a.text
    unstable g >b.i
    stack_build -- gcc -c -x c a.text -x none b.i
    printf '%s\n' a.text b.i >names
    checked_files | holds names
    cp a.text a.c
    stack_build -- sh -c 'gcc -c -x c++ a.c; gcc -x assembler -c /dev/null -o a.o'
    [ -z "$(checked_files)" ]
}

test_calls_that_are_left_alone() {
    unstable f >a.c
    echo '-c a.c -o response.o' >words
    stack_build -- sh -c 'gcc -E a.c >a.i; gcc -S a.c; gcc -M a.c >a.d; gcc -MM a.c >a.d; gcc -c a.s; gcc -x c -c - <a.c
        gcc -fsyntax-only a.c; gcc -### -c a.c 2>a.d; gcc --version >a.d; ld -r a.o -o b.o; gcc @words'
    [ -s response.o ]
    [ -s b.o ]
    [ -z "$(checked_files)" ]
    echo "$PWD: @words" | holds stack-out/alone.txt
    grep -q "^stack-build: calls with a response file were left alone" summary
}

test_the_input_of_the_compiler() {
    echo 'int f(void) { return 7; }' | stack_build -- gcc -x c -c - -o a.o
    [ -s a.o ]
}

# A stand-in for ccache that keeps one object for all, so that a second call runs no compiler.
make_ccache() {
    mkdir -p tools && cat >tools/ccache <<'EOF'
#!/bin/sh
case " $* " in
    *" -E "*) exec "$@" ;;
esac
if [ -e "$KEPT" ]; then cp "$KEPT" a.o; else "$@" && cp a.o "$KEPT"; fi
EOF
    chmod +x tools/ccache
}

# Builds one file twice by make with these words, each time with its report.
builds_twice() {
    unstable f >a.c
    for round in first second; do
        rm -f a.o
        stack_build --out $round -- make "$@" a.o >/dev/null
        [ -s a.o ]
        [ "$(checked_files $round)" = a.c ]
    done
}

test_ccache_by_the_environment() {
    make_ccache
    export KEPT=$PWD/kept PATH=$PWD/tools:$PATH
    CC="ccache gcc" builds_twice
}

test_ccache_by_a_word_of_make() {
    make_ccache
    export KEPT=$PWD/kept PATH=$PWD/tools:$PATH
    builds_twice CC="ccache gcc"
}

test_ccache_itself() {
    command -v ccache >/dev/null || return 77
    CC="ccache gcc" builds_twice
    ccache -s | grep -q 'Hits: *1 '
}

test_a_compiler_by_its_path() {
    # shellcheck disable=SC2016
    printf '#!/bin/sh\necho "$0" >>calls\nexec %s "$@"\n' "$(command -v gcc)" >special
    chmod +x special
    unstable f >a.c
    CC="$PWD/special -O2" stack_build -- make a.o >/dev/null
    [ -s a.o ]
    [ "$(checked_files)" = a.c ]
    printf '%s\n' "$PWD/special" "$PWD/special" | holds calls
    stack_build -- make -B CC="$PWD/special" a.o >/dev/null
    [ -z "$(checked_files)" ]
    grep -q "since it names a path" summary
}

test_clang() {
    command -v clang >/dev/null || return 77
    { unstable f && echo 'int main(void) { return f(0); }'; } >a.c
    stack_build -- clang -g -Werror -Wl,-E -MJ a.json a.c -lm
    grep -q '"output"' a.json
    ./a.out
    [ "$(checked_files)" = a.c ]
    head -n 1 stack-out/reports.txt >found
    echo "a.c:2:9: unstable: always false in f" | holds found
}

# --- Tests of failures ---

test_a_checker_that_fails() {
    { stable f && echo 'int fails_here;'; } >a.c
    { stable g && echo 'int waits_here;'; } >b.c
    stable h >c.c
    { stable i && echo 'int is_killed_here;'; } >d.c
    { stable j && echo 'int is_deaf_here;'; } >e.c
    printf 'all: a.o b.o c.o d.o e.o\n' >Makefile
    stack_build --seconds 5 -- make -j5 >/dev/null
    for name in a b c d e; do
        [ -s $name.o ]
    done
    grep -q '^stack-build: 1 files checked, 2 failed, 2 timed out' summary
    sort stack-out/failed.txt >failed
    holds failed <<'EOF'
a.c: the checker ended with status 7: no memory
b.c: timed out after 5 seconds
d.c: the checker ended with status 137
e.c: timed out after 5 seconds
EOF
    [ -z "$(find stack-out -name 'part*')" ]
}

# An interrupt from the terminal, which reaches all but what the checker's timeout runs, while a file is checked. (It's
# no make that is interrupted: one that loses its child to the signal ends with a status of its own.)
test_an_interrupt() {
    [ -z "$(trap -p INT)" ] || return 77 # (it's ignored)
    stable f >a.c
    { stable g && echo 'int waits_here;'; } >b.c
    (while [ ! -e "$work/the tools/waits" ]; do sleep 0.2; done && kill -INT -- "-$(cat group)") &
    # shellcheck disable=SC2016
    ends_with 130 setsid -w sh -c 'echo $$ >group && exec "$@" >/dev/null 2>summary' sh \
        "$top/stack-build" --checker "$checker" -- sh -c 'gcc -c a.c && gcc -c b.c'
    grep -q '^stack-build: 1 files checked, 0 failed, 0 timed out' summary
    sleep 1
    ! pgrep -f "$checker" && [ -z "$(find stack-out -name 'part*')" ]
}

test_a_file_that_goes() {
    printf '#!/bin/sh\ngcc "$@" || exit\ncase " $* " in *" -E "*) ;; *) rm a.c ;; esac\n' >special && chmod +x special
    stable f >a.c
    CC=$PWD/special stack_build -- make a.o >/dev/null
    [ -s a.o ]
    grep -q '^stack-build: 0 files checked, 1 failed, 0 timed out' summary
    grep '^a.c: the preprocessor ended with status 1: .*a.c' stack-out/failed.txt
}

test_results_that_cannot_be_written() {
    unstable f >a.c
    stack_build -- sh -c 'rm -rf stack-out/records; gcc -c a.c'
    [ -s a.o ]
}

test_an_earlier_run() {
    unstable f >a.c
    stack_build -- gcc -c a.c
    [ "$(checked_files)" = a.c ]
    touch stack-out/mine
    stack_build -- true
    [ -z "$(checked_files)" ]
    [ -e stack-out/mine ]
    [ ! -s stack-out/reports.txt ]
}

test_wrappers_behind_a_run() {
    unstable f >a.c
    stack_build -- true
    stack-out/bin/gcc -c a.c
    [ -s a.o ]
    [ -z "$(checked_files)" ]
}

test_a_file_twice() {
    unstable f >a.c
    printf '#!/bin/sh\necho run >>"%s/runs"\nexec "%s"\n' "$PWD" "$checker" >counting && chmod +x counting
    checker=$PWD/counting
    stack_build -- sh -c 'gcc -c a.c; gcc -fPIC -O2 -c a.c'
    printf 'run\nrun\n' | holds runs # (the first is that of an empty text, before the command)
    stack_build -- sh -c 'gcc -c a.c; echo "int g;" >>a.c; gcc -c a.c'
    printf 'a.c\na.c\n' >names
    checked_files | holds names
    [ "$(grep -c unstable stack-out/reports.txt)" = 1 ]
}

# --- Tests of the summary ---

test_status_by_reports() {
    unstable f >a.c
    stable g >b.c
    ends_with 1 stack_build --status -- gcc -c a.c
    ends_with 0 stack_build --status -- gcc -c b.c
    ends_with 3 stack_build --status -- sh -c 'gcc -c a.c; exit 3'
    ends_with 0 stack_build -- gcc -c a.c
}

test_a_baseline() {
    { unstable f && unstable g; } >a.c
    unstable f >"it's.c"
    stack_build --write-baseline known -- gcc -c a.c "it's.c"
    holds known <<'EOF'
a.c: always false in f: if (x + 1 < x) return 1;
a.c: always false in g: if (x + 1 < x) return 1;
it's.c: always false in f: if (x + 1 < x) return 1;
EOF
    { printf '\n\n' && cat a.c; } >b.c && mv b.c a.c
    ends_with 0 stack_build --status --baseline known -- gcc -c a.c
    grep -q ' 0 unstable' summary
    grep -q '^stack-build: 2 reports are in the baseline' summary
    [ ! -s stack-out/reports.txt ]
    [ "$(grep -c unstable stack-out/known.txt)" = 2 ]
    unstable h >>a.c
    sed -i '4s/if (x + 1 < x)/if  (x + 1 < x) if (x + 1 < x)/' a.c
    ends_with 1 stack_build --status --baseline known --write-baseline known -- gcc -c a.c
    grep unstable stack-out/reports.txt >found
    holds found <<'EOF'
a.c:4:9: unstable: always false in f
a.c:12:9: unstable: always false in h
EOF
    holds known <<'EOF'
a.c: always false in f: if (x + 1 < x) if (x + 1 < x) return 1;
a.c: always false in g: if (x + 1 < x) return 1;
a.c: always false in h: if (x + 1 < x) return 1;
EOF
}

# A line of a baseline keeps one report out.
test_a_copy_of_a_line_in_a_baseline() {
    unstable f >a.c
    stack_build --write-baseline known -- gcc -c a.c
    sed -i '2p' a.c
    ends_with 1 stack_build --status --baseline known -- gcc -c a.c
    [ "$(head -n 1 stack-out/known.txt)" = "a.c:2:9: unstable: always false in f" ]
    [ "$(head -n 1 stack-out/reports.txt)" = "a.c:3:9: unstable: always false in f" ]
}

test_the_order_of_reports() {
    for name in a b c d e f g h i j; do
        unstable $name
    done >a.c
    unstable k >A.c
    stack_build -- gcc -c a.c A.c
    grep unstable stack-out/reports.txt | cut -d: -f 1-3 >found
    {
        echo A.c:2:9
        for line in 2 6 10 14 18 22 26 30 34 38; do
            echo "a.c:$line:9"
        done
    } | holds found
}

test_progress() {
    command -v script >/dev/null || return 77
    unstable f >a.c
    script -qec "'$top/stack-build' --checker '$checker' -- sh -c 'gcc -c a.c; sleep 3'" printed >/dev/null
    tr '\r' '\n' <printed | grep -qx 'stack-build: 1 files'
}

# --- Tests of collecting ---

test_collecting() {
    make_tree
    stack_build --out direct -- make -C tree >/dev/null
    make -C tree -B >/dev/null && products tree >plain
    ends_with 0 stack_build --collect work -- make -C tree -B >/dev/null
    products tree | holds plain
    echo "stack-build: 3 files are in $PWD/work/records" | holds summary
    [ "$(find work/records -name '*.txt' | wc -l)" = 0 ]
    for file in work/records/*.i; do
        "$checker" <"$file" >"${file%.i}.txt" || true
    done
    ends_with 1 stack_build --status --out work
    grep -q '^stack-build: 3 files checked, 0 failed' summary
    holds work/reports.txt <direct/reports.txt
    for file in work/records/*.i; do
        printf 'tree/second/two.c:9' >"${file%.i}.txt" # (a machine that failed)
        break
    done
    stack_build --out work
    grep -q '^stack-build: 2 files checked, 1 failed' summary
}

# The line of the head of stack-build, with a stand-in for ssh that takes this machine's own name.
test_many_machines() {
    command -v parallel >/dev/null && command -v rsync >/dev/null || return 77
    mkdir tools machine
    cat >tools/ssh <<EOF
#!/bin/sh
while [ \$# -gt 0 ]; do
    case \$1 in
        "$(hostname)") shift && break ;;
        -[lp]) shift 2 ;;
        *) shift ;;
    esac
done
[ "\$1" != -- ] || shift
cd "$PWD/machine" && exec sh -c "\$*"
EOF
    chmod +x tools/ssh
    ln -s "$checker" tools/stack
    export PATH=$PWD/tools:$PATH HOME=$PWD/machine
    make_tree
    stack_build --out direct -- make -C tree >/dev/null
    stack_build --collect work -- make -C tree -B >/dev/null
    # (It ends with the number of files on which the checker didn't end with 0.)
    parallel --sshlogin "$(hostname)" --transferfile '{}' --return '{.}.txt' --cleanup 'stack <{} >{.}.txt' \
        ::: work/records/*.i || [ $? = 3 ]
    stack_build --out work
    grep -q '^stack-build: 3 files checked, 0 failed' summary
    holds work/reports.txt <direct/reports.txt
    [ -z "$(find machine -name '*.i')" ]
}

# --- Tests of ./stack-show ---

make_records() {
    printf '\tif (x   + 1 < x) /* c */ { return 1; }\n' >a.c
    printf 'int s = "\303\244  b" [x];\n' >"b' at c.c"
    mkdir folder.c
    cat >records <<'EOF'
a.c:1:6: unstable: same as 1 < 0 in f
  hit: x=0
  needs signed overflow at a.c:1:10; open
  needs index out of bounds at b' at c.c:1:17; without it: x=-1 y=2
-:1:1: skipped: no tree
b' at c.c:1:99: undecided: never entered in f; free query
missing.c:1:2: unstable: never entered in g
  hit: none
a.c:1:17: unstable: never entered in f
  hit: x=0
-:7:1: unstable: always true in f
  hit: none
folder.c:7:1: unstable: always true in f
  hit: none
2 functions, 3 candidates, 4 unstable, 1 undecided, 1 skipped
EOF
    cat >wanted <<'EOF'
a.c:1:6: warning: unstable: same as 1 < 0 in f
    1 |         if (x   + 1 < x) /* c */ { return 1; }
      |             ^
a.c:1:6: note: hit: x=0
a.c:1:10: note: needs signed overflow; open
    1 |         if (x   + 1 < x) /* c */ { return 1; }
      |                   ^
EOF
    printf '%s\n' "b' at c.c:1:17: note: needs index out of bounds; without it: x=-1 y=2" \
        "$(printf '    1 | int s = "\303\244  b" [x];')" '      |                ^' >>wanted
    cat >>wanted <<'EOF'
missing.c:1:2: warning: unstable: never entered in g
missing.c:1:2: note: hit: none
a.c:1:17: warning: unstable: never entered in f
    1 |         if (x   + 1 < x) /* c */ { return 1; }
      |                                  ^
a.c:1:17: note: hit: x=0
-:7:1: warning: unstable: always true in f
-:7:1: note: hit: none
folder.c:7:1: warning: unstable: always true in f
folder.c:7:1: note: hit: none
EOF
}

test_showing_reports() {
    make_records
    "$top/stack-show" records >found
    holds found <wanted
    "$top/stack-show" <records | holds wanted
    ends_with 64 "$top/stack-show" missing.txt 2>summary
    [ -z "$("$top/stack-show" </dev/null)" ]
}

test_showing_in_colour() {
    command -v script >/dev/null || return 77
    make_records
    script -qec "'$top/stack-show' records" /dev/null >printed
    grep -q "$(printf '\033\[1;35mwarning:\033\[0m')" printed
    tr -d '\r' <printed | sed "s/$(printf '\033')\[[0-9;]*m//g" | holds wanted
    NO_COLOR=1 script -qec "'$top/stack-show' records" /dev/null | tr -d '\r' | holds wanted
}

# --- A test of the launchers ---

# Each starts its own program where that is built of the sources that stand there, with its words and input.
test_the_launchers() {
    mkdir -p copy/.built copy/crates && echo stk_base: >copy/crates.txt
    cp "$top/stack" "$top/stack-audit" "$top/stack-replay" copy
    for name in stack stack-audit stack-replay; do
        printf '#!/bin/sh\necho %s "$@"\ncat\nexit 7\n' "$name" >"copy/.built/$name"
        chmod +x "copy/.built/$name"
        cksum <copy/crates.txt >"copy/.built/$name.sum"
        echo input | ends_with 7 "copy/$name" a 'b c' >found
        printf '%s a b c\ninput\n' "$name" | holds found
    done
}

# --- The real checker, and a build that others wrote ---

test_the_real_checker() {
    [ -n "$program" ] || return 77
    checker=$program
    cp -r "$top/examples" .
    # shellcheck disable=SC2016
    stack_build --seconds 600 -- sh -c 'for file in examples/*.c; do gcc -c "$file" -o "${file%.c}.o"; done' 2>/dev/null
    for file in examples/*.c; do
        gcc -c "$file" -o /dev/null 2>/dev/null && grep -hE '^  |: unstable: ' "${file%.c}.records"
    done >wanted || true
    holds stack-out/reports.txt <wanted
    "$top/stack-show" stack-out/reports.txt >shown
    [ "$(grep -c ': warning: ' shown)" = "$(grep -c ': unstable: ' wanted)" ]
}

test_zlib() {
    [ -n "$zlib" ] || return 77
    checker=${program:-$checker}
    cp -r "$zlib" zlib
    (cd zlib && ./configure && make) >/dev/null
    products zlib | grep -v ' \./configure\.log$' >plain
    rm -rf zlib && cp -r "$zlib" zlib
    # shellcheck disable=SC2016
    stack_build --seconds 600 -- sh -c 'cd zlib && ./configure >/dev/null && make >/dev/null'
    products zlib | grep -v ' \./configure\.log$' | holds plain
    checked_files | grep -qx zlib/inflate.c
    cat summary >&3
}

# --- The run ---

make_checker
passed=0 failed=0
for name in $(compgen -A function test_); do
    mkdir "$work/$name" && rm -f "$work/the tools/words" "$work/the tools/waits"
    (set -e -o pipefail && cd "$work/$name" && "$name") 3>&1 >"$work/printed" 2>&1
    status=$?
    case $status in
        0) passed=$((passed + 1)) ;;
        77) echo "left out: $name" ;;
        *)
            failed=$((failed + 1))
            echo "failed: $name"
            sed 's/^/    /' "$work/printed"
            ;;
    esac
done
echo "$passed passed, $failed failed"
[ "$failed" = 0 ] && [ "$passed" -gt 0 ]
