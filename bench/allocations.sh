#!/bin/bash
# Refuses each request for memory of the checker in turn, on three small texts.
#   bash bench/allocations.sh [PROGRAM]
# PROGRAM is ./stack's program where none is named; it may not be built with AddressSanitizer. A shim for LD_PRELOAD,
# which cc compiles, counts the program's requests for memory and answers the Nth with none. Each run must end with
# status 7 and a prefix of the text's output, or with its output and its status. For each text it prints how many
# requests there are, and how many of their refusals ended with status 7, and how many of these with a part of the
# output; it prints each other end, and ends with status 1 where there was one.
set -eu
top=$(cd "$(dirname "${BASH_SOURCE[0]}")/.." && pwd)
[ $# -gt 0 ] || "$top/stack" </dev/null >/dev/null # (proves and builds it where it isn't built)
program=$(realpath "${1:-$top/.built/stack}")
work=$(mktemp -d)
trap 'rm -rf "$work"' EXIT
cat >"$work/shim.c" <<'END'
#define _GNU_SOURCE
#include <dlfcn.h>
#include <stdio.h>
#include <stdlib.h>
static long asked, refused;
static int ours(void) {
    if (!refused) {
        const char *word = getenv("REFUSED");
        refused = word ? atol(word) : -1;
    }
    return ++asked == refused;
}
void *malloc(size_t size) {
    static void *(*real)(size_t);
    if (!real) real = (void *(*)(size_t))dlsym(RTLD_NEXT, "malloc");
    return ours() ? 0 : real(size);
}
void *realloc(void *old, size_t size) {
    static void *(*real)(void *, size_t);
    if (!real) real = (void *(*)(void *, size_t))dlsym(RTLD_NEXT, "realloc");
    return ours() ? 0 : real(old, size);
}
__attribute__((destructor)) static void tell(void) {
    long count = asked;
    const char *name = getenv("ASKED");
    FILE *file = name ? fopen(name, "w") : 0;
    if (file) fprintf(file, "%ld\n", count), fclose(file);
}
END
cc -shared -fPIC -O1 -o "$work/shim.so" "$work/shim.c" -ldl

# Runs the program on the text with the request of number $1 refused, and sets `status`.
run() {
    status=0
    REFUSED=$1 LD_PRELOAD=$work/shim.so "$program" <"$work/text" >"$work/found" 2>/dev/null || status=$?
}

# Whether what was found is a prefix of the text's output.
is_prefix() {
    head -c "$(stat -c %s "$work/found")" "$work/whole" | cmp -s - "$work/found"
}

# Refuses each request on the text of standard input, which has the name $1.
refuse_each() {
    cat >"$work/text"
    ASKED=$work/asked run 0
    mv "$work/found" "$work/whole"
    local wanted=$status count ended=0 parts=0 number
    count=$(cat "$work/asked")
    for ((number = 1; number <= count; number++)); do
        run "$number"
        if [ "$status" = 7 ] && is_prefix; then
            ended=$((ended + 1))
            [ ! -s "$work/found" ] || parts=$((parts + 1))
        elif [ "$status" != "$wanted" ] || ! cmp -s "$work/whole" "$work/found"; then
            echo "$1: request $number refused: status $status"
            failed=1
        fi
    done
    echo "$1: $count requests, status 7 after $ended of them, $parts of these with a part of the output"
}

failed=0
refuse_each 'a division by a byte' <<'END'
int f(unsigned char x) { int y = 10 / x; if (x == 0) return 1; return y; }
END
refuse_each 'a sum that may overflow' <<'END'
int f(int x) { if (x + 100 < x) return 1; return 0; }
END
refuse_each 'units that are skipped, and others' <<'END'
union u { int a; };
int g(int x) { goto out; out: return x; }
int h(int x) { return x @ 1; }
int f(unsigned char x) { int y = 10 / x; if (x == 0) return 1; return y; }
int k(void) { return g(1); }
END
[ "$failed" = 0 ]
