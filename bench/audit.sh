#!/bin/bash
# Audits bundles that the checker writes, as they are, with each byte changed, and of 100 MB.
#   bash bench/audit.sh CHECKER AUDITOR [FILE..]
# CHECKER and AUDITOR are the two programs as they are built (.built/stack and .built/stack-audit beside ./stack), and
# each FILE is preprocessed C. Of each bundle the auditor has to say that all claims hold, as many as the bundle has. A
# row tells of the FILEs, and one of files of bench/cases/wide, functions with pointers, loops and kept objects, as many
# as it takes until FUNCTIONS of the environment have claims, or else 20: how many files, functions with claims, claims
# and megabytes of bundles there are, and the processor seconds of the checker that writes the bundles and of the
# auditor, of all files and of the one that took the auditor longest.
# Then each byte of three small bundles is changed in turn, by its lowest bit, and to a blank. The auditor must end with
# a line of its own. It may say yes only where the bundle claims what it claimed before: where its lines are the same,
# those of blocks, `hit` and the numbers of starts left out. Such a byte is one of a start or of a derivation, in whose
# place another one serves as well.
# Last comes a bundle of MEGABYTES of the environment, or else 100: a derivation is filled with copies of its first
# step. It must hold, and must fail where its last step but one is spoilt, each within 2 GB.
# It ends with `N passed, M failed`, and with status 1 where one failed or none passed. It wants GNU time and python3.
set -eu
checker=$(realpath "${1:?the checker}")
auditor=$(realpath "${2:?the auditor}")
shift 2
top=$(cd "$(dirname "${BASH_SOURCE[0]}")/.." && pwd)
functions=${FUNCTIONS:-20}
megabytes=${MEGABYTES:-100}
work=$(mktemp -d)
trap 'rm -rf "$work"' EXIT
passed=0 failed=0

# Counts a test by the status of what it compared, and prints what it tells.
count() {
    if [ "$1" = 0 ]; then passed=$((passed + 1)); else failed=$((failed + 1)); fi
    echo "$2"
}

# Runs a program with the words behind $1 on the file $1; what it writes goes to the file `out`. Sets `status`,
# `seconds` of the processor and `memory` in megabytes.
run() {
    status=0
    env time -q -o "$work/time" -f '%U %S %M' "${@:2}" <"$1" >"$work/out" 2>"$work/errors" || status=$?
    read -r user system kilobytes < <(tail -n 1 "$work/time")
    seconds=$(awk -v a="$user" -v b="$system" 'BEGIN { printf "%.2f", a + b }')
    memory=$((kilobytes / 1024))
}

# Writes the bundle of a file, audits it, and adds what there is of it to the file `rows`.
audit_file() {
    local written
    run "$1" "$checker" --bundle
    [ "$status" -le 2 ] || { count 1 "$1: the checker ends with status $status: $(cat "$work/errors")" && return; }
    written=$seconds
    cp "$work/out" "$work/bundle"
    cat "$work/bundle" "$1" >"$work/input"
    run "$work/input" "$auditor"
    claims=$(grep -c '^unstable ' "$work/bundle" || true)
    if [ "$status" = 0 ] && [ "$(cat "$work/out")" = "$claims claims hold" ]; then
        passed=$((passed + 1))
    else
        count 1 "$1: $claims claims, status $status: $(cat "$work/out" "$work/errors")"
    fi
    echo "$(grep -c '^function ' "$work/bundle") $claims $(wc -c <"$work/bundle") $written $seconds" >>"$work/rows"
}

# Prints the sums of the file `rows`, with a name.
sums() {
    awk -v name="$1" '
        {
            functions += $1; claims += $2; bytes += $3; written += $4; audited += $5
            if ($5 >= most) { most = $5; beside = $4 }
        }
        END {
            printf "%s: %d files, %d functions, %d claims, %.1f MB: ", name, NR, functions, claims, bytes / 1000000
            printf "checker %.2f s, auditor %.2f s; at most %.2f s, checker %.2f s\n", written, audited, most, beside
        }' "$work/rows"
}

audit_files() {
    : >"$work/rows"
    for file; do audit_file "$file"; done
    sums files
}

audit_cases() {
    : >"$work/rows"
    for file in "$top"/bench/cases/wide/*.c; do
        audit_file "$file"
        [ "$(awk '{ n += $1 } END { print n }' "$work/rows")" -lt "$functions" ] || break
    done
    sums cases
}

# Changes each byte of the bundle of a source, $2.
change_bytes() {
    printf '%s' "$2" >"$work/source"
    run "$work/source" "$checker" --bundle
    cp "$work/out" "$work/bundle"
    local told=0
    python3 - "$auditor" "$work/bundle" "$work/source" >"$work/told" <<'PY' || told=1
import re, subprocess, sys

auditor = sys.argv[1]
bundle, source = (open(name, "rb").read() for name in sys.argv[2:])


def claimed(text):
    """What a bundle claims: its lines of the grammar, without starts."""
    lines, claims = iter(text.split(b"\n")), []
    for line in lines:
        words = line.split(b" ")
        if words[0] in (b"cnf", b"lrat") and words[-1].isdigit():
            for _ in range(int(words[-1])):
                next(lines, None)
            claims.append(words[0])
        elif words[0] == b"need":
            claims.append(b" ".join(words[:3]))
        elif words[0] != b"hit":
            claims.append(line)
    return claims


def answer(text):
    done = subprocess.run([auditor], input=text + source, stdout=subprocess.PIPE, stderr=subprocess.PIPE)
    return done.returncode, done.stdout


holds = answer(bundle)
assert re.fullmatch(rb"[1-9][0-9]* claims hold\n", holds[1]), holds
wrong = yes = no = 0
for place, byte in enumerate(bundle):
    for other in (byte ^ 1, 32 if byte != 32 else 10):
        text = bundle[:place] + bytes([other]) + bundle[place + 1 :]
        status, line = answer(text)
        if (status, line) == holds and claimed(text) == claimed(bundle):
            yes += 1
        elif status == 1 and re.fullmatch(rb"line [0-9]+: (form|name|start|tried|formula|derivation)\n", line):
            no += 1
        else:
            wrong += 1
            print(f"byte {place} as {other}: status {status}, {line}")
print(f"{len(bundle)} bytes changed twice each: {no} no, {yes} yes, {wrong} wrong")
sys.exit(wrong > 0)
PY
    count "$told" "$1: $(cat "$work/told")"
}

# Writes a bundle of so many megabytes: copies of the first step of a claim's derivation stand in front of its last.
large_bundle() {
    python3 - "$work/bundle" "$megabytes" "$1" <<'PY'
import sys

name, megabytes, spoilt = sys.argv[1], int(sys.argv[2]), sys.argv[3] == "spoilt"
lines = open(name, "rb").read().split(b"\n")
place = next(place for place, line in enumerate(lines) if line.startswith(b"lrat "))
steps = int(lines[place].split()[1])
first = lines[place + 1].split(b" ", 1)
last = lines[place + steps].split(b" ", 1)
copies = megabytes * 1_000_000 // (len(first[1]) + 9)
added = [b"%d %s" % (int(last[0]) + copy, first[1]) for copy in range(copies)]
if spoilt:
    added[-1] = b"%s 0 1 0" % added[-1].split(b" ", 1)[0]
lines[place] = b"lrat %d" % (steps + copies)
lines[place + steps : place + steps + 1] = added + [b"%d %s" % (int(last[0]) + copies, last[1])]
sys.stdout.buffer.write(b"\n".join(lines))
PY
}

# Audits a large bundle, which must end with the status $2 and the line $3.
audit_large() {
    large_bundle "$1" >"$work/large"
    cat "$work/large" "$work/source" >"$work/input"
    # shellcheck disable=SC2016 # The parameter is that of the inner shell.
    run "$work/input" bash -c 'ulimit -v 2097152 && exec "$0"' "$auditor"
    local told=0
    [ "$status" = "$2" ] && grep -Eqx "$3" "$work/out" || told=1
    bytes=$(wc -c <"$work/large")
    count "$told" "$((bytes / 1000000)) MB, $1: $(cat "$work/out" "$work/errors"), $seconds s, $memory MB"
}

[ $# -eq 0 ] || audit_files "$@"
audit_cases
change_bytes 'all maps tried' \
    'int f(unsigned char x) { int y = 10 / x; if (x == 0) return 1; return y; }'
change_bytes 'a shift' \
    'int f(int x, unsigned char n) { int y = x << (n + 3); if (n > 40) return 1; return y; }'
change_bytes 'a loop, a pointer and a kept object' \
    'int f(int *p, int n) { int k = n; int *q = &k; while (k < n) { *q = *p; if (!p) return 1; } return k; }'
printf '%s' 'int f(int x) { if (x + 100 < x) return 1; return 0; }' >"$work/source"
run "$work/source" "$checker" --bundle
cp "$work/out" "$work/bundle"
audit_large whole 0 '3 claims hold'
audit_large spoilt 1 'line [0-9]+: derivation'
echo "$passed passed, $failed failed"
[ "$failed" = 0 ] && [ "$passed" -gt 0 ]
