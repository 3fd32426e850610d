#!/bin/sh
# Runs the checker over the preprocessed sources of zlib, bzip2, lua and krb5's libraries, Debian's source packages.
#   sh bench/corpus.sh PROGRAM [FOLDER [PACKAGE..]]
# FOLDER is corpus where none is named, the PACKAGEs are zlib, bzip2, lua5.4 and krb5. What FOLDER lacks is fetched by
# apt-get with settings of its own there, configured, built under ./stack-build --collect (with JOBS jobs, else one) and
# kept, so a second run only runs the checker. That wants Debian's apt-get, dpkg-source, make, gcc, GNU time, and clang.
# Each file may take 120 seconds. Per package a block says what was found: files; definitions, the functions that these
# files define by gcc, and the distinct ones among them, by file and line (headers define some in many files); functions
# that were judged; candidates; the unstable and undecided ones; functions with an undecided candidate; units skipped
# by cause, which are mostly declarations of headers; processor seconds, those of one file at most, and its memory in
# megabytes; and the processor seconds of `clang --analyze` and of `clang -fsyntax-only` on the same files, in which
# types and attributes that it doesn't know are written in others (EVERY=N in the environment: on each Nth file, beside
# the checker's on these). Then it lists the ten slowest files of all, the files
# whose run didn't end with status 0, 1 or 2 (124: by time), and those on which clang fails.
# FOLDER/PACKAGE.rows has a line for each file: processor seconds, kilobytes, status, name and hash.
set -eu
program=$(realpath "${1:?a program}")
top=$(CDPATH='' cd -- "$(dirname -- "$0")/.." && pwd)
folder=${2:-corpus}
[ $# -lt 2 ] || shift
shift
[ $# -gt 0 ] || set -- zlib bzip2 lua5.4 krb5
mkdir -p "$folder"
folder=$(CDPATH='' cd -- "$folder" && pwd)
suite=$(. /etc/os-release && echo "$VERSION_CODENAME")

# Fetches and unpacks the source package $1.
fetch() {
    settings=$folder/apt
    mkdir -p "$settings/state/lists/partial" "$settings/cache/archives/partial"
    echo "deb-src [signed-by=/usr/share/keyrings/debian-archive-keyring.gpg] http://deb.debian.org/debian $suite main" \
        >"$settings/sources.list"
    cat >"$settings/apt.conf" <<END
Dir::Etc::sourcelist "$settings/sources.list";
Dir::Etc::sourceparts "/dev/null";
Dir::State "$settings/state";
Dir::State::status "/var/lib/dpkg/status";
Dir::Cache "$settings/cache";
END
    export APT_CONFIG="$settings/apt.conf"
    [ -e "$settings/updated" ] || { apt-get -q update && : >"$settings/updated"; }
    (cd "$folder" && apt-get -q source --download-only "$1" && dpkg-source --no-check -x "$1"_*.dsc "$1")
}

# Collects the preprocessed files of what a command builds in a folder of the package.
collect() {
    (cd "$folder/$package/$1" && shift && "$top/stack-build" --collect "$folder/$package.files" -- "$@")
}

# Builds the source package and collects its files. Debian's lua wants libtool, so its files are compiled one by one; of
# krb5 its own tools and headers are built first, and what is collected is lib/ alone.
build() {
    jobs=${JOBS:-1}
    case $package in
        zlib) (cd "$folder/zlib" && ./configure) && collect . make -j "$jobs" ;;
        bzip2) collect . make -j "$jobs" bzip2 bzip2recover ;;
        lua5.4)
            echo "#define DEB_HOST_MULTIARCH \"$(dpkg-architecture -qDEB_HOST_MULTIARCH)\"" \
                >"$folder/lua5.4/src/lua5.4-deb-multiarch.h"
            # shellcheck disable=SC2016 # The variable is of the shell that compiles.
            collect src sh -c 'for file in *.c; do
                cc -O2 -DLUA_COMPAT_5_3 -DLUA_USE_LINUX -c "$file" -o /dev/null || exit
            done'
            ;;
        krb5)
            (cd "$folder/krb5/src" && ./configure --with-crypto-impl=builtin --with-tls-impl=no --without-libedit \
                --without-readline --without-keyutils)
            make -j "$jobs" -C "$folder/krb5/src/util"
            make -j "$jobs" -C "$folder/krb5/src/include"
            collect src make -j "$jobs" -C lib
            ;;
    esac
}

# Fetches and builds the package where its files aren't there.
prepare() {
    [ -e "$folder/$package.files/built" ] && return
    echo "bench/corpus.sh: $package is fetched and built; $folder/$package.log says more" >&2
    { [ -d "$folder/$package" ] || fetch "$package"; } >"$folder/$package.log" 2>&1
    build >>"$folder/$package.log" 2>&1
    : >"$folder/$package.files/built"
}

# Runs a command over the file $text, and sets `seconds` (of the processor), `memory` (kilobytes) and `status`.
run() {
    status=0
    env time -q -o "$folder/time" -f '%U %S %M' timeout 120 "$@" <"$text" >"$folder/out" 2>"$folder/errors" || status=$?
    # shellcheck disable=SC2046 # These are three numbers.
    set -- $(tail -n 1 "$folder/time")
    seconds=$(echo "$1 $2" | awk '{ printf "%.2f", $1 + $2 }')
    memory=$3
}

# Runs the checker over each file of the package.
check() {
    : >"$folder/$package.rows"
    for text in "$folder/$package.files/records"/*.i; do
        base=${text%.i}
        run "$program"
        cp "$folder/out" "$base.txt"
        echo "$seconds $memory $status $(cat "$base.file") $(basename "$base")" >>"$folder/$package.rows"
    done
}

# Writes what clang 14 doesn't know of gcc's C in other words.
in_other_words() {
    sed -e 's/__malloc__ ([A-Za-z_0-9, ]*)/__malloc__/g' -e 's/\b_Float32x\b/double/g' \
        -e 's/\b_Float64x\b/long double/g' -e 's/\b_Float128x\{0,1\}\b/__float128/g' \
        -e 's/\b_Float32\b/float/g' -e 's/\b_Float64\b/double/g' "$1"
}

# Lists the functions that each file of the package defines, by gcc, and how clang's two runs go.
compare() {
    : >"$folder/$package.clang"
    : >"$folder/$package.defined"
    text=$folder/other.i
    left=1
    for given in "$folder/$package.files/records"/*.i; do
        gcc -fsyntax-only -w -x cpp-output -aux-info "$folder/aux" "$given" 2>/dev/null || :
        sed -n 's,^/\* \(.*\):[NOI]F \*/.*,\1,p' "$folder/aux" >>"$folder/$package.defined"
        left=$((left - 1))
        [ "$left" = 0 ] || continue
        left=${EVERY:-1}
        in_other_words "$given" >"$text"
        run clang --analyze -w -x cpp-output - -o /dev/null
        row="$seconds $status"
        run clang -fsyntax-only -w -x cpp-output -
        echo "$row $seconds $status $(cat "${given%.i}.file") $(basename "${given%.i}")" >>"$folder/$package.clang"
    done
}

# Adds up the records of the package.
count_records() {
    cat "$folder/$package.files/records"/*.txt | awk '
        /^[0-9]+ functions, [0-9]+ candidates, / { functions += $1; candidates += $3; next }
        /: unstable: / { unstable++; next }
        match($0, /: undecided: /) {
            undecided++
            name = $0
            sub(/.* in /, "", name)
            sub(/;.*/, "", name)
            place = $0
            sub(/:[0-9]+:[0-9]+: .*/, "", place)
            if (!seen[place " " name]++) open++
            next
        }
        match($0, /: skipped: /) {
            cause = substr($0, RSTART + RLENGTH)
            kind = "no tree"
            if (cause ~ /^rule /) { split(cause, words, " "); kind = "rule"; rules[words[2]]++ }
            if (cause ~ / nodes$/) kind = "nodes"
            if (cause ~ /^weight /) kind = "weight"
            skipped[kind]++
        }
        END {
            printf "  %d functions judged, %d candidates, %d unstable, ", functions, candidates, unstable
            printf "%d undecided in %d functions (%.2f %%)\n", undecided, open, functions ? 100 * open / functions : 0
            printf "  skipped: %d no tree, %d a rule, ", skipped["no tree"], skipped["rule"]
            printf "%d nodes, %d weight; by rule:", skipped["nodes"], skipped["weight"]
            for (rule = 1; rule <= 17; rule++) if (rule in rules) printf " %d: %d", rule, rules[rule]
            print ""
        }'
}

# Prints the block of the package.
report() {
    awk -v name="$package" -v defined="$(wc -l <"$folder/$package.defined")" \
        -v distinct="$(sort -u "$folder/$package.defined" | wc -l)" '
        { seconds += $1; if ($1 > most) most = $1; if ($2 > memory) memory = $2; if ($3 > 2) failed++ }
        END {
            printf "%s: %d files, %d without records; ", name, NR, failed
            printf "%d definitions, %d distinct\n", defined, distinct
            printf "  %.2f s, a file at most %.2f s and %d MB\n", seconds, most, memory / 1024
        }' "$folder/$package.rows"
    awk '
        FNR == NR { ours[$NF] = $1; next }
        { files++; seconds += ours[$NF]; analyze += $1; syntax += $3; if ($2 + $4 > 0) failed++ }
        END {
            printf "  on %d of them %.2f s, clang --analyze %.2f s, ", files, seconds, analyze
            printf "clang -fsyntax-only %.2f s (%d failed)\n", syntax, failed
        }' "$folder/$package.rows" "$folder/$package.clang"
    count_records
}

for package; do
    prepare
    check
    compare
    report
done
for package; do cat "$folder/$package.rows"; done >"$folder/all.rows"
echo "The slowest files (processor seconds, kilobytes, status, name, hash):"
sort -rn "$folder/all.rows" | head -n 10 | sed 's/^/  /'
echo "Files whose run had another status than 0, 1 and 2:"
awk '$3 > 2 { print "  " $0 }' "$folder/all.rows"
echo "Files on which clang fails (seconds and status of --analyze, and of -fsyntax-only):"
for package; do awk '$2 + $4 > 0 { print "  " $0 }' "$folder/$package.clang"; done
