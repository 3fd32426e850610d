# What the benches share; they source it. `build_program NAME CRATE..` takes the program's main.rt from standard
# input, builds it over these crates of the repository, which it takes in a folder of its own, and leaves the shell
# there, with the path in `program`. A CRATE may be one of the kit too. `below CRATE..` prints the crates on which
# these stand, the kit's too, each behind those on which it stands. Where `ending` is set, its text is added at the
# program's end: `said` is a `main` that prints what `answer(alloc, bytes)` says of the input, `making` has `made`,
# which makes a term if it can be made, and `counting` has `count_of`, the number that the input is. `many TEXT SIZE`
# writes a text, given with Python's escapes, again and again, up to so many bytes. `timed NAME WORD..` runs the
# program with these words, and prints the name, its processor seconds and what it wrote.
top=$(cd "$(dirname "${BASH_SOURCE[0]}")/.." && pwd)
work=$(mktemp -d)
trap 'rm -rf "$work"' EXIT
size=16777216
ending=
said='
fn main(rt: HostRuntime) -> io::Result<()> {
    let mut bytes = Vec::new(rt.alloc());
    let mut input = rt.stdin();
    input.read_to_end(&mut bytes)?;
    let said = answer(rt.alloc(), &bytes);
    println!(rt; "{said}")
}
'
making='
// A term if it can be made, and else the first.
fn made(terms: &mut Terms, op: TermOp, args: &[TermId]) -> Result<TermId, NoMemory> {
    if terms.can_make(op, args) {
        terms.make(op, args)
    } else {
        Ok(TermId(0))
    }
}
'
counting='
// The number on standard input, where there is one.
fn count_of(rt: &HostRuntime) -> io::Result<Option<usize>> {
    let mut text = String::new(rt.alloc());
    let mut input = rt.stdin();
    input.read_to_string(&mut text)?;
    Ok(text.trim().parse::<usize>().ok())
}
'
build_program() {
    local name=$1 crate
    shift
    mkdir -p "$work/crates/$name/src"
    for crate in "$@"; do
        [ -d "$top/crates/$crate" ] || continue
        cp -r "$top/crates/$crate" "$work/crates/"
        grep "^$crate:" "$top/crates.txt" >> "$work/crates.txt"
    done
    echo "$name: $*" >> "$work/crates.txt"
    echo 'Handles allowed: none.' > "$work/HANDLES"
    { cat; printf '%s' "$ending"; } > "$work/crates/$name/src/main.rt"
    cd "$work/crates/$name"
    rt run < /dev/null > "$work/build.log" 2>&1 || { tail -20 "$work/build.log"; exit 1; }
    program=$(find out -maxdepth 1 -type f -name "$name")
}
below() {
    awk -F: -v named="$*" '
        function visit(crate, list, count, place) {
            count = split(under[crate], list, " ")
            for (place = 1; place <= count; place++)
                if (!(list[place] in seen)) {
                    seen[list[place]] = 1
                    visit(list[place])
                    print list[place]
                }
        }
        /^[a-z]/ { under[$1] = $2 }
        END { under["named"] = named; visit("named") }
    ' "$top/crates.txt" | grep -vxF "$(printf '%s\n' "$@")"
}
many() {
    python3 -c "import sys; t = sys.argv[1].encode('latin-1').decode('unicode_escape').encode('latin-1'); n = int(sys.argv[2]); sys.stdout.buffer.write((t * (n // len(t) + 1))[:n])" "$1" "$2"
}
timed() {
    local name=$1 TIMEFORMAT=%U took
    shift
    took=$( { time "$program" "$@" > result; } 2>&1 )
    echo "$name: $took s, $(cat result)"
}
