#!/bin/bash
# Times skimming and cutting on large texts. It builds a small program over stk_lex in a folder of its own, outside the
# repository:
#   bash bench/units.sh
# For each text it prints the seconds and the memory at most of the whole run, reading and lexing included, and what the
# program prints: the tokens, those that are kept, the notes and the units.
set -eu
. "$(dirname "$0")/program.sh"
ending=$said
build_program unitsbench stk_base stk_lex <<'END'
//! Counts the units of the input.
#![tactic(auto)]

use std::alloc::Global;
use std::io::{self, Read, Write};
use stk_lex::{cut, lex, skim};

fn answer(alloc: Global, bytes: &[u8]) -> String {
    let nothing = String::new(alloc);
    if bytes.len() > 16_777_216 {
        return nothing;
    }
    let Ok(tokens) = lex(alloc, bytes) else {
        return nothing;
    };
    let Ok(skimmed) = skim(alloc, bytes, &tokens) else {
        return nothing;
    };
    let Ok(pieces) = cut(alloc, bytes, &skimmed) else {
        return nothing;
    };
    let all = tokens.len();
    let kept = skimmed.tokens.len();
    let notes = skimmed.notes.len();
    let units = pieces.len();
    match format!(in alloc; "{all} tokens, {kept} kept, {notes} notes, {units} units") {
        Ok(text) => text,
        Err(_) => nothing,
    }
}
END
run() { # the name $1 of the text in the file `text`
    local took
    took=$(/usr/bin/python3 -c "
import resource, subprocess, sys, time
began = time.time()
subprocess.run([sys.argv[1]], stdin=open('text', 'rb'), stdout=open('result', 'wb'), check=True)
print('%.2f s, %d MB' % (time.time() - began, resource.getrusage(resource.RUSAGE_CHILDREN).ru_maxrss // 1024))" "$program")
    echo "$1: $took, $(paste -sd, result)"
}
for t in '(' '{' '}' ';' '@' '){' '(}' '{;}' 'const ' '_Noreturn ' '_Noreturn;' '__attribute__ ' '__attribute__(' '__attribute__()' \
    '__attribute__((packed)' '__attribute__((noreturn))x;' 'asm(' '{asm(a)}' 'int f(){}'; do
    many "$t" "$size" > text
    run "16 MiB of '$t'"
done
{ many '__attribute__(' 14679994; echo packed; many ')' 1048571; } > text
run "1,048,571 groups of attributes in one another, with packed in the last"
{ many '__attribute__(' 14680064; many ')' 1048576; } > text
run "1,048,576 groups of attributes in one another"
{ many '_Noreturn ' 8388600; many 'x;' 8388600; } > text
run "838,860 notes, and then 4,194,300 units"
