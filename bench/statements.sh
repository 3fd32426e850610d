#!/bin/bash
# Times the reader of units on large texts. It builds a small program over stk_stmt in a folder of its own, outside the
# repository:
#   bash bench/statements.sh
# For each text it prints the processor seconds of the whole run, lexing and cutting included, how many units there
# are and how many of them were read. No word is a typedef name.
set -eu
. "$(dirname "$0")/program.sh"
build_program stmtbench stk_base stk_lex stk_ctype stk_tree stk_nodes stk_grammar stk_expr stk_decl stk_stmt <<'PROGRAM'
//! Reads the units of the input.
#![tactic(auto)]

use std::alloc::Global;
use std::io::{self, Read, Write};
use stk_base::NoMemory;
use stk_ctype::Names;
use stk_expr::Parse;
use stk_lex::{Piece, Skimmed, Token, cut, lex, skim};
use stk_stmt::unit;

/// Whether a piece of these tokens is read as a unit.
fn is_read(
    alloc: Global,
    bytes: &[u8],
    tokens: &[Token],
    names: &Names,
    piece: Piece,
) -> Result<bool, NoMemory> {
    let from = piece.from as usize;
    let to = piece.to as usize;
    if from > to || to > tokens.len() {
        return Ok(false);
    }
    let (front, _) = tokens.split_at(to);
    let (_, list) = front.split_at(from);
    if list.len() > 16_777_216 {
        return Ok(false);
    }
    match unit(alloc, bytes, list, names) {
        Ok(_) => Ok(true),
        Err(Parse::NoTree) => Ok(false),
        Err(Parse::NoMemory) => Err(NoMemory),
    }
}

fn answer(alloc: Global, bytes: &[u8]) -> Result<(usize, u32), NoMemory> {
    if bytes.len() > 16_777_216 {
        return Ok((0, 0));
    }
    let tokens = lex(alloc, bytes)?;
    let skimmed = skim(alloc, bytes, tokens.as_slice())?;
    let pieces = cut(alloc, bytes, &skimmed)?;
    let names = Names::new(alloc);
    let mut count: u32 = 0;
    for piece in &pieces {
        if is_read(alloc, bytes, skimmed.tokens.as_slice(), &names, *piece)? {
            count = count.wrapping_add(1);
        }
    }
    Ok((pieces.len(), count))
}

fn main(rt: HostRuntime) -> io::Result<()> {
    let mut bytes = Vec::new(rt.alloc());
    let mut input = rt.stdin();
    input.read_to_end(&mut bytes)?;
    match answer(rt.alloc(), &bytes) {
        Ok((all, found)) => println!(rt; "{all} units, {found} read"),
        Err(_) => println!(rt; "no memory"),
    }
}
PROGRAM
measure() { # the name $1 of the text that stands in the file text
    local TIMEFORMAT=%U took
    took=$( { time "$program" < text > result; } 2>&1 )
    echo "$1: $took s, $(cat result)"
}
run() { # the name $1 of a text that begins with $2, goes on with $3 again and again, and ends with $4
    { printf '%s' "$2"; many "$3" $(((size - ${#2} - ${#4}) / ${#3} * ${#3})); printf '%s' "$4"; } > text
    measure "$1"
}
printf '#include <stdio.h>\n#include <stdlib.h>\n#include <string.h>\n' | cc -E - > headers
while [ "$(stat -c %s headers)" -lt 2000000 ]; do
    cat headers headers > twice
    mv twice headers
done
head -c 2000000 headers > text
measure '2 MB of preprocessed headers'
run '16 MiB of ; at file scope' '' ';' ''
run '16 MiB of ; in a function' 'int f() {' ';' '}'
run '16 MiB of { in a function' 'int f() {' '{' ''
run '16 MiB of blocks in a function' 'int f() {' '{}' '}'
run '16 MiB of if (a)' 'int f() {' 'if (a)' ';}'
run '16 MiB of if (a) ; else' 'int f() {' 'if (a) ; else ' ';}'
run '16 MiB of do' 'int f() {' 'do ' ';}'
run '16 MiB of declarations in a function' 'int f() {' 'int a;' '}'
run '16 MiB of labels' 'int f() { switch (a) {' 'case 1:' '}}'
run '16 MiB of sections' 'int f() { switch (a) {' 'default: ;' '}}'
run '16 MiB of functions' '' 'int f() { return a; }' ''
