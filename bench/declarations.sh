#!/bin/bash
# Times the reader of declarations on large texts. It builds a small program over stk_decl in a folder of its own,
# outside the repository:
#   bash bench/declarations.sh
# For each text it prints the processor seconds of the whole run, those of the same text behind a `+`, which begins no
# declaration, and whether a declaration was read.
set -eu
. "$(dirname "$0")/program.sh"
ending=$said
build_program declbench stk_base stk_lex stk_ctype stk_tree stk_nodes stk_grammar stk_expr stk_decl <<'PROGRAM'
//! Reads the input as a declaration at file scope.
#![tactic(auto)]

use std::alloc::Global;
use std::io::{self, Read, Write};
use stk_ctype::Names;
use stk_decl::declaration_within;
use stk_expr::Parse;
use stk_grammar::lexemes_of;
use stk_lex::lex;

fn answer(alloc: Global, bytes: &[u8]) -> &'static str {
    if bytes.len() > 16_777_216 {
        return "too large";
    }
    let Ok(tokens) = lex(alloc, bytes) else {
        return "no memory";
    };
    let Ok(list) = lexemes_of(alloc, bytes, tokens.as_slice()) else {
        return "no memory";
    };
    match declaration_within(alloc, bytes, &Names::new(alloc), true, 400, list.as_slice()) {
        Ok(_) => "a tree",
        Err(Parse::NoTree) => "no tree",
        Err(Parse::NoMemory) => "no memory",
    }
}
PROGRAM
seconds() { # the processor time of the program on the file $1
    local TIMEFORMAT=%U
    { time "$program" < "$1" > result; } 2>&1
}
run() { # the name $1 of a text that begins with $2, goes on with $3 again and again, and ends with $4
    local took lexing
    { printf '%s' "$2"; many "$3" $(((size - ${#2} - ${#4} - 2) / ${#3} * ${#3})); printf '%s' "$4"; } > text
    { printf '+ '; cat text; } > stray
    lexing=$(seconds stray)
    took=$(seconds text)
    echo "$1: $took s, $lexing s of it lexing, $(cat result)"
}
run '16 MiB of { in an initialiser' 'int a = ' '{' ''
run '16 MiB of empty items' 'int a[] = {' '{},' '};'
run '16 MiB of designators' 'int a = {' '.a' '= 1};'
run '16 MiB of *' 'int ' '*' 'a;'
run '16 MiB of array parts' 'int a' '[1]' ';'
run '16 MiB of structs in structs' '' 'struct a {' ''
run '16 MiB of members' 'struct a {' 'int a;' '};'
run '16 MiB of enumerations' '' 'enum {A,' ''
run '16 MiB of enumerators' 'enum {' 'A,' '};'
run '16 MiB of declarators' 'int a' ',a=1' ';'
run '16 MiB of parameters' 'int a(int' ',int a' ');'
run '16 MiB of int a=1,' '' 'int a=1,' ';'
