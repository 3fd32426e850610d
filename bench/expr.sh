#!/bin/bash
# Times the reader of expressions on large texts. It builds a small program over stk_expr in a folder of its own,
# outside the repository:
#   bash bench/expr.sh
# For each text it prints the seconds of the whole run, lexing included, and whether an expression was read.
set -eu
. "$(dirname "$0")/program.sh"
ending=$said
build_program exprbench stk_base stk_lex stk_ctype stk_tree stk_nodes stk_grammar stk_expr <<'END'
//! Reads the input as an expression.
#![tactic(auto)]

use std::alloc::Global;
use std::io::{self, Read, Write};
use stk_ctype::Names;
use stk_expr::{Parse, expr};
use stk_lex::lex;

fn answer(alloc: Global, bytes: &[u8]) -> &'static str {
    if bytes.len() > 16_777_216 {
        return "too large";
    }
    let Ok(list) = lex(alloc, bytes) else {
        return "no memory";
    };
    if list.len() > 16_777_216 {
        return "too large";
    }
    match expr(alloc, bytes, list.as_slice(), &Names::new(alloc), 0, 1) {
        Ok((_, _)) => "a tree",
        Err(Parse::NoTree) => "no tree",
        Err(Parse::NoMemory) => "no memory",
    }
}
END
run() { # the name $1 of a text that the Python expression $2 gives
    local TIMEFORMAT=%R took
    python3 -c "import sys; sys.stdout.write($2)" > text
    took=$( { time "$program" < text > result; } 2>&1 )
    echo "$1: $took s, $(cat result)"
}
run '1,000,000 times (' "'(' * 1000000"
run '1,000,000 times -' "'- ' * 1000000"
run '1,000,000 times a?' "'a?' * 1000000"
run '1,000,000 times a[' "'a[' * 1000000"
run '1,000,000 times sizeof' "'sizeof ' * 1000000"
run '1,000,000 times (int[' "'(int[' * 1000000"
run 'a cast to int with 1,000,000 stars' "'(int' + '*' * 1000000 + ') a'"
run 'a cast to int with 1,000,000 array parts' "'(int' + '[1]' * 1000000 + ') a'"
run 'a call of 1,000,000 arguments' "'f(' + 'a,' * 999999 + 'a)'"
run '1,000,000 string literals' "'\"a\"' * 1000000"
run 'a sum of 399 names' "'+'.join(['a'] * 399)"
run 'a sum of 1,000,000 names' "'+'.join(['a'] * 1000000)"
run '2,000,000 calls in 1,000,000 arguments' "'f(' + 'a(b)(c),' * 999999 + 'a)'"
