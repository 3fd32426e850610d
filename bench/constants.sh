#!/bin/bash
# Times the numbers of constants on large texts. It builds a small program over stk_numbers in a folder of its own,
# outside the repository:
#   bash bench/constants.sh
# For each text it prints the processor seconds of the whole run, reading included, and what the text is: an integer
# constant, a character constant, a string with so many bytes, or none of them.
set -eu
. "$(dirname "$0")/program.sh"
ending=$said
build_program constantsbench stk_base stk_ctype stk_numbers <<'END'
//! Tells what constant the input is.
#![tactic(auto)]

use std::alloc::Global;
use std::io::{self, Read};
use stk_base::Span;
use stk_numbers::{character_constant, integer_constant, string_bytes};

// Whether the input is an integer constant, a character constant or a string, and how many bytes the string has.
fn answer(alloc: Global, bytes: &[u8]) -> &'static str {
    if bytes.len() > 33_554_432 {
        return "too large";
    }
    if integer_constant(bytes).is_some() {
        return "an integer constant";
    }
    if character_constant(bytes).is_some() {
        return "a character constant";
    }
    let whole = Span {
        from: 0,
        to: bytes.len() as u32,
    };
    match string_bytes(alloc, bytes, &[whole]) {
        Ok(Some(_)) => "a string",
        Ok(None) => "none",
        Err(_) => "no memory",
    }
}
END
try() {
    local seconds
    TIMEFORMAT='%U'
    seconds=$({ time "$program" < "$work/text" > "$work/said"; } 2>&1)
    echo "16 MiB of $1: $seconds s, $(cat "$work/said")"
}
framed() {
    { printf '%s' "$2"; many "$3" "$size"; printf '%s' "$4"; } > "$work/text"
    try "$1"
}
framed "the digit 9" '' 9 ''
framed "the digit 0" '' 0 ''
framed "the digit 0, behind 0x" 0x 0 ''
framed "the digit f, behind 0x" 0x f ''
framed "the letter u, behind 1" 1 u ''
framed "the digit 0, in a hexadecimal escape of a character" "'\\x" 0 "'"
framed "the digit f, in a hexadecimal escape of a character" "'\\x" f "'"
framed "the letter a, in a string" '"' a '"'
framed "octal escapes in a string" '"' '\\101' '"'
framed "the digit 0, in a hexadecimal escape of a string" '"\x' 0 '"'
