#!/bin/bash
# Times the lexer on large texts. It builds a small program over stk_lex in a folder of its own, outside the repository:
#   bash bench/lex.sh
# For each text it prints the seconds of the whole run, reading included, and what the program prints: the tokens, and
# with the word `places` the sum of the lines of all tokens, each found by the index.
set -eu
. "$(dirname "$0")/program.sh"
build_program lexbench stk_base stk_lex <<'END'
//! Counts the tokens of the input.
#![tactic(auto)]

use std::env;
use std::io::{self, Read, Write};
use stk_lex::{Places, lex};

fn main(rt: HostRuntime) -> io::Result<()> {
    let mut bytes = Vec::new(rt.alloc());
    let mut input = rt.stdin();
    input.read_to_end(&mut bytes)?;
    if bytes.len() > 16_777_216 {
        return Ok(());
    }
    let Ok(tokens) = lex(rt.alloc(), &bytes) else {
        return Ok(());
    };
    let count = tokens.len();
    println!(rt; "{count} tokens")?;
    if env::args(&rt)?.count() > 1 {
        let Ok(places) = Places::new(rt.alloc(), &bytes) else {
            return Ok(());
        };
        let mut lines: u64 = 0;
        for token in &tokens {
            let at = bytes.len().min(token.span.from as usize);
            lines = lines.wrapping_add(u64::from(places.place(at).line));
        }
        println!(rt; "{lines} is the sum of the lines")?;
    }
    Ok(())
}
END
run() { # the name $1 of the text in the file `text`, and the program's words
    local name=$1 TIMEFORMAT=%R took
    shift
    took=$( { time "$program" "$@" < text > result; } 2>&1 )
    echo "$name: $took s, $(paste -sd, result)"
}
for t in ' ' 'x' 'x ' '0' '.' '+' '/' '/*' '/* ' '//' "'" '"' '"\\' "'\\\\" '#' '# \n' '#\n' '\n' '\x27\n' ' #' ';' '(' '@' '%:' 'L' "L'" 'u8"' '/**/' '\\' '*/' "''" '\xff'; do
    many "$t" "$size" > text
    run "16 MiB of '$t'"
done
cat > unit.c <<'END'
#include <stdio.h>
#include <stdlib.h>
#include <string.h>
#include <stdint.h>
#include <math.h>
#include <time.h>
#include <errno.h>
#include <limits.h>
#include <signal.h>
#include <wchar.h>
#include <unistd.h>
END
cc -E unit.c > unit.i
{ while cat unit.i; do :; done; } 2> /dev/null | head -c 1048576 > text
run "1 MiB of preprocessed headers"
run "1 MiB of preprocessed headers, with the place of each token" places
{ many ' ' 16776704; echo '#'; many 'x ' 500; } > text
run "16 MiB of blanks, a # and 250 words, with the place of each token" places
