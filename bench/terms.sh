#!/bin/bash
# Times the store of terms. It builds a small program over stk_terms in a folder of its own, outside the repository:
#   bash bench/terms.sh
# The program makes terms over four inputs and values the last one: a chain of sums, differences and exclusive ors of
# the two terms before. For each count it prints the processor seconds of the whole run, the greatest memory that it
# held, and the bytes a term.
set -eu
. "$(dirname "$0")/program.sh"
ending=$making$counting
build_program termsbench stk_base stk_terms <<'END'
//! Makes as many terms as the input says, and values the last one.
#![tactic(auto)]

use std::alloc::Global;
use std::io::{self, Read};
use stk_base::{List, NoMemory};
use stk_terms::{Residues, TermId, TermOp, Terms};

// The operator of the next term.
fn next(k: usize) -> TermOp {
    match k % 3 {
        0 => TermOp::Add,
        1 => TermOp::Sub,
        _ => TermOp::Xor,
    }
}

fn answer(alloc: Global, count: usize) -> Result<(usize, u128), NoMemory> {
    let widths = vec![in alloc; 32, 32, 32, 32]?;
    let mut terms = Terms::new(alloc, List::from_vec(widths));
    let mut first = made(&mut terms, TermOp::Input(0), &[])?;
    let mut second = made(&mut terms, TermOp::Input(1), &[])?;
    for k in 0..count {
        let id = made(&mut terms, next(k), &[second, first])?;
        first = second;
        second = id;
    }
    let numbers = vec![in alloc; 1, 2, 3, 4]?;
    let residues = Residues {
        numbers: List::from_vec(numbers),
    };
    let count = terms.count();
    if second.0 < count && terms.has_residues(&residues) {
        Ok((count, terms.value(second, &residues)?))
    } else {
        Ok((count, 0))
    }
}

fn main(rt: HostRuntime) -> io::Result<()> {
    let Some(count) = count_of(&rt)? else {
        return Ok(());
    };
    let Ok((made, value)) = answer(rt.alloc(), count) else {
        return Ok(());
    };
    println!(rt; "{made} terms, {value} is the last one's value")
}
END
empty=$(echo 0 | /usr/bin/time -f %M "$program" 2>&1 > result | tail -1)
for count in 100000 1000000 2000000 5000000 10000000; do
    echo "$count" > text
    read -r user system held < <(/usr/bin/time -f '%U %S %M' "$program" < text 2>&1 > result)
    echo "$count: $user s and $system s of the system, $held KiB, $(((held - empty) * 1024 / count)) bytes a term, $(cat result)"
done
