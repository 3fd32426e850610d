#!/bin/bash
# Times rewriting. It builds a small program over stk_terms and stk_rewrite in a folder of its own, outside the
# repository:
#   bash bench/rewrite.sh
# The program makes random terms over three inputs, each over inputs and some of the terms just before, sums them up
# so that all are parts of one, and rewrites that one. For each count it prints the processor seconds, the parts with
# their cost before and after, and the seconds of the same with the terms alone and no rewriting.
set -eu
. "$(dirname "$0")/program.sh"
ending=$making$counting
build_program rewritebench stk_base stk_terms stk_rewrite <<'END'
//! Makes as many random terms as the input says, and rewrites their sum.
#![tactic(auto)]

use std::alloc::Global;
use std::env;
use std::io::{self, Read};
use stk_base::{List, NoMemory};
use stk_rewrite::simplify;
use stk_terms::{TermId, TermOp, Terms};

// Operators to choose from.
static OPERATORS: [TermOp; 20] = [
    TermOp::Constant(8, 0),
    TermOp::Constant(8, 1),
    TermOp::Constant(8, 255),
    TermOp::Constant(8, 100),
    TermOp::Not,
    TermOp::Neg,
    TermOp::And,
    TermOp::Or,
    TermOp::Xor,
    TermOp::Add,
    TermOp::Add,
    TermOp::Sub,
    TermOp::Mul,
    TermOp::UDiv,
    TermOp::URem,
    TermOp::Shl,
    TermOp::LShr,
    TermOp::AShr,
    TermOp::Xor,
    TermOp::Add,
];

// The next number of a linear congruential generator.
fn next(seed: u64) -> u64 {
    seed.wrapping_mul(6_364_136_223_846_793_005)
        .wrapping_add(1_442_695_040_888_963_407)
}

// An input, or a random one of the last terms.
fn recent(seed: u64, count: usize) -> TermId {
    if (seed >> 50) % 4 == 0 {
        TermId((seed >> 20) as usize % 3)
    } else {
        TermId(count.saturating_sub((seed >> 33) as usize % 12 + 1))
    }
}

// A term of a random operator.
fn random(terms: &mut Terms, seed: u64) -> Result<TermId, NoMemory> {
    let count = terms.count();
    let op = OPERATORS[(seed >> 40) as usize % 20];
    let a = recent(next(seed), count);
    let b = recent(next(next(seed)), count);
    match op {
        TermOp::Constant(_, _) => made(terms, op, &[]),
        TermOp::Not | TermOp::Neg => made(terms, op, &[a]),
        _ => made(terms, op, &[a, b]),
    }
}

// How many gates an operator of width 8 has at most.
fn bound(op: TermOp) -> u64 {
    match op {
        TermOp::Neg | TermOp::Add | TermOp::Sub => 80,
        TermOp::And | TermOp::Or | TermOp::Xor => 24,
        TermOp::Mul => 432,
        TermOp::UDiv | TermOp::URem => 1056,
        TermOp::Shl | TermOp::LShr | TermOp::AShr => 192,
        _ => 0,
    }
}

// How many parts a term has, and what they cost.
fn measured(terms: &Terms, id: TermId) -> Result<(usize, u64), NoMemory> {
    let mut count: usize = 0;
    let mut cost: u64 = 0;
    if id.0 < terms.count() {
        let parts = terms.parts(id)?;
        for (place, part) in parts.as_slice().iter().enumerate() {
            if *part && place < terms.count() {
                count = count.saturating_add(1);
                cost = cost.saturating_add(bound(terms.op(TermId(place))));
            }
        }
    }
    Ok((count, cost))
}

fn answer(alloc: Global, count: usize, rewrites: bool) -> Result<((usize, u64), (usize, u64)), NoMemory> {
    let widths = vec![in alloc; 8, 8, 8]?;
    let mut terms = Terms::new(alloc, List::from_vec(widths));
    for key in 0..3u32 {
        let _ = made(&mut terms, TermOp::Input(key), &[])?;
    }
    let mut seed = 1;
    let mut all = TermId(0);
    for _ in 0..count {
        seed = next(seed);
        let id = random(&mut terms, seed)?;
        all = made(&mut terms, TermOp::Add, &[all, id])?;
    }
    let before = measured(&terms, all)?;
    if rewrites && all.0 < terms.count() {
        let id = simplify(alloc, &mut terms, all)?;
        return Ok((before, measured(&terms, id)?));
    }
    Ok((before, before))
}

fn main(rt: HostRuntime) -> io::Result<()> {
    let Some(count) = count_of(&rt)? else {
        return Ok(());
    };
    let rewrites = env::args(&rt)?.count() > 1;
    let Ok(((parts, cost), (parts_left, cost_left))) = answer(rt.alloc(), count, rewrites) else {
        return Ok(());
    };
    println!(rt; "{parts} parts of cost {cost}, then {parts_left} of cost {cost_left}")
}
END
for count in 100000 200000 500000 1000000; do
    echo "$count" > text
    read -r made < <(/usr/bin/time -f '%U' "$program" < text 2>&1 > result)
    read -r took held < <(/usr/bin/time -f '%U %M' "$program" rewrite < text 2>&1 > result)
    echo "$count: $took s, $made s of it without rewriting, $held KiB, $(cat result)"
done
