#!/bin/bash
# Times propagation over two watched literals: a chain of 1,000,000 clauses by which each literal forces the next one,
# and random clauses of three literals over 20,000 variables, four clauses a variable, where variables are assumed in
# turn, with random signs, as far as a clause with only false literals, 200 times. It builds a small program over
# stk_propagate in a folder of its own, outside the repository:
#   bash bench/propagate.sh
# It prints the processor seconds of the program that only makes the clauses and the trail, and of the one that
# propagates too, and how many literals it made true.
set -eu
. "$(dirname "$0")/program.sh"
invariant() { # the function $1, its loop $2, and what the loop keeps
    mkdir -p "$work/crates/propagatebench/proofs/$1"
    cat > "$work/crates/propagatebench/proofs/$1/Invariants.antt" <<END
use Rattle.std.proofs.Common.{◌≡◌, ℕ}
use Rattle.stk_propagate.specs.Fitting.{Fits}
use Rattle.propagatebench.proofs.$1.Given as goal

abbrev pub invariant-loop-$2 : goal.invariant-loop-$2
invariant-loop-$2 l = record { fits : $3; vars : l.trail.assigned.vars ≡ $4 }
END
}
invariant round variable 'Fits l.trail l.store' l.vars
invariant rounds turn 'Fits l.trail l.store' l.vars
build_program propagatebench stk_base stk_clauses stk_propagate <<'END'
//! Propagates.
#![tactic(auto)]
ghost use Rattle.std.specs.Prelude.{◌≡◌, ◌*◌, ◌<◌, List};
ghost use Rattle.stk_clauses.specs.declared.literal.Lit.{Lit};
ghost use Rattle.stk_propagate.specs.Fitting.{Fits};

use std::alloc::Global;
use std::env;
use std::io::{self, Write};
use stk_base::NoMemory;
use stk_clauses::{Cnf, Lit, Store, are_distinct};
use stk_propagate::Trail;

const LINKS: u32 = 1_000_000;
const VARS: u32 = 20_000;
const ROUNDS: u32 = 200;

fn put(store: &mut Store, clause: &[Lit]) -> Result<(), NoMemory> {
    if store.count() < 2_000_000 && are_distinct(clause) {
        store.push(clause)?;
    }
    Ok(())
}

fn next(state: u64) -> u64 {
    state.wrapping_mul(6364136223846793005).wrapping_add(1442695040888963407)
}

fn random_literal(state: u64) -> Lit {
    Lit((state >> 33) as u32 % (2 * VARS))
}

fn random_clauses(alloc: Global) -> Result<Cnf, NoMemory> {
    let mut store = Store::new(alloc);
    let mut state = 1u64;
    for _i in 0..4 * VARS {
        let first = next(state);
        let second = next(first);
        state = next(second);
        put(&mut store, &[random_literal(first), random_literal(second), random_literal(state)])?;
    }
    Ok(Cnf { vars: VARS, store })
}

fn chain(alloc: Global) -> Result<Cnf, NoMemory> {
    let mut store = Store::new(alloc);
    for i in 0..LINKS {
        put(&mut store, &[Lit(2 * i + 1), Lit(2 * i + 2)])?;
    }
    Ok(Cnf { vars: LINKS + 1, store })
}

/// Makes the literal true, if it is unassigned, and propagates. Says whether to go on.
fn step(trail: &mut Trail, store: &Store, lit: Lit) -> bool
    requires fits { Fits trail.old store.now }
    requires below { lit.0 < 2 * trail.old.assigned.vars }
    ensures fits { Fits trail.new store.now }
    ensures vars { trail.new.assigned.vars ≡ trail.old.assigned.vars }
{
    if let Some(_) = trail.propagate(store) {
        return false;
    }
    if let Some(_) = trail.value(lit) {
        return true;
    }
    trail.assume(lit, store);
    true
}

/// Goes back to where nothing is true, if the first literal was assumed.
fn undo(trail: &mut Trail)
    ensures fits { (cs : List (List Lit)) → Fits trail.old cs → Fits trail.new cs }
    ensures vars { trail.new.assigned.vars ≡ trail.old.assigned.vars }
{
    let literals = trail.assigned();
    if literals.len() == 0 {
        return;
    }
    let lit = literals[0];
    if let Some(_) = trail.reason(lit) {
        return;
    }
    trail.back_to(0);
}

/// Assumes each unassigned variable in turn, as far as a clause with only false literals.
fn round(trail: &mut Trail, store: &Store, vars: u32, seed: u64, random: bool)
    requires fits { Fits trail.old store.now }
    requires vars { trail.old.assigned.vars ≡ vars }
    ensures fits { Fits trail.new store.now }
    ensures vars { trail.new.assigned.vars ≡ vars }
{
    let mut state = seed;
    for variable in 0..vars {
        state = next(state);
        let sign = if random { (state >> 40) as u32 % 2 } else { 0 };
        if variable < 2_000_000 && !step(trail, store, Lit(2 * variable + sign)) {
            return;
        }
    }
}

fn rounds(trail: &mut Trail, store: &Store, vars: u32, turns: u32, random: bool) -> u64
    requires fits { Fits trail.old store.now }
    requires vars { trail.old.assigned.vars ≡ vars }
{
    let mut total = 0u64;
    for turn in 0..turns {
        round(trail, store, vars, turn as u64, random);
        total = total.wrapping_add(trail.assigned().len() as u64);
        undo(trail);
    }
    total
}

fn answer(alloc: Global, long: bool, turns: u32) -> Result<u64, NoMemory> {
    let cnf = if long { chain(alloc)? } else { random_clauses(alloc)? };
    if !cnf.is_within() {
        return Ok(0);
    }
    let vars = cnf.vars;
    let mut trail = Trail::reserve(alloc, vars, &cnf.store)?;
    Ok(rounds(&mut trail, &cnf.store, vars, turns, !long))
}

fn main(rt: HostRuntime) -> io::Result<()> {
    let words = env::args(&rt)?.count();
    let turns = if words == 1 || words == 3 { 0 } else if words == 2 { 1 } else { ROUNDS };
    match answer(rt.alloc(), words < 3, turns) {
        Ok(total) => println!(rt; "{total} literals"),
        Err(NoMemory) => println!(rt; "no memory"),
    }
}
END
timed 'making a chain of 1,000,000 clauses'
timed 'making it and propagating' chain
timed 'making 80,000 random clauses' random made
timed 'making them and propagating, 200 times' random made propagated
