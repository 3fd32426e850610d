#!/bin/bash
# Times the check of a derivation: one step, the empty clause, by 1,000,001 hints on as many clauses, a chain of
# implications from the first variable to the last one and its negation. It builds a small program over stk_check in a
# folder of its own, outside the repository:
#   bash bench/check.sh
# It prints the processor seconds of the program that only makes the clauses and the derivation, and of the one that
# checks it too. Debian's packages have no checker of derivations by hints to set beside it (drat-trim, lrat-check and
# cake_lpr aren't among them).
set -eu
. "$(dirname "$0")/program.sh"
build_program checkbench stk_base stk_clauses stk_check <<'END'
//! Checks a derivation with many hints.
#![tactic(auto)]

use std::alloc::Global;
use std::env;
use std::io::{self, Write};
use stk_base::{List, NoMemory};
use stk_check::check;
use stk_clauses::{Cnf, Derivation, Derived, Lit, Store, are_distinct};

const VARS: u32 = 1_000_000;

fn put(store: &mut Store, clause: &[Lit]) -> Result<(), NoMemory> {
    if store.count() < 2_000_000 && are_distinct(clause) {
        store.push(clause)?;
    }
    Ok(())
}

/// The first variable is true, each one implies the next, and the last one is false.
fn chain(alloc: Global) -> Result<Cnf, NoMemory> {
    let mut store = Store::new(alloc);
    put(&mut store, &[Lit::new(0, false)])?;
    for variable in 1..VARS {
        let before = Lit::new(variable - 1, true);
        put(&mut store, &[before, Lit::new(variable, false)])?;
    }
    put(&mut store, &[Lit::new(VARS - 1, true)])?;
    Ok(Cnf { vars: VARS, store })
}

fn all_hints(alloc: Global, count: u32) -> Result<Derivation, NoMemory> {
    let mut hints = Vec::new(alloc);
    for id in 0..count {
        hints.push(id)?;
    }
    let mut steps = Vec::new(alloc);
    steps.push(Derived {
        clause: List::empty(alloc),
        hints: List::from_vec(hints),
    })?;
    Ok(Derivation {
        steps: List::from_vec(steps),
    })
}

fn answer(alloc: Global, checked: bool) -> Result<bool, NoMemory> {
    let cnf = chain(alloc)?;
    let derivation = all_hints(alloc, cnf.store.count())?;
    if checked && cnf.is_within() {
        return check(alloc, &cnf, &derivation);
    }
    Ok(false)
}

fn main(rt: HostRuntime) -> io::Result<()> {
    let checked = env::args(&rt)?.count() > 1;
    let said = match answer(rt.alloc(), checked) {
        Ok(true) => "refuted",
        Ok(false) => "not checked",
        Err(NoMemory) => "no memory",
    };
    println!(rt; "{said}")
}
END
timed 'making 1,000,001 clauses and hints'
timed 'making and checking them' check
