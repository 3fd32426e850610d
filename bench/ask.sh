#!/bin/bash
# Times the decider on goals such as it is asked for small functions: whether some run gets to a fragment at all
# (`hit`), and whether one gets there without undefined behaviour before (`free`). It builds a small program over
# stk_query in a folder of its own, outside the repository:
#   bash bench/ask.sh
# It prints a row for each goal: what was said; the terms of the store; the AND gates, variables and clauses of the
# goal; the conflicts (steps of the derivation or log); the processor seconds of the program, which reads, rewrites
# and asks, and of minisat (Debian's package `minisat`, where it is there) on the same clauses, with its conflicts.
# Goals over at most 16 bits are tried, and their clauses are made for minisat alone.
set -eu
. "$(dirname "$0")/program.sh"
build_program askbench stk_base stk_gates stk_arith stk_terms stk_blast stk_clauses stk_check stk_cnf \
    stk_goal_clauses stk_propagate stk_solver stk_rewrite stk_query <<'END'
//! Asks a goal in postfix notation, or writes its clauses.
#![tactic(auto)]

ghost use Rattle.std.specs.Prelude.{◌≤◌, ◌<◌, length};
ghost use Rattle.stk_rewrite.specs.Normal.{IsNormal};

use std::alloc::Global;
use std::env;
use std::io::{self, Read, Write};
use stk_base::{List, NoMemory};
use stk_clauses::Cnf;
use stk_goal_clauses::{clauses_for, has_room};
use stk_query::{Cdcl, Decider, Verdict};
use stk_rewrite::simplify;
use stk_terms::{TermId, TermOp, Terms};


const BUDGET: u32 = 20_000;

// The operator of a word, and how many arguments it has.
fn operator(word: &str) -> (TermOp, usize) {
    let mut parts = word.split(':');
    let name = parts.next().unwrap_or("");
    let first = parts.next().unwrap_or("8").parse::<u8>().unwrap_or(0);
    match name.as_bytes() {
        b"x" => (TermOp::Input(0), 0),
        b"y" => (TermOp::Input(1), 0),
        b"not" => (TermOp::Not, 1),
        b"neg" => (TermOp::Neg, 1),
        b"and" => (TermOp::And, 2),
        b"or" => (TermOp::Or, 2),
        b"add" => (TermOp::Add, 2),
        b"sub" => (TermOp::Sub, 2),
        b"mul" => (TermOp::Mul, 2),
        b"udiv" => (TermOp::UDiv, 2),
        b"urem" => (TermOp::URem, 2),
        b"shl" => (TermOp::Shl, 2),
        b"eq" => (TermOp::Eq, 2),
        b"ult" => (TermOp::ULt, 2),
        b"slt" => (TermOp::SLt, 2),
        b"ite" => (TermOp::Ite, 3),
        b"bits" => (TermOp::Extract(0, first), 1),
        b"zeros" => (TermOp::ZeroExt(first), 1),
        b"signs" => (TermOp::SignExt(first), 1),
        _ => (
            TermOp::Constant(first, name.parse::<u128>().unwrap_or(0)),
            0,
        ),
    }
}

// Makes the term of a word over the last terms of the stack, if it can be made, and puts it in their place.
fn apply(terms: &mut Terms, stack: &mut Vec<TermId>, word: &str) -> Result<(), NoMemory> {
    let (op, count) = operator(word);
    if count > stack.len() {
        return Ok(());
    }
    let first = stack.len() - count;
    let (_, args) = stack.as_slice().split_at(first);
    if !terms.can_make(op, args) {
        return Ok(());
    }
    let id = terms.make(op, args)?;
    stack.truncate(first);
    stack.push(id)?;
    Ok(())
}

// A store over one input of this width, or over two.
fn store_of(alloc: Global, width: u8, one: bool) -> Result<Terms, NoMemory>
    requires least { 1 ≤ width }
    requires most { width ≤ 64 }
{
    if one {
        let widths = vec![in alloc; width]?;
        return Ok(Terms::new(alloc, List::from_vec(widths)));
    }
    let widths = vec![in alloc; width, width]?;
    Ok(Terms::new(alloc, List::from_vec(widths)))
}

// What is said of a goal, with the steps.
fn said(verdict: &Verdict) -> (&'static str, usize) {
    match verdict {
        Verdict::Satisfied(_) => ("satisfied", 0),
        Verdict::Tried => ("tried", 0),
        Verdict::Refuted(_, derivation) => ("refuted", derivation.steps.len()),
        Verdict::Undecided(_, log) => ("undecided", log.steps.len()),
    }
}

// Writes clauses in DIMACS form.
fn write_out(out: &mut impl Write, cnf: &Cnf) -> io::Result<()> {
    writeln!(out, "p cnf {} {}", cnf.vars, cnf.store.count())?;
    for id in 0..cnf.store.count() {
        for lit in cnf.store.clause(id) {
            if lit.is_negated() {
                write!(out, "-")?;
            }
            write!(out, "{} ", u64::from(lit.variable()) + 1)?;
        }
        writeln!(out, "0")?;
    }
    Ok(())
}

enum Done {
    Bad,
    Said(&'static str, usize, usize),
    Clauses(Cnf),
}

// Asks a goal, or makes its clauses.
fn answered(alloc: Global, terms: &Terms, goal: TermId, ask: bool) -> Result<Done, NoMemory>
    requires exists { goal.0 < length terms.now.terms }
    requires normal { IsNormal terms.now goal.0 }
{
    if terms.width(goal) != 1 || !has_room(alloc, terms, goal)? {
        return Ok(Done::Bad);
    }
    if !ask {
        return Ok(Done::Clauses(clauses_for(alloc, terms, goal)?));
    }
    let mut decider = Cdcl::new(alloc);
    let verdict = decider.ask(terms, goal, BUDGET)?;
    let (name, steps) = said(&verdict);
    Ok(Done::Said(name, steps, terms.count()))
}

// The term that words say, if they say one.
fn goal_of(alloc: Global, terms: &mut Terms, text: &str) -> Result<Option<TermId>, NoMemory> {
    let mut stack = Vec::new(alloc);
    for word in text.split(' ') {
        apply(terms, &mut stack, word)?;
    }
    Ok(stack.pop())
}

// What is answered of a text over one input or two of a width.
fn outcome(alloc: Global, text: &str, width: u8, one: bool, ask: bool) -> Result<Done, NoMemory> {
    if width < 1 || width > 64 {
        return Ok(Done::Bad);
    }
    let mut terms = store_of(alloc, width, one)?;
    let Some(last) = goal_of(alloc, &mut terms, text)? else {
        return Ok(Done::Bad);
    };
    if last.0 >= terms.count() {
        return Ok(Done::Bad);
    }
    let goal = simplify(alloc, &mut terms, last)?;
    answered(alloc, &terms, goal, ask)
}

fn main(rt: HostRuntime) -> io::Result<()> {
    let mut words = env::args(&rt)?;
    let _ = words.next();
    let width = words.next().and_then(|w| w.parse::<u8>().ok()).unwrap_or(0);
    let one = words.next().and_then(|w| w.parse::<u8>().ok()).unwrap_or(0) == 1;
    let ask = words.next().is_none();
    let mut text = String::new(rt.alloc());
    let mut input = rt.stdin();
    input.read_to_string(&mut text)?;
    match outcome(rt.alloc(), text.as_str(), width, one, ask) {
        Ok(Done::Said(name, steps, count)) => println!(rt; "{name} {steps} {count}"),
        Ok(Done::Clauses(cnf)) => {
            let mut out = rt.stdout();
            write_out(&mut out, &cnf)
        }
        Ok(Done::Bad) => println!(rt; "bad 0 0"),
        Err(NoMemory) => println!(rt; "memory 0 0"),
    }
}
END
cat > goals.py <<'END'
import resource, shutil, subprocess, sys

def most(w): return (1 << (w - 1)) - 1
def least(w): return 1 << (w - 1)
def ones(w): return (1 << w) - 1

# a goal: the width of its inputs, how many there are, and its words
GOALS = []
def goal(name, width, inputs, hit, breaks):
    GOALS.append((name + ', hit', width, inputs, hit))
    GOALS.append((name + ', free', width, inputs, hit + ' ' + breaks + ' not and' if breaks else hit))

def less_after_adding(w, signed):
    hit = f'x 100:{w} add x ' + ('slt' if signed else 'ult')
    return hit, f'{most(w) - 100}:{w} x slt' if signed else ''
for name, w, signed in [('int x + 100 < x', 32, True), ('unsigned x + 100 < x', 32, False), ('long x + 100 < x', 64, True)]:
    goal(name, w, 1, *less_after_adding(w, signed))
# an address x and a length y without a sign: the sum leaves 2^64
goal('buf + len < buf', 64, 2, 'x y add x ult', 'x y add x ult')
# x % y with signs is violated for the least number and -1; the fragment is y == -1 and x the least number
for w in (32, 64):
    goal(f'x % y with -1, {w} bits', w, 2, f'y {ones(w)}:{w} eq x {least(w)}:{w} eq and', f'y {ones(w)}:{w} eq x {least(w)}:{w} eq and')
# x * y / y != x without signs, in w bits; undefined where y is 0; with the product in range in `exact`
for w in (8, 16, 32):
    hit = f'x y mul y udiv x eq not'
    goal(f'x * y / y != x, {w} bits', w, 2, hit, f'y 0:{w} eq')
    GOALS.append((f'x * y / y != x, {w} bits, no overflow', w, 2, f'{hit} y 0:{w} eq not and x zeros:{2 * w} y zeros:{2 * w} mul {ones(w)}:{2 * w} ult and'))
# 1 << k is 0 where k is too large, and violated there
goal('1 << k == 0', 32, 1, '1:32 x shl 0:32 eq', '31:32 x ult')
# a 64-bit division by zero: the quotient is x, and y is 0
goal('x / y with y == 0, 64 bits', 64, 2, 'x y udiv x eq y 0:64 eq and', 'y 0:64 eq')

# the processor seconds of all programs that ended, the system's among them
def seconds():
    used = resource.getrusage(resource.RUSAGE_CHILDREN)
    return used.ru_utime + used.ru_stime

def run(words, text):
    before = seconds()
    said = subprocess.run(words, input=text, capture_output=True, text=True).stdout
    return seconds() - before, said

minisat = shutil.which('minisat')
for name, width, inputs, words in GOALS:
    text = words
    took, said = run([sys.argv[1], str(width), str(inputs)], text)
    verdict, steps, terms = said.split()
    _, clauses = run([sys.argv[1], str(width), str(inputs), 'clauses'], text)
    _, _, variables, count = clauses.split('\n')[0].split()
    row = f'{name}: {verdict}, {terms} terms, {int(variables) - width * inputs} gates, {variables} variables, {count} clauses, {steps} conflicts, {took:.3f} s'
    if minisat:
        open('list.cnf', 'w').write(clauses)
        theirs, out = run([minisat, '-cpu-lim=120', 'list.cnf'], '')
        conflicts = [line for line in out.split('\n') if line.startswith('conflicts')]
        row += f'; minisat {out.split()[-1].lower()}, {conflicts[0].split()[2] if conflicts else 0} conflicts, {theirs:.3f} s'
    print(row)
END
python3 goals.py "$program"
