#!/bin/bash
# Times walks over all branches, over terms, and the goals of functions. It builds a small program in a folder of its
# own, outside the repository, from what the crate of tests of walks has of the way from a text to its functions:
#   bash bench/walk.sh
# For each function it prints its nodes, input bits and candidates; the processor seconds of a walk, and the nodes that
# are walked in a second; and for some the processor seconds of the goals of all candidates, each with no condition and
# with all of them, and how many terms there are at the first goal and at the last. No goal is decided.
#   PROGRAM TIMES < FILE.c              walks each function so many times
#   PROGRAM TIMES goals < FILE.c        and makes its goals each time
set -eu
. "$(dirname "$0")/program.sh"
# takes the modules of the crate of tests, with what is proved of them
into=$work/crates/walkbench
mkdir -p "$into/src"
cp "$top"/crates/stk_walk_tests/src/{asking,functions}.rt "$into/src/"
cp -r "$top/crates/stk_walk_tests/proofs" "$into/"
rm -r "$into"/proofs/{comparing,Covering.antt}
sed -i '/Covering/d' "$into/proofs/Lib.antt"
find "$into" -type f -exec sed -i -E 's/\bstk_walk_tests\b/walkbench/' {} +
build_program walkbench $(below stk_walk_tests) <<'END_OF_PROGRAM'
//! Walks the functions of the input over terms, and makes their goals.
#![tactic(auto)]

mod asking;
mod functions;

ghost use Rattle.std.specs.Prelude.{◌≡◌, ◌+◌, ◌<◌, ◌≤◌, ◌^◌, true, length, sum, IfOk};
ghost use Rattle.stk_base.specs.Causes.{Rose};
ghost use Rattle.stk_tree.specs.View.{view_function};
ghost use Rattle.stk_meaning.specs.Lists as lists;
ghost use Rattle.stk_function_types.specs.Nodes.{typing_in};
ghost use Rattle.stk_goals.specs.Searched.{IsSearched};
ghost use Rattle.stk_terms.specs.Values.{width_at};
ghost use Rattle.stk_terms.specs.Cost.{cost};
ghost use Rattle.stk_rewrite.specs.Normal.{IsNormal};
ghost use Rattle.stk_goal_clauses.specs.Laws.{IsNever};
ghost use Rattle.stk_query.specs.Verdicts.{is_undecided, is_no, IsVerdict};

use crate::asking::{Asker, ask_all};
use crate::functions::{Visitor, visit_functions};
use std::alloc::Global;
use std::env;
use std::io::{self, Read};
use stk_base::NoMemory;
use stk_findings::{FunctionGoals, SearchedFunction};
use stk_goals::Query;
use stk_path_runs::input_bits;
use stk_query::{Decider, MOST_BUDGET, Verdict};
use stk_terms::{TermId, Terms};

// Counts the terms of goals, and has no answer.
#[derive(Drop)]
struct Unasked {
    first: usize,
    terms: usize,
}

impl Decider for Unasked {
    ghost given_up = { λ c. 0 };

    fn ask(&mut self, terms: &Terms, goal: TermId, budget: u32) -> Result<Verdict, NoMemory>
        requires exists { goal.0 < length terms.now.terms }
        requires one { width_at terms.now goal.0 ≡ 1 }
        requires least { 1 ≤ budget }
        requires most { budget ≤ MOST_BUDGET }
        requires room { sum terms.now.inputs + cost terms.now goal.0 < 2 ^ 29 }
        requires normal { IsNormal terms.now goal.0 }
        ensures verdict { IfOk result (IsVerdict terms.now goal.0 budget) }
        ensures no { IfOk result (λ v. is_no v ≡ true → IsNever terms.now goal.0) }
        ensures tried { sum terms.now.inputs ≤ 16 → IsNever terms.now goal.0 → IfOk result (λ v. v ≡ Verdict.Tried) }
        ensures rose { IfOk result (λ v. is_undecided v ≡ true → Rose 0 0) }
        ensures later { 0 ≤ 0 }
    {
        let _ = goal;
        let _ = budget;
        self.terms = terms.count();
        if self.first == 0 {
            self.first = self.terms;
        }
        Err(NoMemory)
    }
}

impl Asker for Unasked {
    fn ask(
        &mut self,
        _alloc: Global,
        _searched: &SearchedFunction,
        goals: &mut FunctionGoals,
        query: &Query,
    ) -> Result<(), NoMemory> {
        let _ = goals.ask(self, query, MOST_BUDGET);
        Ok(())
    }
}

// What is walked, and what came of the last function.
#[derive(Drop)]
struct Walking {
    times: u32,
    goals: bool,
    nodes: u32,
    bits: u128,
    candidates: usize,
    first: usize,
    terms: usize,
}

// A walk, and the goals if they are wanted.
fn walk_once(
    alloc: Global,
    searched: &SearchedFunction,
    goals: bool,
    unasked: &mut Unasked,
) -> Result<(), NoMemory>
    requires searched { IsSearched searched.now.tables.now (view_function searched.now.function.now) }
    requires candidates { searched.now.candidates.now ≡ lists.candidates (typing_in searched.now.tables.now.places.types) (view_function searched.now.function.now) }
{
    if goals {
        return ask_all(alloc, searched, unasked);
    }
    let _ = FunctionGoals::new(
        alloc,
        searched.tables,
        searched.function,
        searched.candidates,
    )?;
    Ok(())
}

impl Visitor for Walking {
    fn visit(&mut self, alloc: Global, searched: &SearchedFunction) -> Result<(), NoMemory> {
        self.nodes = searched.function.body.node.number;
        self.bits = input_bits(searched.tables.setting().keys());
        self.candidates = searched.candidates.len();
        for _turn in 0..self.times {
            let mut unasked = Unasked { first: 0, terms: 0 };
            walk_once(alloc, searched, self.goals, &mut unasked)?;
            self.first = unasked.first;
            self.terms = unasked.terms;
        }
        Ok(())
    }
}

// Walks the functions of a text.
fn walked(alloc: Global, bytes: &[u8], times: u32, goals: bool) -> Result<Walking, NoMemory> {
    let mut walking = Walking {
        times,
        goals,
        nodes: 0,
        bits: 0,
        candidates: 0,
        first: 0,
        terms: 0,
    };
    visit_functions(alloc, bytes, &mut walking)?;
    Ok(walking)
}

fn main(rt: HostRuntime) -> io::Result<()> {
    let mut words = env::args(&rt)?;
    let _ = words.next();
    let times = words.next().and_then(|w| w.parse::<u32>().ok()).unwrap_or(1);
    let goals = words.next().is_some();
    let mut bytes = Vec::new(rt.alloc());
    let mut input = rt.stdin();
    input.read_to_end(&mut bytes)?;
    match walked(rt.alloc(), &bytes, times, goals) {
        Ok(w) => println!(rt; "{} {} {} {} {}", w.nodes, w.bits, w.candidates, w.first, w.terms),
        Err(NoMemory) => println!(rt; "no memory"),
    }
}
END_OF_PROGRAM
cat > functions.py <<'END'
import resource, subprocess, sys

# a function whose body begins with `first`, has so many of each part, and ends with `last`
def function(head, first, parts, last):
    return f'int f({head}) {{ {first}\n' + ''.join(part * count for part, count in parts) + last + ' }\n'

BYTES = 'unsigned char x, unsigned char y'
MIXED = 'if (x) y = x; if (y == 3) x = y; z = z + 1;\n'
KEPT = 'int x = k; int *p = &x; int s = 0; if (x == 3) *p = 4;'

# functions of many parts that are alike, of reads of a kept object, and of so many tests, assignments and sums
def mixed(count):
    return function(BYTES, 'int z = x;', [(MIXED, count)], 'return z;')

def reads(count):
    return function('int k', KEPT, [('s = x;\n', count)], 'return s < x;')

def tested(tests, assignments, sums):
    parts = [('if (x == 7) y = x;\n', tests), ('y = x;\n', assignments), ('z = z + 1;\n', sums)]
    return function(BYTES, 'int z = x;', parts, 'return z;')

FUNCTIONS = [
    ('10,000 nodes', False, mixed(500)),
    ('20,000 nodes', False, mixed(990)),
    ('1,000 reads of a kept object', False, reads(1000)),
    ('2,000 reads of a kept object', False, reads(2000)),
    ('500 candidates', True, tested(166, 3800, 250)),
    ('1,000 candidates', True, tested(333, 3600, 350)),
    ('2,000 candidates', True, tested(666, 2900, 500)),
]
WALKS, GOALS = 50, 4

# the processor seconds of the program with these words, and what it writes
def run(words, text):
    before = resource.getrusage(resource.RUSAGE_CHILDREN).ru_utime
    said = subprocess.run(words, input=text, capture_output=True, text=True).stdout.split()
    return resource.getrusage(resource.RUSAGE_CHILDREN).ru_utime - before, said

program = sys.argv[1]
for name, goals, text in FUNCTIONS:
    read, _ = run([program, '0'], text)
    walked, said = run([program, str(WALKS)], text)
    nodes, bits, candidates, _, _ = map(int, said)
    walk = max((walked - read) / WALKS, 1e-6)
    row = f'{name}: {nodes} nodes, {bits} input bits, {candidates} candidates; a walk {walk:.4f} s'
    row += f', {nodes / walk / 1e6:.2f} million nodes a second'
    if goals:
        made, said = run([program, str(GOALS), 'goals'], text)
        first, terms = map(int, said[3:])
        row += f'; {2 * candidates} goals {(made - read) / GOALS - walk:.4f} s, from {first} to {terms} terms'
    print(row)
END
python3 functions.py "$program"
