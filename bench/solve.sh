#!/bin/bash
# Times the search for values or a derivation beside minisat (Debian's package `minisat`), on the same clauses in one
# run: random clauses of three literals at 4.26 clauses a variable, 20 lists each of 150 and of 200 variables; 8 and 9
# pigeons in 7 and 8 holes; whether two multipliers of 5, 6 and 8 bits and two adders of 64 bits differ where their
# operands are exchanged; and the factors of 655,957. It builds a small program over stk_solver in a folder of its
# own, outside the repository:
#   bash bench/solve.sh
# It prints a row for each kind: processor seconds, and how many clauses were learnt for the refutations (minisat: its
# conflicts, and in brackets those of all lists, as it tells them of satisfied lists too). Each refutation is passed
# to `check`, in the time that is shown. The sum leaves out rows in which one of the two needs more than 200,000
# conflicts.
set -eu
command -v minisat > /dev/null || { echo 'minisat is missing: apt-get install minisat'; exit 1; }
. "$(dirname "$0")/program.sh"
build_program solvebench stk_base stk_clauses stk_check stk_propagate stk_solver <<'END'
//! Solves clauses in DIMACS form.
#![tactic(auto)]

use std::alloc::Global;
use std::io::{self, Read, Write};
use stk_base::NoMemory;
use stk_check::check;
use stk_clauses::{Cnf, Lit, Store, are_distinct};
use stk_solver::{Answer, solve};

const BUDGET: u32 = 200_000;

fn put(store: &mut Store, clause: &[Lit]) -> Result<(), NoMemory> {
    if store.count() < 1_000_000 && are_distinct(clause) {
        store.push(clause)?;
    }
    Ok(())
}

/// What was read of a number: its digits so far, and its sign.
#[derive(Clone, Copy)]
struct Reading {
    number: u32,
    negative: bool,
    digits: bool,
}

/// The clauses of a text of lines, each a clause of numbers that ends with 0. Lines that begin with `c` or `p` are left out.
fn read(alloc: Global, bytes: &[u8]) -> Result<Cnf, NoMemory> {
    let mut store = Store::new(alloc);
    let mut clause = Vec::new(alloc);
    let mut vars = 0u32;
    let mut now = Reading { number: 0, negative: false, digits: false };
    let mut comment = false;
    for byte in bytes {
        if comment {
            comment = *byte != b'\n';
        } else if *byte == b'c' || *byte == b'p' {
            comment = true;
        } else if *byte == b'-' {
            now.negative = true;
        } else if *byte >= b'0' && *byte <= b'9' {
            now.digits = true;
            if now.number < 10_000_000 {
                now.number = now.number * 10 + (*byte - b'0') as u32;
            }
        } else if now.digits {
            if now.number == 0 {
                put(&mut store, &clause)?;
                clause.clear();
            } else if now.number < 10_000_000 {
                vars = vars.max(now.number);
                clause.push(Lit::new(now.number - 1, now.negative))?;
            }
            now = Reading { number: 0, negative: false, digits: false };
        }
    }
    Ok(Cnf { vars, store })
}

/// What was answered, and how many steps a derivation has that the check accepts.
fn answer(alloc: Global, bytes: &[u8]) -> Result<(&'static str, usize), NoMemory> {
    let cnf = read(alloc, bytes)?;
    if !cnf.is_within() || cnf.store.count() > 1_000_000 {
        return Ok(("refused", 0));
    }
    match solve(alloc, &cnf, BUDGET)? {
        Answer::Satisfied(_) => Ok(("satisfied", 0)),
        Answer::Refuted(derivation) => {
            if check(alloc, &cnf, &derivation)? {
                Ok(("refuted", derivation.steps.len()))
            } else {
                Ok(("wrong", 0))
            }
        }
        Answer::Spent(log) => Ok(("spent", log.steps.len())),
    }
}

fn main(rt: HostRuntime) -> io::Result<()> {
    let mut bytes = Vec::new(rt.alloc());
    let mut input = rt.stdin();
    input.read_to_end(&mut bytes)?;
    match answer(rt.alloc(), &bytes) {
        Ok((said, steps)) => println!(rt; "{said} {steps}"),
        Err(NoMemory) => println!(rt; "memory 0"),
    }
}
END
cp "$top/bench/lists.py" .
cat > solving.py <<'END'
import random, resource, subprocess, sys
from lists import pigeons, random3

class Circuit:
    def __init__(self): self.vars, self.clauses = 0, []
    def var(self): self.vars += 1; return self.vars
    def row(self, n): return [self.var() for _ in range(n)]
    def both(self, a, b):
        z = self.var(); self.clauses += [[-z, a], [-z, b], [z, -a, -b]]; return z
    def differ(self, a, b): return -self.both(-self.both(a, -b), -self.both(-a, b))
    def full(self, a, b, c):
        x = self.differ(a, b)
        return self.differ(x, c), -self.both(-self.both(a, b), -self.both(x, c))
    def add_bit(self, a, b, c):
        given = [x for x in (a, b, c) if x is not None]
        if len(given) == 3: return self.full(*given)
        if len(given) == 2: return self.differ(*given), self.both(*given)
        return given[0], None
    def add(self, a, b):
        out, c = [], None
        for x, y in zip(a, b):
            s, c = self.add_bit(x, y, c); out.append(s)
        return out
    def multiply(self, a, b):
        rest = [self.both(x, b[0]) for x in a]; out = [rest[0]]; rest = rest[1:] + [None]
        for bit in b[1:]:
            row, c, new = [self.both(x, bit) for x in a], None, []
            for x, y in zip(rest, row):
                s, c = self.add_bit(x, y, c); new.append(s)
            out.append(new[0]); rest = new[1:] + [c]
        return out + rest
    def some_differ(self, a, b): self.clauses.append([self.differ(x, y) for x, y in zip(a, b)]); return self.vars, self.clauses

def multipliers(n):
    c = Circuit(); a, b = c.row(n), c.row(n)
    return c.some_differ(c.multiply(a, b), c.multiply(b, a))
def adders(n):
    c = Circuit(); a, b = c.row(n), c.row(n)
    return c.some_differ(c.add(a, b), c.add(b, a))
def factors(product, n):
    c = Circuit(); a, b = c.row(n), c.row(n)
    for i, x in enumerate(c.multiply(a, b)):
        if x is not None: c.clauses.append([x if product >> i & 1 else -x])
    c.clauses += [a[1:], b[1:]]
    return c.vars, c.clauses

KINDS = [('20 random lists of 150 variables', [random3(150, 150000 + s) for s in range(20)]),
         ('20 random lists of 200 variables', [random3(200, 200000 + s) for s in range(20)]),
         ('8 pigeons in 7 holes', [pigeons(7)]), ('9 pigeons in 8 holes', [pigeons(8)]),
         ('multipliers of 5 bits', [multipliers(5)]), ('multipliers of 6 bits', [multipliers(6)]), ('multipliers of 8 bits', [multipliers(8)]),
         ('adders of 64 bits', [adders(64)]), ('the factors of 655,957', [factors(655957, 10)])]
BUDGET = 200000

def run(words, text):
    before = resource.getrusage(resource.RUSAGE_CHILDREN).ru_utime
    said = subprocess.run(words, input=text, capture_output=True, text=True).stdout
    return resource.getrusage(resource.RUSAGE_CHILDREN).ru_utime - before, said
def theirs(text):
    open('list.cnf', 'w').write(text)
    took, said = run(['minisat', 'list.cnf'], '')
    conflicts = int(next(l for l in said.split('\n') if l.startswith('conflicts')).split()[2])
    return took, conflicts, said.split()[-1]

sum_ours = sum_theirs = 0.0
for name, lists in KINDS:
    ours_took = theirs_took = 0.0
    learnt = refuted = conflicts = 0
    ends = True
    for count, clauses in lists:
        text = f'p cnf {count} {len(clauses)}\n' + ''.join(' '.join(map(str, c)) + ' 0\n' for c in clauses)
        took, said = run([sys.argv[1]], text)
        kind, steps = said.split()
        other, found, verdict = theirs(text)
        ours_took += took; theirs_took += other; conflicts += found
        if kind == 'refuted': learnt += int(steps); refuted += found
        ends = ends and kind != 'spent' and found <= BUDGET
        if (kind == 'refuted') != (verdict == 'UNSATISFIABLE') and kind != 'spent': print('the answers differ')
    print(f'{name}: {ours_took:.3f} s, {learnt} learnt; minisat {theirs_took:.3f} s, {refuted} [{conflicts}]' + ('' if ends else '; one needs more than 200,000'))
    if ends: sum_ours += ours_took; sum_theirs += theirs_took
print(f'in all {sum_ours:.3f} s, minisat {sum_theirs:.3f} s: {sum_ours / sum_theirs:.2f} times')
END
python3 solving.py "$program"
