#!/bin/bash
# Sets the texts of clause lists and derivations beside other programs, and times the readers. It builds a small program
# over stk_proofs, stk_solver and stk_check in a folder of its own, outside the repository:
#   bash bench/proofs.sh [MEGABYTES]
# Interchange, over 20 random lists each of 40 and of 60 variables (three literals a clause, 4.26 clauses a variable),
# and 5 and 6 pigeons in 4 and 5 holes, all with comments and repeated literals: what `dimacs` writes is solved by
# minisat and by cadical with the solver's answer; each refutation of the solver, as LRAT, is accepted by bench/lrat.c,
# by lrat-check where it is on the path and, read again, by `check`; cadical's LRAT without its lines that delete is
# read and accepted by `check`, where the cadical on the path, or in CADICAL, writes LRAT (from version 1.7 on; Debian
# 12 has 1.5). It stops at the first that differs, and prints how many lists and derivations agreed.
# Speed: texts of so many megabytes, 100 if none is said: random clauses of three literals over a million variables; one
# clause of literals that differ; and steps of 3 to 12 literals and 4 to 30 hints. It prints processor seconds, and the
# most memory that was held, with the text in it. A list without clauses over all variables shows that they take none.
# Debian's packages: minisat, cadical, and from Debian 13 on drat-trim, which has lrat-check.
set -eu
megabytes=${1:-100}
for program in minisat cadical; do
    command -v $program > /dev/null || { echo "$program is missing: apt-get install $program"; exit 1; }
done
. "$(dirname "$0")/program.sh"
cc -O2 -o "$work/lrat" "$top/bench/lrat.c"
build_program proofsbench stk_base stk_clauses stk_check stk_propagate stk_solver stk_proofs <<'END'
//! Reads, writes, solves and checks texts of clause lists and derivations.
#![tactic(auto)]

use std::alloc::Global;
use std::env;
use std::fs;
use std::io::{self, Write};
use stk_base::NoMemory;
use stk_check::check;
use stk_clauses::Cnf;
use stk_proofs::{Text, dimacs, fits_lrat, lrat, read_dimacs, read_lrat};
use stk_solver::{Answer, solve};

const BUDGET: u32 = 200_000;

/// The clause list's text again.
fn again(alloc: Global, clauses: &[u8]) -> Result<Vec<u8>, Text> {
    let cnf = read_dimacs(alloc, clauses)?;
    Ok(dimacs(alloc, &cnf)?)
}

/// The derivation that refutes the clauses; `satisfied`, or `spent`.
fn refutation(alloc: Global, clauses: &[u8]) -> Result<Vec<u8>, Text> {
    let cnf = read_dimacs(alloc, clauses)?;
    if cnf.vars >= 1 << 31 || cnf.store.count() > 1_000_000 || !cnf.is_within() {
        return Err(Text::NoMemory);
    }
    match solve(alloc, &cnf, BUDGET)? {
        Answer::Satisfied(_) => Ok(Vec::from_slice(alloc, b"satisfied\n")?),
        Answer::Refuted(derivation) => {
            let given = cnf.store.count();
            if fits_lrat(given, &derivation) {
                Ok(lrat(alloc, given, &derivation)?)
            } else {
                Ok(Vec::from_slice(alloc, b"too large\n")?)
            }
        }
        Answer::Spent(_) => Ok(Vec::from_slice(alloc, b"spent\n")?),
    }
}

/// Whether the derivation refutes the clauses.
fn accepts(alloc: Global, cnf: &Cnf, steps: &[u8]) -> Result<bool, Text> {
    let derivation = read_lrat(alloc, cnf.store.count(), steps)?;
    if cnf.is_within() {
        Ok(check(alloc, cnf, &derivation)?)
    } else {
        Ok(false)
    }
}

fn checked(alloc: Global, clauses: &[u8], steps: &[u8]) -> Result<Vec<u8>, Text> {
    let cnf = read_dimacs(alloc, clauses)?;
    if accepts(alloc, &cnf, steps)? {
        Ok(Vec::from_slice(alloc, b"accepted\n")?)
    } else {
        Ok(Vec::from_slice(alloc, b"refused\n")?)
    }
}

/// Reads a clause list alone.
fn only_clauses(alloc: Global, clauses: &[u8]) -> Result<Vec<u8>, Text> {
    let cnf = read_dimacs(alloc, clauses)?;
    if cnf.store.count() > 0 {
        Ok(Vec::from_slice(alloc, b"some clauses\n")?)
    } else {
        Ok(Vec::from_slice(alloc, b"no clauses\n")?)
    }
}

/// Reads a derivation alone, over a thousand clauses.
fn only_steps(alloc: Global, steps: &[u8]) -> Result<Vec<u8>, Text> {
    let derivation = read_lrat(alloc, 1000, steps)?;
    if derivation.steps.len() > 0 {
        Ok(Vec::from_slice(alloc, b"some steps\n")?)
    } else {
        Ok(Vec::from_slice(alloc, b"no steps\n")?)
    }
}

fn answer(alloc: Global, wanted: &str, first: &[u8], second: &[u8]) -> Result<Vec<u8>, Text> {
    if wanted == "again" {
        again(alloc, first)
    } else if wanted == "refutation" {
        refutation(alloc, first)
    } else if wanted == "check" {
        checked(alloc, first, second)
    } else if wanted == "clauses" {
        only_clauses(alloc, first)
    } else {
        only_steps(alloc, first)
    }
}

/// What is wanted, a file, and a second one where a derivation is checked.
fn main(rt: HostRuntime) -> io::Result<()> {
    let mut words = Vec::new(rt.alloc());
    for word in env::args(&rt)? {
        words.push(word)?;
    }
    if words.len() < 3 {
        return println!(rt; "no words");
    }
    let first = fs::read(&rt, words[2].as_str())?;
    let second = if words.len() > 3 {
        fs::read(&rt, words[3].as_str())?
    } else {
        Vec::new(rt.alloc())
    };
    match answer(rt.alloc(), words[1].as_str(), &first, &second) {
        Ok(text) => rt.stdout().write_all(&text),
        Err(Text::Bad) => println!(rt; "bad"),
        Err(Text::NoMemory) => println!(rt; "no memory"),
    }
}
END
program=$PWD/$program
cd "$work"
cp "$top/bench/lists.py" .
cat > interchange.py <<'END'
import os, random, subprocess, sys
from lists import pigeons, random3

program, checker = sys.argv[1:3]
cadical = os.environ.get('CADICAL', 'cadical')

def run(*words): return subprocess.run(words, capture_output=True, text=True)
def found(program): return run('sh', '-c', f'command -v {program}').returncode == 0

has_lrat_check = found('lrat-check')
writes_lrat = '--lrat' in run(cadical, '--help').stdout

def text(count, clauses, seed):
    r, lines = random.Random(seed), ['c a list', f'p cnf {count} {len(clauses)}']
    for c in clauses:
        if r.random() < .1: lines.append('c 1 0')
        lines.append(r.choice([' ', '\t', '  ']).join(map(str, c + [r.choice(c)] * (r.random() < .1) + [0])))
    return '\n'.join(lines) + '\n'
def status(said): return {10: 'satisfied', 20: 'refuted'}[said.returncode]
def agree(what, holds):
    if not holds: sys.exit(f'{what} differs')

lists = [random3(n, 1000 * n + s) for n in (40, 60) for s in range(20)] + [pigeons(4), pigeons(5)]
refuted = read = checked = 0
for number, (count, clauses) in enumerate(lists):
    open('given.cnf', 'w').write(text(count, clauses, number))
    open('list.cnf', 'w').write(run(program, 'again', 'given.cnf').stdout)
    agree('the list that is written', open('list.cnf').read() == f'p cnf {count} {len(clauses)}\n' + ''.join(' '.join(map(str, c + [0])) + '\n' for c in clauses))
    ours = run(program, 'refutation', 'given.cnf').stdout
    answer = 'satisfied' if ours == 'satisfied\n' else 'refuted'
    agree('minisat', status(run('minisat', 'list.cnf')) == answer)
    agree('cadical', status(run(cadical, '-q', 'list.cnf')) == answer)
    if answer == 'satisfied': continue
    refuted += 1
    open('ours.lrat', 'w').write(ours)
    agree('bench/lrat.c', run(checker, 'list.cnf', 'ours.lrat').stdout == 'verified\n')
    agree('check', run(program, 'check', 'given.cnf', 'ours.lrat').stdout == 'accepted\n')
    open('less.lrat', 'w').write(ours[:ours[:-1].rindex('\n') + 1])
    agree('check without the last step', run(program, 'check', 'given.cnf', 'less.lrat').stdout == 'refused\n')
    if has_lrat_check:
        agree('lrat-check', 'c VERIFIED' in run('lrat-check', 'list.cnf', 'ours.lrat').stdout)
        checked += 1
    if writes_lrat:
        agree('cadical with LRAT', run(cadical, '-q', '--lrat=1', '--binary=0', 'list.cnf', 'cadical.lrat').returncode == 20)
        theirs = open('cadical.lrat').read().splitlines(True)
        agree('bench/lrat.c on LRAT of cadical', run(checker, 'list.cnf', 'cadical.lrat').stdout == 'verified\n')
        agree('lines that delete', not any(l.split()[1] == 'd' for l in theirs) or run(program, 'check', 'list.cnf', 'cadical.lrat').stdout == 'bad\n')
        open('kept.lrat', 'w').write(''.join(l for l in theirs if l.split()[1] != 'd'))
        agree('check on LRAT of cadical', run(program, 'check', 'list.cnf', 'kept.lrat').stdout == 'accepted\n')
        read += 1
print(f'{len(lists)} lists solved alike by minisat and cadical; {refuted} derivations accepted, {checked} by lrat-check; {read} of cadical accepted')
END
python3 interchange.py "$program" "$work/lrat"
cat > speed.py <<'END'
import os, random, subprocess, sys

program, size = sys.argv[1], int(sys.argv[2]) * 1000000
r = random.Random(1)
sign = lambda v: v if r.random() < .5 else -v

def lines(head, make, file):
    block, written = [make(at) for at in range(20000)], len(head)
    file.write(head)
    while written < size:
        written += file.write(''.join(r.sample(block, len(block))))
    return written
def clauses(path):
    with open(path + '.body', 'w') as file:
        lines('', lambda at: ' '.join(str(sign(r.randrange(1, 1000001))) for _ in range(3)) + ' 0\n', file)
    body = open(path + '.body').read()
    with open(path, 'w') as file: file.write(f'p cnf 1000000 {body.count(chr(10))}\n' + body)
def one_clause(path):
    with open(path, 'w') as file:
        count = size // 10
        file.write('p cnf 1000000000 1\n' + ' '.join(map(str, range(100000001, 100000001 + count))) + ' 0\n')
def steps(path):
    make = lambda at: ' '.join(str(sign(r.randrange(1, 100001))) for _ in range(r.randint(3, 12))) + ' 0 ' + ' '.join(str(r.randrange(1, 1000000)) for _ in range(r.randint(4, 30))) + ' 0\n'
    block, written, id = [make(at) for at in range(20000)], 0, 1001
    with open(path, 'w') as file:
        while written < size:
            for line in block:
                written += file.write(f'{id} {line}')
                id += 1
def timed(name, wanted, path):
    ran = subprocess.run(['/usr/bin/time', '-f', '%U %S %M', program, wanted, path], capture_output=True, text=True)
    user, system, kilobytes = ran.stderr.split()
    text, held = os.path.getsize(path) / 1e6, int(kilobytes) * 1024 / 1e6
    print(f'{name}: {text:.0f} MB in {float(user) + float(system):.1f} s, {held:.0f} MB held' + (f', {held / text:.2f} times the text' if text > 1 else '') + f'; {ran.stdout.strip()}')

clauses('clauses.cnf')
timed('clauses of three literals', 'clauses', 'clauses.cnf')
one_clause('one.cnf')
timed('one clause', 'clauses', 'one.cnf')
steps('steps.lrat')
timed('steps', 'steps', 'steps.lrat')
open('none.cnf', 'w').write('p cnf 1073741823 0\n')
timed('a list without clauses over all variables', 'clauses', 'none.cnf')
END
python3 speed.py "$program" "$megabytes"
