# What the scripts share that compare what is said of single functions with files that say it; they source it with
# their words, FOLDER and maybe PROGRAM. They build a small program in a folder of its own, outside the repository,
# from what the crate of tests of runs lists and spells, and leave it in the file PROGRAM, or take the one that stands
# there: it is the same for all of them.
#   PROGRAM < FILE.c                    writes five lines for each function that is defined and breaks no rule: its
#                                       name, its sizes, its keys, its conditions and its candidates
#   PROGRAM NAME NUMBER.. < FILE.c      writes two lines for the functions of this name: its keys, and the trace that
#                                       it gives from these numbers of its keys, or `no run` where they aren't those
#                                       of its keys
# Then `program` and `folder` are set, and functions.py, the part of the comparing that is the same, stands where the
# shell is left.
folder=$(cd "${1:?a folder}" && pwd)
kept=${2:+$(realpath "$2")}
. "$(dirname "${BASH_SOURCE[0]}")/program.sh"
# takes the modules of the crate of tests, with what is proved of them
take_modules() {
    local into=$work/crates/functionsbench tests=$top/crates/stk_run_tests
    mkdir -p "$into/src"
    cp "$tests"/src/{facts,finding,listed_writing,runs,run_writing}.rt "$into/src/"
    cp -r "$tests/proofs" "$tests/specs" "$into/"
    find "$into" -type f -exec sed -i -E 's/\bstk_run_tests\b/functionsbench/' {} +
}
build_functions() {
    take_modules
    build_program functionsbench $(below stk_run_tests) <<'END'
//! Lists what is known of the functions of the input, or runs one of them.
#![tactic(auto)]

mod facts;
mod finding;
mod listed_writing;
mod run_writing;
mod runs;

ghost use Rattle.stk_tree.specs.View.{view_unit};
ghost use Rattle.functionsbench.specs.Laid.{IsLaidOut};

use crate::facts::{Facts, facts_of};
use crate::runs::run_of;
use std::alloc::Global;
use std::env::{self, Args};
use std::io::{self, Read, Write};
use stk_accept::{Accepted, accept};
use stk_base::{MOST_BYTES, NoMemory};
use stk_ctype::Names;
use stk_lex::{Places, cut, lex, skim};
use stk_tree::Unit;

// What is asked of functions.
#[derive(Drop)]
enum Asked {
    // What is listed of each.
    Facts,
    // The trace of the one of this name, from these numbers of its keys.
    Run(String, Vec<i128>),
}

// Adds a line.
fn add_line(text: &mut Vec<u8>, line: &[u8]) -> Result<(), NoMemory> {
    text.extend_from_slice(line)?;
    text.push(b'\n')?;
    Ok(())
}

// The name of the function that a unit defines; none of another unit.
fn name_of<'a>(bytes: &'a [u8], unit: &Unit) -> &'a [u8] {
    match unit {
        Unit::Empty(_) | Unit::Declares(_, _) => &[],
        Unit::Defines(_, f) => match f.declr.name {
            None => &[],
            Some(at) => at.text(bytes),
        },
    }
}

// Adds what is listed of the function of this name.
fn add_facts(text: &mut Vec<u8>, name: &[u8], facts: &Facts) -> Result<(), NoMemory> {
    add_line(text, name)?;
    add_line(text, facts.sizes.as_slice())?;
    add_line(text, facts.keys.as_slice())?;
    add_line(text, facts.conditions.as_slice())?;
    add_line(text, facts.candidates.as_slice())
}

// Adds the keys of a function, and its trace.
fn add_run(text: &mut Vec<u8>, facts: &Facts, trace: Option<Vec<u8>>) -> Result<(), NoMemory> {
    add_line(text, facts.keys.as_slice())?;
    match trace {
        None => add_line(text, b"no run"),
        Some(trace) => add_line(text, trace.as_slice()),
    }
}

// Whether something is asked of the function of this name.
fn is_asked(asked: &Asked, name: &[u8]) -> bool {
    match asked {
        Asked::Facts => true,
        Asked::Run(wanted, _) => name == wanted.as_bytes(),
    }
}

// Adds what is asked of the function that a unit defines; nothing of another unit, or of one that a rule refuses.
fn add_unit(
    text: &mut Vec<u8>,
    alloc: Global,
    input: &Places,
    unit: &Unit,
    names: &Names,
    asked: &Asked,
) -> Result<(), NoMemory>
    requires { IsLaidOut (view_unit unit.now) }
{
    let name = name_of(input.bytes(), unit);
    if !is_asked(asked, name) {
        return Ok(());
    }
    let Some(facts) = facts_of(alloc, input, unit, names)? else {
        return Ok(());
    };
    match asked {
        Asked::Facts => add_facts(text, name, &facts),
        Asked::Run(_, numbers) => {
            let trace = run_of(alloc, input, unit, names, numbers.as_slice())?;
            add_run(text, &facts, trace)
        }
    }
}

// What is asked of the functions of a text.
fn answer(alloc: Global, bytes: &[u8], asked: &Asked) -> Result<Vec<u8>, NoMemory> {
    let mut text = Vec::new(alloc);
    if bytes.len() as u64 > MOST_BYTES {
        add_line(&mut text, b"too large")?;
        return Ok(text);
    }
    let input = Places::new(alloc, bytes)?;
    let tokens = lex(alloc, bytes)?;
    let skimmed = skim(alloc, bytes, tokens.as_slice())?;
    let pieces = cut(alloc, bytes, &skimmed)?;
    let kept = skimmed.tokens.as_slice();
    let mut names = Names::new(alloc);
    for piece in pieces.as_slice() {
        let Some(unit) = kept.get(piece.from as usize..piece.to as usize) else {
            continue;
        };
        let body = piece.body.map(|at| at.saturating_sub(piece.from) as usize);
        match accept(alloc, bytes, piece.no_return, unit, body, &mut names)? {
            Accepted::Tree(tree) => {
                add_unit(&mut text, alloc, &input, tree.get(), &names, asked)?
            }
            Accepted::Refused(_) => {}
        }
    }
    Ok(text)
}

// What the words behind the program's name ask for; none where a number isn't one.
fn asked_by(alloc: Global, mut words: Args) -> Result<Option<Asked>, NoMemory> {
    let _ = words.next();
    let Some(name) = words.next() else {
        return Ok(Some(Asked::Facts));
    };
    let mut numbers = Vec::new(alloc);
    for word in words {
        let Ok(number) = word.parse::<i128>() else {
            return Ok(None);
        };
        numbers.push(number)?;
    }
    Ok(Some(Asked::Run(name, numbers)))
}

fn main(rt: HostRuntime) -> io::Result<()> {
    let mut bytes = Vec::new(rt.alloc());
    let mut input = rt.stdin();
    input.read_to_end(&mut bytes)?;
    let words = env::args(&rt)?;
    let Ok(asked) = asked_by(rt.alloc(), words) else {
        return println!(rt; "no memory");
    };
    let Some(asked) = asked else {
        return println!(rt; "bad words");
    };
    match answer(rt.alloc(), &bytes, &asked) {
        Ok(text) => {
            let mut out = rt.stdout();
            out.write_all(text.as_slice())
        }
        Err(NoMemory) => println!(rt; "no memory"),
    }
}
END
}
if [ -n "$kept" ] && [ -x "$kept" ]; then
    program=$kept
    cd "$work"
else
    build_functions
    [ -z "$kept" ] || cp "$program" "$kept"
fi
cat > functions.py <<'END'
import glob, itertools, os, subprocess, sys

# the words of the program for the kinds of conditions of the files
CONDITIONS = {
    'signed overflow': 'overflow', 'division by zero': 'zero', 'oversized shift': 'shift', 'null dereference': 'null',
    'pointer overflow': 'pointer', 'index out of bounds': 'bounds', 'absolute value overflow': 'absolute', 'overlapping copy': 'overlap',
}

def column(place):
    return place.rpartition(':')[2]

# the lines of FILE.SUFFIX in blocks, each a line that begins with `first` and the lines behind it that begin with two
# blanks
def blocks(file, suffix, first):
    found, within = [], False
    for line in open(file[:-2] + suffix, encoding='latin-1').read().split('\n'):
        if line.startswith(first):
            found.append([line[len(first):]])
        elif line.startswith('  ') and within:
            found[-1].append(line[2:])
        within = line.startswith(first) or line.startswith('  ') and within
    return found

# what the program writes of a file, with these words
def said(program, file, *words):
    with open(file, 'rb') as text:
        return subprocess.run([program, *words], stdin=text, stdout=subprocess.PIPE, encoding='latin-1').stdout

# counts comparisons, each of two lists of lines, and prints the first differences
class Tally:
    passed = failed = 0

    def compare(self, name, wanted, found):
        if wanted == found:
            self.passed += 1
            return
        self.failed += 1
        if self.failed <= 20:
            lines = first_difference(wanted, found)
            pieces = first_difference(*[line.split(', ') for line in lines])
            print(f'{name}:\n  wanted {pieces[0]}\n  found  {pieces[1]}')

    def end(self):
        print(f'{self.passed} passed, {self.failed} failed')
        sys.exit(self.failed > 0 or self.passed == 0)

def first_difference(wanted, found):
    return next(pair for pair in itertools.zip_longest(wanted, found, fillvalue='nothing') if pair[0] != pair[1])
END
