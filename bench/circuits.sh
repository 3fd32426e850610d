#!/bin/bash
# Times the table of gates and the circuits over it. It builds a small program over stk_arith in a folder of its own,
# outside the repository:
#   bash bench/circuits.sh
# For each of them it prints the processor seconds of the whole run, the gates that there are at its end, and the
# bytes of memory for each gate, beyond those of a run that makes no gate.
set -eu
. "$(dirname "$0")/program.sh"
build_program circuitbench stk_base stk_gates stk_arith <<'END'
//! Makes the circuits that the first word names.
#![tactic(auto)]

ghost use Rattle.std.specs.Prelude.{◌≡◌, ℕ, ◌+◌, ◌*◌, ◌^◌, ◌<◌, ◌≤◌, IsTrue, length};
ghost use Rattle.stk_arith.specs.Rows.{AreEdges};

use std::alloc::Global;
use std::env;
use std::io;
use stk_arith::{add, divide, multiply};
use stk_base::{List, NoMemory};
use stk_gates::{Edge, Gates};

/// Whether each edge comes from a gate of the table.
fn are_edges(gates: &Gates, row: &[Edge]) -> bool
    ensures { IsTrue result → AreEdges gates.now row.now }
{
    let most = 2 * gates.count();
    row.iter().all(|e| e.0 < most)
}

/// The AND of two edges that the number chooses, where there is room for it.
fn and_of(gates: &mut Gates, number: u64) -> Result<(), NoMemory> {
    let count = gates.count();
    if count > 200_000_000 || count < 3 {
        return Ok(());
    }
    let edges = u64::from(2 * count);
    let a = Edge((number % edges) as u32);
    let b = Edge((number / 7 % edges) as u32);
    gates.and(a, b)?;
    Ok(())
}

/// The edges of gates that follow one another.
fn inputs_from(alloc: Global, first: u32, count: u32) -> Result<Vec<Edge>, NoMemory>
    requires { first + count < 1000 }
{
    let mut edges = Vec::new(alloc);
    for k in 0..count {
        edges.push(Edge::of_gate(first + k))?;
    }
    Ok(edges)
}

/// A circuit of two rows, where they fit: `+`, `*` or `/`.
fn circuit(
    alloc: Global,
    gates: &mut Gates,
    word: &str,
    a: &[Edge],
    b: &[Edge],
) -> Result<List<Edge>, NoMemory> {
    let count = gates.count();
    if a.is_empty() || a.len() > 128 || a.len() != b.len() || count > 200_000_000 {
        return Ok(List::empty(alloc));
    }
    if !are_edges(gates, a) || !are_edges(gates, b) {
        return Ok(List::empty(alloc));
    }
    if word == "add" {
        add(alloc, gates, a, b)
    } else if word == "multiply" {
        multiply(alloc, gates, a, b)
    } else {
        divide(alloc, gates, a, b)
    }
}

/// A table with what the word names, for rows of a width.
fn table(alloc: Global, word: &str, width: u32, times: u32) -> Result<Gates, NoMemory>
    requires { width ≤ 128 }
{
    let mut gates = Gates::new(alloc, 256);
    if word == "and" {
        let mut number = 1u64;
        for _ in 0..times {
            number = number.wrapping_mul(6364136223846793005).wrapping_add(1442695040888963407);
            and_of(&mut gates, number / 65536)?;
        }
        return Ok(gates);
    }
    let b = inputs_from(alloc, 1 + width, width)?;
    let mut row = List::from_vec(inputs_from(alloc, 1, width)?);
    for _ in 0..times {
        row = circuit(alloc, &mut gates, word, row.as_slice(), &b)?;
    }
    Ok(gates)
}

fn main(rt: HostRuntime) -> io::Result<()> {
    let mut words = env::args(&rt)?;
    let _ = words.next();
    let word = words.next();
    let width = words.next().and_then(|w| w.parse::<u32>().ok());
    let times = words.next().and_then(|w| w.parse::<u32>().ok());
    let (Some(word), Some(width), Some(times)) = (word, width, times) else {
        return Ok(());
    };
    if width > 128 {
        return Ok(());
    }
    let Ok(gates) = table(rt.alloc(), word.as_str(), width, times) else {
        return println!(rt; "no memory");
    };
    let count = gates.count();
    println!(rt; "{count}")
}
END
cat > timed.py <<'END'
import os, subprocess, sys

def run(words):
    child = subprocess.Popen([sys.argv[1]] + words, stdout=subprocess.PIPE, text=True)
    said = child.stdout.read().strip()
    used = os.wait4(child.pid, 0)[2]
    return said, used.ru_utime + used.ru_stime, used.ru_maxrss * 1024

empty = run(["and", "1", "0"])[2]
for name, words in [
    ("a million ANDs", ["and", "1", "1000000"]),
    ("1,000 64-bit additions", ["add", "64", "1000"]),
    ("one 64-bit multiplication", ["multiply", "64", "1"]),
    ("one 64-bit division", ["divide", "64", "1"]),
    ("one 128-bit multiplication", ["multiply", "128", "1"]),
]:
    gates, seconds, memory = run(words)
    print(f"{name}: {seconds:.3f} s, {gates} gates, {(memory - empty) / int(gates):.0f} bytes a gate")
END
python3 timed.py "$program"
