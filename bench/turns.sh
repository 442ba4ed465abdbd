#!/bin/sh
# Time of a turn that no other thread contends for: bench/turns.sh
# Proves, builds and runs a program in a scratch copy of the crates under it. Each line has the time of 100,000 references of one cell at a memory itself and the
# time of as many in turn at a gate round it; a hundred-thousandth of their difference is what a turn costs beside the object's own work.
set -e
root=$(cd "$(dirname "$0")/.." && pwd)
libraries="trace_theory caf_base caf_events object_rules event_lock atomic_subs coarray_types coarray_memory turn_gate"
scratch=$(mktemp -d)
trap 'rm -rf "$scratch"' EXIT
mkdir -p "$scratch/crates/turns_bench/src" "$scratch/crates/turns_bench/proofs/reads"
for library in $libraries; do
    cp -r "$root/crates/$library" "$scratch/crates"
    grep "^${library}[ :]" "$root/crates.txt" >>"$scratch/crates.txt"
done
cp "$root/HANDLES" "$scratch"
echo "turns_bench: smallvec atomic_table crossbeam_utils $libraries" >>"$scratch/crates.txt"
cat >"$scratch/crates/turns_bench/proofs/reads/Invariants.antt" <<'PROOF'
use Rattle.std.proofs.Common.{◌≡◌, ◌<◌}
use Rattle.turn_gate.specs.Passes.{IsPassOf}
use Rattle.turns_bench.proofs.reads.Given as goal

abbrev pub invariant-loop : goal.invariant-loop
invariant-loop g l = IsPassOf l.gate l.pass × (0 < l.pass.image)
PROOF
cat >"$scratch/crates/turns_bench/src/main.rt" <<'PROGRAM'
//! The time of a turn at a gate that no other thread uses, beside that of the same steps at the object itself: references of one cell of a memory.
#![tactic(auto)]

ghost use Rattle.std.specs.Prelude.{◌≡◌, ◌<◌, [], IfOk};
ghost use Rattle.turn_gate.specs.Passes.{IsPassOf};

use caf_base::hook::Quiet;
use caf_base::limits::LAST_STAMP;
use caf_base::listing::Listing;
use caf_base::place::ImageNo;
use caf_base::refusal::NoMemory;
use caf_base::span::{Dims, Span};
use caf_base::value::{Kind, Value};
use caf_events::ask::Ask;
use caf_events::object::Object;
use coarray_memory::coarray::{Coarray, Holding};
use coarray_memory::memory::Memory;
use std::alloc::Global;
use std::io;
use std::sync::Wait;
use std::time::Instant;
use turn_gate::gate::Gate;
use turn_gate::pass::Pass;
use turn_gate::turn::Turn;

const TURNS: u64 = 100_000;

fn read_ask(alloc: Global) -> Ask {
    Ask::Read {
        owner: ImageNo(1),
        span: Span {
            coarray: 0,
            start: 0,
            dims: Dims::new(alloc),
        },
    }
}

// The memory of image 1 with one integer.
fn memory(alloc: Global) -> Result<Memory, NoMemory>
    ensures { IfOk result (λ m. m.history ≡ []) }
{
    let mut coarrays = Vec::new(alloc);
    coarrays.push(Coarray {
        holding: Holding::Values(Kind::I4),
        allocatable: false,
        cells: 1,
        first: Listing::of_one(alloc, Value::Int(0))?,
    })?;
    Memory::new(alloc, ImageNo(1), coarrays)
}

// Reads so often in turn, and counts the turns that were done.
fn reads<R: Wait>(rt: &R, alloc: Global, gate: &Gate<Memory>, pass: &mut Pass) -> u64
    requires { IsPassOf gate.now pass.old × (0 < pass.old.image) }
{
    let mut after = 0;
    let mut done = 0u64;
    for _ in 0..TURNS {
        if let Turn::Done(event) = gate.turn(rt, pass, read_ask(alloc), 1, after, 0, &Quiet) {
            after = event.stamp();
            done = done.wrapping_add(1);
        }
    }
    done
}

// One read at the memory itself.
fn read(alloc: Global, memory: &mut Memory, after: u64) -> u64 {
    let ask = read_ask(alloc);
    if after >= LAST_STAMP || memory.last_stamp() >= LAST_STAMP || !memory.ready(ImageNo(1), &ask) {
        drop(ask);
        return after;
    }
    match memory.reserve(ImageNo(1), &ask) {
        Ok(told) => memory.apply(ImageNo(1), ask, told, 1, after).stamp(),
        Err(_) => {
            drop(ask);
            after
        }
    }
}

// Reads so often at the memory itself; the stamp of the last one.
fn reads_alone(alloc: Global, memory: &mut Memory) -> u64 {
    let mut after = 0;
    for _ in 0..TURNS {
        after = read(alloc, memory, after);
    }
    after
}

fn alone(alloc: Global) -> Result<u64, NoMemory> {
    let mut memory = memory(alloc)?;
    let done = reads_alone(alloc, &mut memory);
    drop(memory);
    Ok(done)
}

fn in_turn<R: Wait>(rt: &R, alloc: Global) -> Result<u64, NoMemory> {
    let (gate, mut first) = Gate::new(alloc, memory(alloc)?, 1)?;
    let mut pass = gate.split(&mut first, ImageNo(1));
    let done = reads(rt, alloc, &gate, &mut pass);
    drop(gate);
    Ok(done)
}

fn main(rt: HostRuntime) -> io::Result<()> {
    let alloc: Global = rt.alloc();
    for _ in 0..5 {
        let start = Instant::now(&rt)?;
        let steps = alone(alloc).unwrap_or(0);
        let alone_time = start.elapsed(&rt)?.as_nanos();
        let start = Instant::now(&rt)?;
        let turns = in_turn(&rt, alloc).unwrap_or(0);
        let turn_time = start.elapsed(&rt)?.as_nanos();
        println!(rt; "{steps} steps {alone_time} ns, {turns} turns {turn_time} ns")?;
    }
    Ok(())
}
PROGRAM
cd "$scratch/crates/turns_bench"
rt run
