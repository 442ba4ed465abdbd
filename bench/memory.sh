#!/bin/sh
# Steps of one thread at the memory of an image: bench/memory.sh
# Proves, builds and runs a program in a scratch copy of the crates under it. Each line has the time of 1,000,000 accesses of one cell, every other one a
# definition, each through `ready`, `reserve` and `apply`, and the number of accesses in a second that this comes to.
set -e
root=$(cd "$(dirname "$0")/.." && pwd)
libraries="trace_theory caf_base caf_events object_rules event_lock atomic_subs coarray_types coarray_memory"
scratch=$(mktemp -d)
trap 'rm -rf "$scratch"' EXIT
mkdir -p "$scratch/crates/memory_bench/src"
for library in $libraries; do
    cp -r "$root/crates/$library" "$scratch/crates"
    grep "^${library}[ :]" "$root/crates.txt" >>"$scratch/crates.txt"
done
cp "$root/HANDLES" "$scratch"
echo "memory_bench: smallvec $libraries" >>"$scratch/crates.txt"
cat >"$scratch/crates/memory_bench/src/main.rt" <<'PROGRAM'
//! How many accesses of one cell a memory serves in a second.
#![tactic(auto)]

ghost use Rattle.std.specs.Prelude.{◌≡◌, [], IfOk};

use caf_base::few::Few;
use caf_base::limits::LAST_STAMP;
use caf_base::listing::Listing;
use caf_base::place::ImageNo;
use caf_base::refusal::NoMemory;
use caf_base::span::{Dims, Span};
use caf_base::value::{Kind, Value};
use caf_events::ask::Ask;
use caf_events::object::Object;
use coarray_memory::coarray::{Coarray, Holding};
use coarray_memory::memory::Memory;
use std::alloc::Global;
use std::io;
use std::time::Instant;

const ACCESSES: u64 = 1_000_000;

fn access_ask(alloc: Global, number: u64) -> Ask {
    let span = Span {
        coarray: 0,
        start: 0,
        dims: Dims::new(alloc),
    };
    let owner = ImageNo(1);
    if number % 2 == 0 {
        let values = Few::of_one(Value::Int(7));
        Ask::Write {
            owner,
            span,
            values,
        }
    } else {
        Ask::Read { owner, span }
    }
}

// The memory of image 1 with one integer.
fn memory(alloc: Global) -> Result<Memory, NoMemory>
    ensures { IfOk result (λ m. m.history ≡ []) }
{
    let mut coarrays = Vec::new(alloc);
    coarrays.push(Coarray {
        holding: Holding::Values(Kind::I4),
        allocatable: false,
        cells: 1,
        first: Listing::of_one(alloc, Value::Int(0))?,
    })?;
    Memory::new(alloc, ImageNo(1), coarrays)
}

// One access; the stamp that it got.
fn access(alloc: Global, memory: &mut Memory, number: u64, after: u64) -> u64 {
    let ask = access_ask(alloc, number);
    if after >= LAST_STAMP || memory.last_stamp() >= LAST_STAMP || !memory.ready(ImageNo(1), &ask) {
        drop(ask);
        return after;
    }
    match memory.reserve(ImageNo(1), &ask) {
        Ok(told) => memory.apply(ImageNo(1), ask, told, 1, after).stamp(),
        Err(_) => {
            drop(ask);
            after
        }
    }
}

// So many accesses; the stamp of the last one.
fn accesses(alloc: Global, memory: &mut Memory) -> u64 {
    let mut after = 0;
    for number in 0..ACCESSES {
        after = access(alloc, memory, number, after);
    }
    after
}

fn run(alloc: Global) -> Result<u64, NoMemory> {
    let mut memory = memory(alloc)?;
    let done = accesses(alloc, &mut memory);
    drop(memory);
    Ok(done)
}

fn main(rt: HostRuntime) -> io::Result<()> {
    let alloc: Global = rt.alloc();
    for _ in 0..5 {
        let start = Instant::now(&rt)?;
        let done = run(alloc).unwrap_or(0);
        let time = start.elapsed(&rt)?.as_micros().max(1);
        let per_second = u128::from(done).saturating_mul(1_000_000) / time;
        println!(rt; "{done} accesses {time} us, {per_second} a second")?;
    }
    Ok(())
}
PROGRAM
cd "$scratch/crates/memory_bench"
rt run
