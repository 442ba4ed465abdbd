#!/bin/sh
# Steps of one thread at the control board: bench/board.sh
# Proves, builds and runs a program in a scratch copy of the crates under it. Each line is of a board of so many images and of so many rounds of SYNC ALL of all
# of them, each with an arrival and a departure of every image, each through `ready`, `reserve` and `apply`; it has the time of all, of one round and of one step.
# Seen on one of four shared processors, while a board still kept its history: 64 images 48 to 54 us a round and 0.38 to 0.42 us a step, 256 images 379 to 443 us a round and 0.74 to 0.87 us a step.
set -e
root=$(cd "$(dirname "$0")/.." && pwd)
libraries="trace_theory caf_base caf_events object_rules failure_status image_sync team_round team_tree collectives control_board"
scratch=$(mktemp -d)
trap 'rm -rf "$scratch"' EXIT
mkdir -p "$scratch/crates/board_bench/src"
for library in $libraries; do
    cp -r "$root/crates/$library" "$scratch/crates"
    grep "^${library}[ :]" "$root/crates.txt" >>"$scratch/crates.txt"
done
cp "$root/HANDLES" "$scratch"
echo "board_bench: smallvec $libraries" >>"$scratch/crates.txt"
cat >"$scratch/crates/board_bench/src/main.rt" <<'PROGRAM'
//! How long a SYNC ALL of all images of a run takes at the control board.
#![tactic(auto)]

use caf_base::limits::LAST_STAMP;
use caf_base::place::{INITIAL_TEAM, ImageNo};
use caf_base::refusal::NoMemory;
use caf_events::ask::Ask;
use caf_events::object::Object;
use caf_events::round::Arriving;
use control_board::board::Board;
use std::alloc::Global;
use std::io;
use std::time::Instant;

const STEPS: u32 = 131_072;

fn sync() -> Ask {
    Ask::Arrive {
        team: INITIAL_TEAM,
        arriving: Arriving::Sync,
    }
}

fn leave(round: u64) -> Ask {
    Ask::Leave {
        team: INITIAL_TEAM,
        round,
    }
}

// One step of an image; the stamp that it got.
fn step(board: &mut Board, image: ImageNo, ask: Ask, after: u64) -> u64 {
    if after >= LAST_STAMP || board.last_stamp() >= LAST_STAMP || !board.ready(image, &ask) {
        drop(ask);
        return after;
    }
    match board.reserve(image, &ask) {
        Ok(told) => board.apply(image, ask, told, 1, after).stamp(),
        Err(_) => {
            drop(ask);
            after
        }
    }
}

// Every image arrives; the stamp of the last one.
fn arrive_all(board: &mut Board, images: u32, before: u64) -> u64 {
    let mut after = before;
    for image in 0..images {
        after = step(board, ImageNo(image + 1), sync(), after);
    }
    after
}

// Every image leaves the round; the stamp of the last one.
fn leave_all(board: &mut Board, images: u32, round: u64, before: u64) -> u64 {
    let mut after = before;
    for image in 0..images {
        after = step(board, ImageNo(image + 1), leave(round), after);
    }
    after
}

// So many rounds of all images; the stamp of the last step, which is the number of steps.
fn rounds(board: &mut Board, images: u32, count: u32) -> u64 {
    let mut after = 0;
    for number in 0..count {
        let arrived = arrive_all(board, images, after);
        after = leave_all(board, images, u64::from(number) + 1, arrived);
    }
    after
}

fn run(alloc: Global, images: u32, count: u32) -> Result<u64, NoMemory> {
    let mut board = Board::new(alloc, images)?;
    let done = rounds(&mut board, images, count);
    drop(board);
    Ok(done)
}

fn main(rt: HostRuntime) -> io::Result<()> {
    let alloc: Global = rt.alloc();
    for turn in 0..6 {
        let images: u32 = if turn < 3 { 64 } else { 256 };
        let count = STEPS / 2 / images;
        let start = Instant::now(&rt)?;
        let done = run(alloc, images, count).unwrap_or(0);
        let time = start.elapsed(&rt)?.as_micros().max(1);
        let of_a_round = time / u128::from(count.max(1));
        let of_a_step = time.saturating_mul(1_000) / u128::from(done.max(1));
        println!(rt; "{images} images, {count} rounds, {done} steps {time} us, a round {of_a_round} us, a step {of_a_step} ns")?;
    }
    Ok(())
}
PROGRAM
cd "$scratch/crates/board_bench"
rt run
