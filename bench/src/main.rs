//! Measures the proved digest and the reference's side by side, in one process
//! and on the same messages, and prints a table.

mod proved;

use reference::random::Random;
use reference::sha256;
use std::process::ExitCode;
use std::time::{Duration, Instant};

type Digest = fn(&[u8]) -> [u8; 32];

/// In the order in which they are measured and printed.
const SIDES: [Digest; 2] = [proved::digest, sha256::digest];

const RUNS: usize = 5;

/// Messages of one size. A turn is one pass over all of them; a run gives each
/// side so many turns, one after the other, so that noise hits both.
struct Load {
    size: usize,
    messages: usize,
    turns: usize,
}

const LOADS: [Load; 3] = [
    Load {
        size: 64,
        messages: 16_384,
        turns: 64,
    },
    // A page with as many receipts as it can have: two million of them a run.
    Load {
        size: 1063,
        messages: 4_096,
        turns: 489,
    },
    Load {
        size: 1 << 20,
        messages: 4,
        turns: 32,
    },
];

fn main() -> ExitCode {
    println!("Both digests are built with -O3. Best of {RUNS} runs, the two taking turns.");
    println!(
        "MB are millions of bytes; the ratio is of the speeds: above 1, the proved is faster."
    );
    println!();
    println!(
        "{:>9}  {:>10}  {:>11}  {:>14}  {:>16}  {:>16}",
        "bytes", "messages", "proved MB/s", "reference MB/s", "proved/reference", "checksum"
    );
    for load in &LOADS {
        if !measure(load) {
            return ExitCode::FAILURE;
        }
    }
    ExitCode::SUCCESS
}

/// Prints the row of `load`; false if the two sides disagree.
fn measure(load: &Load) -> bool {
    let bytes = Random::new(load.size as u64).bytes(load.size * load.messages);
    let messages: Vec<&[u8]> = bytes.chunks_exact(load.size).collect();
    if let Some(at) = difference(&messages) {
        eprintln!(
            "bench: the digests of message {at} of {} bytes differ",
            load.size
        );
        return false;
    }

    let mut best = [Duration::MAX; 2];
    let mut sums = [0; 2];
    for _ in 0..RUNS {
        let (times, run_sums) = run(&messages, load.turns);
        best = [best[0].min(times[0]), best[1].min(times[1])];
        sums = run_sums;
        if sums[0] != sums[1] {
            eprintln!(
                "bench: the checksums of messages of {} bytes differ",
                load.size
            );
            return false;
        }
    }

    let hashed = load.messages * load.turns;
    let [proved, reference] = best.map(|time| speed(hashed * load.size, time));
    println!(
        "{:>9}  {:>10}  {:>11.1}  {:>14.1}  {:>16.3}  {:>16x}",
        load.size,
        hashed,
        proved,
        reference,
        proved / reference,
        sums[0]
    );
    true
}

fn difference(messages: &[&[u8]]) -> Option<usize> {
    messages
        .iter()
        .position(|message| SIDES[0](message) != SIDES[1](message))
}

/// The time that each side takes for all its turns, and its checksum.
fn run(messages: &[&[u8]], turns: usize) -> ([Duration; 2], [u64; 2]) {
    let mut times = [Duration::ZERO; 2];
    let mut sums = [0; 2];
    for _ in 0..turns {
        for (side, digest) in SIDES.into_iter().enumerate() {
            let start = Instant::now();
            sums[side] = messages
                .iter()
                .fold(sums[side], |sum, message| fold(sum, digest(message)));
            times[side] += start.elapsed();
        }
    }
    (times, sums)
}

/// Every byte of every digest, and their order, tell in the checksum.
fn fold(sum: u64, digest: [u8; 32]) -> u64 {
    digest.as_chunks().0.iter().fold(sum, |sum, word| {
        (sum.rotate_left(5) ^ u64::from_le_bytes(*word)).wrapping_mul(0x9e3779b97f4a7c15)
    })
}

/// In millions of bytes a second.
fn speed(bytes: usize, time: Duration) -> f64 {
    bytes as f64 / time.as_secs_f64() / 1e6
}
