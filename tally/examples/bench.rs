//! Times the proved reader and the independent one.
//!
//!     cargo run --offline --release --example bench
//!
//! Both are called alike: one direct call for each frame, which is not inlined. They read the same
//! frames in the same memory, in turns within one run. The best of many turns counts, since whatever
//! else the machine does only adds time.

use std::hint::black_box;
use std::time::Instant;
use tally::{independent, read_number};

const FRAMES: usize = 64;
const PASSES: usize = 256;
const TURNS: usize = 2_000;

/// Frames of one length, one after another in one memory.
fn frames(length: usize, tagged: bool) -> Vec<u8> {
    let mut memory = vec![0x5A; FRAMES * length];
    for (i, frame) in memory.chunks_exact_mut(length).enumerate() {
        if tagged {
            frame[12..14].copy_from_slice(&[0x81, 0x00]);
            let tag = (i as u16 % 8) << 13 | (1 + i as u16);
            frame[14..16].copy_from_slice(&tag.to_be_bytes());
        } else {
            frame[12..14].copy_from_slice(&[0x08, 0x00]);
        }
    }
    memory
}

/// Nanoseconds for each frame, in one turn.
fn turn(reader: impl Fn(&[u8]) -> u32, memory: &[u8], length: usize) -> f64 {
    let start = Instant::now();
    for _ in 0..PASSES {
        for frame in memory.chunks_exact(length) {
            black_box(reader(black_box(frame)));
        }
    }
    start.elapsed().as_nanos() as f64 / (PASSES * FRAMES) as f64
}

/// The best turn of each reader. Who goes first changes from turn to turn.
fn best(memory: &[u8], length: usize) -> (f64, f64) {
    let (mut best_proved, mut best_other) = (f64::INFINITY, f64::INFINITY);
    for round in 0..TURNS {
        if round % 2 == 0 {
            best_proved = best_proved.min(turn(read_number, memory, length));
        }
        best_other = best_other.min(turn(independent::read_number, memory, length));
        if round % 2 == 1 {
            best_proved = best_proved.min(turn(read_number, memory, length));
        }
    }
    (best_proved, best_other)
}

fn main() {
    println!(
        "Reading a frame to its one number, in nanoseconds per frame: best of {TURNS} turns of {} frames.",
        PASSES * FRAMES
    );
    println!(
        "Both readers are called alike: one direct call for each frame. Neither is inlined: the proved one is linked in compiled"
    );
    println!("form, and the independent one is kept from it.");
    println!();
    println!(
        "{:>6}  {:<9} {:>8} {:>12} {:>7}",
        "bytes", "frame", "proved", "independent", "ratio"
    );
    let mut worst: f64 = 0.0;
    for length in [60, 500, 1_514] {
        for tagged in [true, false] {
            let memory = frames(length, tagged);
            for frame in memory.chunks_exact(length) {
                assert_eq!(read_number(frame), independent::read_number(frame));
            }
            let (proved, other) = best(&memory, length);
            worst = worst.max(proved / other);
            let kind = if tagged { "tagged" } else { "untagged" };
            println!(
                "{length:>6}  {kind:<9} {proved:>8.2} {other:>12.2} {:>7.2}",
                proved / other
            );
        }
    }
    println!();
    println!("The largest ratio, proved to independent, is {worst:.2}.");
}
