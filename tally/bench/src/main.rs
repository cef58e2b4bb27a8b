//! Times the proved filtering tables, and a `HashMap` at the same work.
//!
//!     ./c-library.sh table_bench
//!     cargo run --offline --release --manifest-path tally/bench/Cargo.toml
//!
//! A turn makes a table, fills it with a load of addresses in each of the sixteen databases, the same
//! ones in each, and then goes through all of them in scrambled order, round after round. The time of
//! a turn without rounds is taken off. Tables take turns, and the best turn of each counts, since
//! whatever else the machine does only adds time.

mod map;

use std::hint::black_box;
use std::time::Instant;

// Safe to call: they take plain numbers, and are proved safe for all of them.
unsafe extern "C" {
    safe fn bridge_bench_find(kind: u32, load: u32, from: u16, rounds: u32) -> u64;
    safe fn bridge_bench_learn(kind: u32, load: u32, rounds: u32) -> u64;
    safe fn bridge_bench_expire(kind: u32, load: u32, rounds: u32) -> u64;
}

const TURNS: usize = 80;

/// Addresses from this number on are not in a table.
const ABSENT: u16 = 0x4000;

#[derive(Clone, Copy)]
enum Task {
    Find,
    FindAbsent,
    Learn,
    ExpireNone,
}

#[derive(Clone, Copy)]
enum Kind {
    Proved(u32),
    HashMap,
}

const KINDS: [Kind; 5] = [
    Kind::Proved(0),
    Kind::Proved(1),
    Kind::Proved(2),
    Kind::Proved(3),
    Kind::HashMap,
];

fn perform(kind: Kind, task: Task, load: u32, rounds: u32) -> u64 {
    match (kind, task) {
        (Kind::Proved(kind), Task::Find) => bridge_bench_find(kind, load, 0, rounds),
        (Kind::Proved(kind), Task::FindAbsent) => bridge_bench_find(kind, load, ABSENT, rounds),
        (Kind::Proved(kind), Task::Learn) => bridge_bench_learn(kind, load, rounds),
        (Kind::Proved(kind), Task::ExpireNone) => bridge_bench_expire(kind, load, rounds),
        (Kind::HashMap, Task::Find) => map::find(load, 0, rounds),
        (Kind::HashMap, Task::FindAbsent) => map::find(load, ABSENT, rounds),
        (Kind::HashMap, Task::Learn) => map::learn(load, rounds),
        (Kind::HashMap, Task::ExpireNone) => map::expire(load, rounds),
    }
}

/// Rounds for a turn of 65,536 calls, which is short enough to be left undisturbed now and then, or of
/// fewer where a call searches all records.
fn rounds(kind: Kind, load: u32) -> u32 {
    match kind {
        Kind::Proved(0 | 2) => 1 + 1_024 / (load * load).min(1_024),
        _ => 4_096 / load,
    }
}

/// Nanoseconds of one turn.
fn turn(kind: Kind, task: Task, load: u32, rounds: u32) -> f64 {
    let start = Instant::now();
    black_box(perform(kind, task, black_box(load), black_box(rounds)));
    start.elapsed().as_nanos() as f64
}

/// Nanoseconds for each call, from the best turn of each kind with rounds and without.
fn best(task: Task, load: u32) -> [f64; KINDS.len()] {
    let mut full = [f64::INFINITY; KINDS.len()];
    let mut filling = [f64::INFINITY; KINDS.len()];
    for number in 0..TURNS {
        for place in 0..KINDS.len() {
            // Who goes first changes from turn to turn.
            let i = (place + number) % KINDS.len();
            let kind = KINDS[i];
            full[i] = full[i].min(turn(kind, task, load, rounds(kind, load)));
            filling[i] = filling[i].min(turn(kind, task, load, 0));
        }
    }
    std::array::from_fn(|i| {
        (full[i] - filling[i]) / (f64::from(rounds(KINDS[i], load)) * f64::from(16 * load))
    })
}

/// The tables and the map answer alike, so that they have done the same work.
fn check(task: Task, load: u32) {
    let expected = perform(Kind::HashMap, task, load, 2);
    for kind in KINDS {
        assert_eq!(perform(kind, task, load, 2), expected);
    }
    match task {
        Task::Find => assert!(expected >= u64::from(32 * load)),
        Task::FindAbsent => assert_eq!(expected, 0),
        Task::Learn | Task::ExpireNone => assert_eq!(expected, u64::from(32 * load)),
    }
}

fn main() {
    println!("Nanoseconds per call, best of {TURNS} turns of each table.");
    println!();
    println!(
        "{:<12} {:>5} {:>10} {:>10} {:>10} {:>10} {:>10} {:>15}",
        "call", "load", "searched", "hashed", "recent/s", "recent/h", "HashMap", "hashed/HashMap"
    );
    for (name, task) in [
        ("find", Task::Find),
        ("find absent", Task::FindAbsent),
        ("learn known", Task::Learn),
        ("expire none", Task::ExpireNone),
    ] {
        for load in [1, 64, 256] {
            check(task, load);
            let [searched, hashed, recent_s, recent_h, map] = best(task, load);
            println!(
                "{name:<12} {load:>5} {searched:>10.1} {hashed:>10.1} {recent_s:>10.1} {recent_h:>10.1} {map:>10.1} {:>15.2}",
                hashed / map
            );
        }
    }
}
