//! Times the proved bridge: known frames and flooded ones, received and sent.
//!
//!     ./c-library.sh bridge_bench
//!     cargo run --offline --release --manifest-path tally/bench/Cargo.toml --bin bridge
//!
//! A turn makes a bridge, lets it hear its stations, and plays the same frames over and over: each is
//! received, and sent right after it where it goes. The time of a turn in which no frame is played is
//! taken off. The best turn counts, since whatever else the machine does only adds time.

use std::hint::black_box;
use std::time::Instant;

/// Where a frame arrives, and where it is sent.
#[repr(C)]
#[derive(Clone, Copy)]
struct Way {
    from: u8,
    to: u8,
}

// It is proved safe for all arguments that are live slices, and keeps none of them. It allocates from the C library.
unsafe extern "C" {
    fn bridge_bench_play(
        kind: u32,
        ports: u8,
        classes: u8,
        depth: u8,
        hellos: *const u8,
        hellos_length: usize,
        hello_ways: *const Way,
        hello_ways_length: usize,
        frames: *const u8,
        frames_length: usize,
        length: usize,
        ways: *const Way,
        ways_length: usize,
        flooded: bool,
        memory: *mut u8,
        memory_length: usize,
        output: *mut u8,
        output_length: usize,
        passes: u32,
    ) -> u64;
}

const TURNS: usize = 60;

/// The bytes that a frame takes in the frame memory, and the most that a send writes.
const CELL: usize = 1_518;

/// So many stations are at each port.
const STATIONS: usize = 8;

/// So many different frames are played over and over.
const FRAMES: usize = 256;

const HELLO: usize = 60;

const LENGTHS: [usize; 2] = [60, 1_514];

const KINDS: [&str; 4] = ["searched", "hashed", "recent/s", "recent/h"];

#[derive(Clone, Copy)]
struct Shape {
    ports: u8,
    classes: u8,
    depth: u8,
}

const SHAPES: [Shape; 3] = [
    Shape {
        ports: 4,
        classes: 2,
        depth: 16,
    },
    Shape {
        ports: 16,
        classes: 2,
        depth: 32,
    },
    Shape {
        ports: 16,
        classes: 8,
        depth: 64,
    },
];

impl Shape {
    fn memory(self) -> Vec<u8> {
        vec![
            0;
            usize::from(self.ports) * usize::from(self.classes) * usize::from(self.depth) * CELL
        ]
    }
}

/// A small generator, so that runs repeat.
struct Random(u64);

impl Random {
    fn below(&mut self, n: usize) -> usize {
        self.0 = self
            .0
            .wrapping_mul(0x5851_f42d_4c95_7f2d)
            .wrapping_add(0x1405_7b7e_f767_814f);
        ((self.0 >> 33) as usize) % n
    }
}

/// The address of the station with a number.
fn address(n: usize) -> u64 {
    let mixed = (n as u64 + 1).wrapping_mul(0xd134_2543_de82_ef95);
    0x0200_0000_0000 | (mixed ^ mixed >> 29) & 0xFF_FFFF_FFFF
}

/// A frame of a length, with a tag in every second one.
fn frame(to: u64, from: u64, n: usize, length: usize, random: &mut Random) -> Vec<u8> {
    let mut frame = [&to.to_be_bytes()[2..], &from.to_be_bytes()[2..]].concat();
    if n % 2 == 1 {
        let vid = if random.below(2) == 0 { 10 } else { 20 };
        let tag = (random.below(8) << 13 | vid) as u16;
        frame.extend([0x81, 0, (tag >> 8) as u8, tag as u8]);
    } else {
        frame.extend([0x08, 0]);
    }
    frame.resize(length, 0x5A);
    frame
}

/// Frames of one length, one after another, with a way for each.
#[derive(Default)]
struct Traffic {
    frames: Vec<u8>,
    ways: Vec<Way>,
}

impl Traffic {
    fn add(&mut self, from: usize, frame: &[u8], to: usize) {
        self.frames.extend(frame);
        self.ways.push(Way {
            from: from as u8,
            to: to as u8,
        });
    }
}

/// Every station is heard in both VLANs, by a frame to all.
fn hellos(ports: usize) -> Traffic {
    let mut traffic = Traffic::default();
    for port in 0..ports {
        for station in 0..STATIONS {
            for vid in [10, 20] {
                let mut hello = frame(
                    !0,
                    address(port * STATIONS + station),
                    0,
                    HELLO,
                    &mut Random(3),
                );
                hello[12..16].copy_from_slice(&[0x81, 0, 0, vid]);
                traffic.add(port, &hello, port);
            }
        }
    }
    traffic
}

/// Frames between stations that were heard, or to one that was not, which are flooded.
fn traffic(ports: usize, length: usize, flooded: bool) -> Traffic {
    let mut random = Random(3);
    let mut traffic = Traffic::default();
    for n in 0..FRAMES {
        let from = random.below(ports);
        let to = (from + 1 + random.below(ports - 1)) % ports;
        let (a, b) = (
            from * STATIONS + random.below(STATIONS),
            to * STATIONS + random.below(STATIONS),
        );
        let mut frame = frame(address(b), address(a), n, length, &mut random);
        if flooded {
            frame[..6].copy_from_slice(&[2, 0xFF, 0xFF, 0, 0, 1]);
        }
        traffic.add(from, &frame, to);
    }
    traffic
}

/// What is played at one kind of bridge.
struct Task<'a> {
    kind: u32,
    shape: Shape,
    hellos: &'a Traffic,
    traffic: &'a Traffic,
    length: usize,
    flooded: bool,
}

impl Task<'_> {
    /// The checksum of all answers.
    fn play(&self, memory: &mut [u8], passes: u32) -> u64 {
        let mut output = [0; CELL];
        // SAFETY: the pointers and the lengths are those of live slices, apart from one another, which the callee
        // does not keep.
        unsafe {
            bridge_bench_play(
                self.kind,
                self.shape.ports,
                self.shape.classes,
                self.shape.depth,
                self.hellos.frames.as_ptr(),
                self.hellos.frames.len(),
                self.hellos.ways.as_ptr(),
                self.hellos.ways.len(),
                self.traffic.frames.as_ptr(),
                self.traffic.frames.len(),
                self.length,
                self.traffic.ways.as_ptr(),
                self.traffic.ways.len(),
                self.flooded,
                memory.as_mut_ptr(),
                memory.len(),
                output.as_mut_ptr(),
                output.len(),
                passes,
            )
        }
    }

    /// Nanoseconds of one turn.
    fn turn(&self, memory: &mut [u8], passes: u32) -> f64 {
        let start = Instant::now();
        black_box(self.play(memory, black_box(passes)));
        start.elapsed().as_nanos() as f64
    }

    /// Nanoseconds for each frame, from the best turn with frames and without.
    fn best(&self, memory: &mut [u8]) -> f64 {
        let passes = if self.flooded { 4 } else { 64 };
        let (mut full, mut hearing) = (f64::INFINITY, f64::INFINITY);
        for _ in 0..TURNS {
            full = full.min(self.turn(memory, passes));
            hearing = hearing.min(self.turn(memory, 0));
        }
        (full - hearing) / (f64::from(passes) * FRAMES as f64)
    }
}

/// The table: nanoseconds for each kind, after a look at whether all kinds answer alike.
fn row(name: &str, shape: Shape, length: usize, flooded: bool, memory: &mut [u8]) {
    let ports = usize::from(shape.ports);
    let (hellos, traffic) = (hellos(ports), traffic(ports, length, flooded));
    let tasks = [0, 1, 2, 3].map(|kind| Task {
        kind,
        shape,
        hellos: &hellos,
        traffic: &traffic,
        length,
        flooded,
    });
    let sums = tasks.each_ref().map(|task| task.play(memory, 2));
    assert!(sums[0] > 0 && sums.iter().all(|sum| *sum == sums[0]));
    print!("{name:<15} {length:>6}");
    for task in &tasks {
        print!(" {:>10.1}", task.best(memory));
    }
    println!();
}

fn main() {
    println!("Nanoseconds for a frame, received and sent, best of {TURNS} turns of each table.");
    for shape in SHAPES {
        let mut memory = shape.memory();
        println!();
        println!(
            "{} ports, {} classes, depth {} ({:.2} MB)",
            shape.ports,
            shape.classes,
            shape.depth,
            memory.len() as f64 / 1e6
        );
        print!("{:<15} {:>6}", "traffic", "bytes");
        for kind in KINDS {
            print!(" {kind:>10}");
        }
        println!();
        for length in LENGTHS {
            row("known unicast", shape, length, false, &mut memory);
        }
        if shape.ports == 16 {
            for length in LENGTHS {
                row("flooding", shape, length, true, &mut memory);
            }
        }
    }
}
