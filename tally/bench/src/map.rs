//! The same work as the proved library does, on the `HashMap` of Rust's library with its own hasher.

use std::collections::HashMap;
use std::hint::black_box;

const SHARE: usize = 256;
const STRIDE: u32 = 7919;

type Address = [u8; 6];

enum Mark {
    New,
    Known,
    Moved,
    Full,
}

/// A filtering database number that there is not.
struct NoSuchFid;

/// A filtering table by the tables' rules. The map has its memory from the start.
struct Table {
    entries: HashMap<(u8, Address), (u8, u64)>,
    held: [usize; 16],
    /// No entry was heard before this time.
    oldest: u64,
}

impl Table {
    fn new() -> Table {
        Table {
            entries: HashMap::with_capacity(16 * SHARE),
            held: [0; 16],
            oldest: u64::MAX,
        }
    }

    fn find(&self, fid: u8, address: Address) -> Result<Option<u8>, NoSuchFid> {
        if !(1..=16).contains(&fid) {
            return Err(NoSuchFid);
        }
        Ok(self.entries.get(&(fid, address)).map(|entry| entry.0))
    }

    fn learn(
        &mut self,
        fid: u8,
        address: Address,
        port: u8,
        heard: u64,
    ) -> Result<Mark, NoSuchFid> {
        if !(1..=16).contains(&fid) {
            return Err(NoSuchFid);
        }
        self.oldest = self.oldest.min(heard);
        if let Some(entry) = self.entries.get_mut(&(fid, address)) {
            let before = entry.0;
            *entry = (port, heard);
            return Ok(if before == port {
                Mark::Known
            } else {
                Mark::Moved
            });
        }
        let held = &mut self.held[usize::from(fid - 1)];
        if *held >= SHARE {
            return Ok(Mark::Full);
        }
        *held += 1;
        self.entries.insert((fid, address), (port, heard));
        Ok(Mark::New)
    }

    fn expire(&mut self, limit: u64) -> usize {
        if limit < self.oldest {
            return 0;
        }
        let before = self.entries.len();
        let (held, oldest) = (&mut self.held, &mut self.oldest);
        *oldest = u64::MAX;
        self.entries.retain(|key, entry| {
            let stays = limit < entry.1;
            if stays {
                *oldest = entry.1.min(*oldest);
            } else {
                held[usize::from(key.0 - 1)] -= 1;
            }
            stays
        });
        before - self.entries.len()
    }
}

fn fid_at(entry: u32) -> u8 {
    (entry % 16) as u8 + 1
}

fn port_at(entry: u32) -> u8 {
    (entry / 16 % 16) as u8
}

fn address_at(n: u32) -> Address {
    [
        0x00,
        0x1b,
        0x21,
        0x00,
        (n / 256 % 256) as u8,
        (n % 256) as u8,
    ]
}

fn learn_one(table: &mut Table, at: u32, heard: u64) -> u64 {
    match table.learn(fid_at(at), address_at(at / 16), port_at(at), heard) {
        Ok(Mark::Known) => 1,
        _ => 0,
    }
}

fn find_one(table: &Table, at: u32, from: u16) -> u64 {
    match table.find(fid_at(at), address_at(u32::from(from) + at / 16)) {
        Ok(Some(port)) => u64::from(port) + 1,
        _ => 0,
    }
}

fn filled(n: u32) -> Table {
    let mut table = Table::new();
    for at in 0..n {
        learn_one(&mut table, at, 1);
    }
    table
}

fn next_turn(n: u32, stride: u32, at: u32) -> u32 {
    let next = at + stride;
    if next < n { next } else { next - n }
}

/// As `bridge_bench_find` does, without a kind.
#[inline(never)]
pub fn find(load: u32, from: u16, rounds: u32) -> u64 {
    let n = 16 * load.clamp(1, 256);
    let table = black_box(filled(n));
    let (mut at, mut sum) = (0, 0u64);
    for _ in 0..u64::from(rounds) * u64::from(n) {
        sum = sum.wrapping_add(find_one(&table, at, from));
        at = next_turn(n, STRIDE % n, at);
    }
    sum
}

/// As `bridge_bench_learn` does, without a kind.
#[inline(never)]
pub fn learn(load: u32, rounds: u32) -> u64 {
    let n = 16 * load.clamp(1, 256);
    let mut table = black_box(filled(n));
    let (mut at, mut sum) = (0, 0u64);
    for k in 0..u64::from(rounds) * u64::from(n) {
        sum = sum.wrapping_add(learn_one(&mut table, at, k));
        at = next_turn(n, STRIDE % n, at);
    }
    sum
}

/// As `bridge_bench_expire` does, without a kind.
#[inline(never)]
pub fn expire(load: u32, rounds: u32) -> u64 {
    let n = 16 * load.clamp(1, 256);
    let mut table = black_box(filled(n));
    let mut sum = 0u64;
    for _ in 0..u64::from(rounds) * u64::from(n) {
        sum = sum.wrapping_add(u64::from(black_box(&mut table).expire(0) == 0));
    }
    sum
}
