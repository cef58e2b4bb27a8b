//! Where the numbers come from that `crates/table_checks/src/alike.rt` expects: the same run of calls,
//! drawn the same way, at a plain map that was written from docs/TABLES.md and not from the tables.

use std::collections::BTreeMap;

const CALLS: u64 = 8_000;
const SHARE: usize = 3;
const FIDS: [u8; 16] = [1, 1, 1, 1, 2, 2, 2, 3, 3, 9, 16, 16, 16, 0, 17, 255];

#[derive(Debug, Default, PartialEq)]
struct Seen {
    new: u64,
    known: u64,
    moved: u64,
    full: u64,
    found: u64,
    missed: u64,
    refused: u64,
    flushes: u64,
    flushed: u64,
    expiries: u64,
    expired: u64,
}

/// FID and address number to the port and the time last heard.
#[derive(Default)]
struct Model(BTreeMap<(u8, u64), (u64, u64)>);

impl Model {
    fn count(&self, fid: u8) -> usize {
        self.0.keys().filter(|key| key.0 == fid).count()
    }

    fn learn(&mut self, fid: u8, address: u64, port: u64, heard: u64, seen: &mut Seen) {
        match self.0.get(&(fid, address)) {
            Some((old, _)) if *old == port => seen.known += 1,
            Some(_) => seen.moved += 1,
            None if self.count(fid) < SHARE => seen.new += 1,
            None => {
                seen.full += 1;
                return;
            }
        }
        self.0.insert((fid, address), (port, heard));
    }

    fn find(&self, fid: u8, address: u64, seen: &mut Seen) {
        match self.0.contains_key(&(fid, address)) {
            true => seen.found += 1,
            false => seen.missed += 1,
        }
    }

    fn expire(&mut self, limit: u64, seen: &mut Seen) {
        let before = self.0.len();
        self.0.retain(|_, (_, heard)| *heard > limit);
        let gone = (before - self.0.len()) as u64;
        seen.expiries += u64::from(gone > 0);
        seen.expired += gone;
    }

    fn flush(&mut self, fid: u8, seen: &mut Seen) {
        let gone = self.count(fid) as u64;
        self.0.retain(|key, _| key.0 != fid);
        seen.flushes += u64::from(gone > 0);
        seen.flushed += gone;
    }
}

fn play() -> Seen {
    let mut model = Model::default();
    let mut seen = Seen::default();
    let mut dice: u64 = 0x9e37_79b9_7f4a_7c15;
    for now in 0..CALLS {
        dice ^= dice << 13;
        dice ^= dice >> 7;
        dice ^= dice << 17;
        let fid = FIDS[(dice % 16) as usize];
        let address = dice / 16 % 8;
        let draw = dice / 2_048 % 64;
        let there_is = (1..=16).contains(&fid);
        match dice / 128 % 16 {
            14 => model.expire(now.saturating_sub(2 * draw), &mut seen),
            _ if !there_is => seen.refused += 1,
            0..=6 => model.find(fid, address, &mut seen),
            7..=13 => model.learn(fid, address, draw % 2, now, &mut seen),
            _ => model.flush(fid, &mut seen),
        }
    }
    for fid in 1..=16 {
        model.flush(fid, &mut seen);
    }
    seen
}

#[test]
fn the_counts_of_the_long_run() {
    let expected = Seen {
        new: 1_586,
        known: 320,
        moved: 277,
        full: 638,
        found: 627,
        missed: 2_195,
        refused: 1_427,
        flushes: 366,
        flushed: 796,
        expiries: 182,
        expired: 790,
    };
    assert_eq!(play(), expected);
}
