//! The proved reader against the independent one, on generated frames. The frames are the same on
//! every run. Further tests see to it that the comparison could fail: every outcome occurs often,
//! and readers that are wrong in one point are told apart from the right one.

use std::collections::BTreeMap;
use tally::{Reading, independent, read_frame, read_number};

const LONGEST_TRIED: usize = 1_600;
const ROUNDS_PER_LENGTH: usize = 130;

/// Lengths at which an answer changes, or a reader could read past the end, and their neighbours.
const EDGE_LENGTHS: [usize; 22] = [
    0, 11, 12, 13, 14, 15, 16, 17, 55, 56, 57, 58, 59, 60, 61, 1_513, 1_514, 1_515, 1_517, 1_518,
    1_519, 1_520,
];
const EDGE_VIDS: [u16; 8] = [0, 1, 10, 255, 256, 4_093, 4_094, 4_095];

/// Marsaglia's xorshift on 64 bits: the same numbers on every machine.
struct Xorshift(u64);

impl Xorshift {
    fn next(&mut self) -> u64 {
        self.0 ^= self.0 << 13;
        self.0 ^= self.0 >> 7;
        self.0 ^= self.0 << 17;
        self.0
    }

    fn below(&mut self, limit: usize) -> usize {
        (self.next() >> 11) as usize % limit
    }

    fn fill(&mut self, bytes: &mut [u8]) {
        for chunk in bytes.chunks_mut(8) {
            chunk.copy_from_slice(&self.next().to_le_bytes()[..chunk.len()]);
        }
    }
}

/// Lays bytes over a frame, as far as the frame reaches.
fn lay(frame: &mut [u8], at: usize, bytes: &[u8]) {
    for (place, byte) in frame.iter_mut().skip(at).zip(bytes) {
        *place = *byte;
    }
}

/// Lays 81 00 over bytes 12 and 13, with one of their sixteen bits turned where `turned` is below 16.
fn lay_sign(frame: &mut [u8], turned: usize) {
    let sign = if turned < 16 {
        0x8100 ^ 1 << turned
    } else {
        0x8100_u16
    };
    lay(frame, 12, &sign.to_be_bytes());
}

fn lay_tag(frame: &mut [u8], priority: u16, cfi: u16, vid: u16) {
    lay(frame, 14, &(priority << 13 | cfi << 12 | vid).to_be_bytes());
}

/// Frames of every length from 0 on: half of them tagged, the others with a bit of 81 00 turned, or left
/// as they came. Of the tags half have an edge for their VID, and a quarter have CFI set.
fn each_length(mut look: impl FnMut(&[u8])) {
    let mut random = Xorshift(0x9E37_79B9_7F4A_7C15);
    let mut memory = [0; LONGEST_TRIED];
    for length in 0..=LONGEST_TRIED {
        let frame = &mut memory[..length];
        for round in 0..ROUNDS_PER_LENGTH {
            random.fill(frame);
            match round % 4 {
                0 => lay_sign(frame, random.below(16)),
                1 => {}
                _ => lay_sign(frame, 16),
            }
            let edge = EDGE_VIDS[random.below(EDGE_VIDS.len())];
            let vid = if random.below(2) == 0 {
                edge
            } else {
                random.below(4_096) as u16
            };
            let cfi = u16::from(random.below(4) == 0);
            lay_tag(frame, random.below(8) as u16, cfi, vid);
            look(frame);
        }
    }
}

/// At the edge lengths: 81 00 and each turned bit of it, with every priority, both CFI, and each edge VID.
fn each_edge(mut look: impl FnMut(&[u8])) {
    let mut random = Xorshift(0xD1B5_4A32_D192_ED03);
    let mut memory = [0; LONGEST_TRIED];
    for length in EDGE_LENGTHS {
        let frame = &mut memory[..length];
        random.fill(frame);
        for turned in 0..=16 {
            lay_sign(frame, turned);
            for priority in 0..8 {
                for cfi in 0..2 {
                    for vid in EDGE_VIDS {
                        lay_tag(frame, priority, cfi, vid);
                        look(frame);
                    }
                }
            }
        }
    }
}

/// Every one of the 65,536 tags, in frames of 60 bytes.
fn each_tag(mut look: impl FnMut(&[u8])) {
    let mut frame = [0x5A; 60];
    lay_sign(&mut frame, 16);
    for tag in 0..=u16::MAX {
        lay(&mut frame, 14, &tag.to_be_bytes());
        look(&frame);
    }
}

fn every_frame(mut look: impl FnMut(&[u8])) {
    each_length(&mut look);
    each_edge(&mut look);
    each_tag(&mut look);
}

#[test]
fn both_readers_agree() {
    let mut frames = 0;
    every_frame(|frame| {
        frames += 1;
        let (proved, other) = (read_number(frame), independent::read_number(frame));
        let middle = frame.get(12..frame.len().min(16));
        assert_eq!(
            proved,
            other,
            "a frame of {} bytes, from 12 on {middle:02x?}",
            frame.len()
        );
        assert_eq!(Reading::from_number(proved), Some(read_frame(frame)));
    });
    assert!(frames >= 200_000, "only {frames} frames");
    println!("{frames} frames, each read alike by both readers");
}

/// What the test above compared: without this, it would pass on frames that are all too short.
#[test]
fn every_outcome_occurs_often() {
    let mut outcomes = BTreeMap::new();
    let mut accepted_vids = BTreeMap::new();
    let mut accepted_priorities = BTreeMap::new();
    let mut lengths = BTreeMap::new();
    every_frame(|frame| {
        *lengths.entry(frame.len()).or_insert(0) += 1;
        let outcome = match read_frame(frame) {
            Reading::Tagged { vid, priority } => {
                *accepted_vids.entry(vid).or_insert(0) += 1;
                *accepted_priorities.entry(priority).or_insert(0) += 1;
                "tagged".to_string()
            }
            Reading::Untagged => "untagged".to_string(),
            Reading::Refused(number) => format!("refused with {number}"),
        };
        *outcomes.entry(outcome).or_insert(0) += 1;
    });
    println!("{outcomes:?}");
    let kinds: Vec<&str> = outcomes.keys().map(String::as_str).collect();
    assert_eq!(
        kinds,
        [
            "refused with 4",
            "refused with 5",
            "refused with 6",
            "refused with 7",
            "tagged",
            "untagged"
        ]
    );
    assert!(
        outcomes.values().all(|&times| times >= 5_000),
        "{outcomes:?}"
    );
    assert!((0..=LONGEST_TRIED).all(|length| lengths[&length] >= ROUNDS_PER_LENGTH));
    assert_eq!(
        accepted_vids.len(),
        4_095,
        "every VID but 4,095 is read out of some frame"
    );
    assert!(
        [0, 1, 4_094].iter().all(|vid| accepted_vids[vid] >= 1_000),
        "{accepted_vids:?}"
    );
    assert_eq!(accepted_priorities.len(), 8);
    assert!(
        accepted_priorities.values().all(|&times| times >= 1_000),
        "{accepted_priorities:?}"
    );
}

/// A reader with its rules as values, so that each can be set wrong.
#[derive(Clone, Copy)]
struct Rules {
    shortest: usize,
    longest_untagged: usize,
    longest_tagged: usize,
    sign: [u8; 2],
    sign_mask: [u8; 2],
    reserved_vid: u16,
    asks_cfi: bool,
    cfi_before_vid: bool,
    priority_shift: u32,
}

const RIGHT: Rules = Rules {
    shortest: 60,
    longest_untagged: 1_514,
    longest_tagged: 1_518,
    sign: [0x81, 0x00],
    sign_mask: [0xFF, 0xFF],
    reserved_vid: 4_095,
    asks_cfi: true,
    cfi_before_vid: false,
    priority_shift: 13,
};

fn read_by(rules: Rules, frame: &[u8]) -> u32 {
    let at = |place| frame.get(place).copied().unwrap_or(0);
    let tagged = (0..2).all(|i| (at(12 + i) ^ rules.sign[i]) & rules.sign_mask[i] == 0);
    let tag = u16::from_be_bytes([at(14), at(15)]);
    let longest = if tagged {
        rules.longest_tagged
    } else {
        rules.longest_untagged
    };
    let bad_vid = tagged && tag & 0x0FFF == rules.reserved_vid;
    let bad_cfi = tagged && rules.asks_cfi && tag & 0x1000 != 0;
    let mut questions = [
        (4, frame.len() < rules.shortest),
        (5, frame.len() > longest),
        (6, bad_vid),
        (7, bad_cfi),
    ];
    if rules.cfi_before_vid {
        questions.swap(2, 3);
    }
    match questions.iter().find(|(_, no)| *no) {
        Some((number, _)) => 65_536 * number,
        None if tagged => {
            u32::from(tag & 0x0FFF) + 4_096 * u32::from(tag >> rules.priority_shift & 7) + 32_768
        }
        None => 0,
    }
}

fn differences(rules: Rules) -> usize {
    let mut found = 0;
    every_frame(|frame| found += usize::from(read_by(rules, frame) != read_number(frame)));
    found
}

/// The frames tell a wrong reader from the right one, whichever rule it has wrong.
#[test]
fn wrong_readers_are_found() {
    assert_eq!(differences(RIGHT), 0);
    let wrong = [
        (
            "shortest 59",
            Rules {
                shortest: 59,
                ..RIGHT
            },
        ),
        (
            "shortest 61",
            Rules {
                shortest: 61,
                ..RIGHT
            },
        ),
        (
            "untagged to 1,513",
            Rules {
                longest_untagged: 1_513,
                ..RIGHT
            },
        ),
        (
            "untagged to 1,515",
            Rules {
                longest_untagged: 1_515,
                ..RIGHT
            },
        ),
        (
            "tagged to 1,517",
            Rules {
                longest_tagged: 1_517,
                ..RIGHT
            },
        ),
        (
            "tagged to 1,519",
            Rules {
                longest_tagged: 1_519,
                ..RIGHT
            },
        ),
        (
            "sign 81 01",
            Rules {
                sign: [0x81, 0x01],
                ..RIGHT
            },
        ),
        (
            "a bit of byte 12 not looked at",
            Rules {
                sign_mask: [0xFE, 0xFF],
                ..RIGHT
            },
        ),
        (
            "byte 13 not looked at",
            Rules {
                sign_mask: [0xFF, 0x00],
                ..RIGHT
            },
        ),
        (
            "reserved VID 4,094",
            Rules {
                reserved_vid: 4_094,
                ..RIGHT
            },
        ),
        (
            "reserved VID 0",
            Rules {
                reserved_vid: 0,
                ..RIGHT
            },
        ),
        (
            "CFI not asked",
            Rules {
                asks_cfi: false,
                ..RIGHT
            },
        ),
        (
            "CFI before VID",
            Rules {
                cfi_before_vid: true,
                ..RIGHT
            },
        ),
        (
            "priority with the CFI bit",
            Rules {
                priority_shift: 12,
                ..RIGHT
            },
        ),
    ];
    for (name, rules) in wrong {
        assert!(
            differences(rules) >= 50,
            "{name}: {} differences",
            differences(rules)
        );
    }
}
