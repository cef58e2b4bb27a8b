//! A second reader, written from `docs/FRAMES.md` and the one number of `docs/C-API.md` alone, to hold
//! the proved one against. It shares neither code nor shape with that one: it answers all four
//! questions at once, a bit for each no, and the lowest bit is the first no.

/// The number of the first question. The others follow it without a gap.
const FIRST_QUESTION: u32 = 4;

const SHORTEST: usize = 60;
const LONGEST: usize = 1_514;
const TAG_BYTES: usize = 4;

/// In the four bytes from 12 on, taken as one number: what stands above a tag, and the tag's parts.
const TAG_FOLLOWS: u32 = 0x8100;
const VID_BITS: u32 = 0x0FFF;
const CFI_BIT: u32 = 0x1000;

/// Reads a frame, and answers the same one number as the proved reader.
///
/// Not inlined, because the proved reader, which is linked in compiled form, cannot be either: so
/// timings of the two compare like with like.
#[inline(never)]
pub fn read_number(frame: &[u8]) -> u32 {
    // A frame of fewer than 16 bytes is too short whatever stands in it.
    let word = match frame.get(12..) {
        Some(&[a, b, c, d, ..]) => u32::from_be_bytes([a, b, c, d]),
        _ => 0,
    };
    let tagged = word >> 16 == TAG_FOLLOWS;
    let longest = if tagged { LONGEST + TAG_BYTES } else { LONGEST };
    let vid = word & VID_BITS;
    let noes = u32::from(frame.len() < SHORTEST)
        | u32::from(frame.len() > longest) << 1
        | u32::from(tagged && vid == VID_BITS) << 2
        | u32::from(tagged && word & CFI_BIT != 0) << 3;
    if noes != 0 {
        (FIRST_QUESTION + noes.trailing_zeros()) << 16
    } else if tagged {
        let priority = word >> 13 & 7;
        0x8000 | priority << 12 | vid
    } else {
        0
    }
}
