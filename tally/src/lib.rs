//! The tally's side of the bridge's C interface: frames are read by the proved reader, and the one
//! number that it answers becomes a [`Reading`]. `docs/FRAMES.md` has the rules of frames, and
//! `docs/C-API.md` the interface.

pub mod independent;

unsafe extern "C" {
    fn bridge_read_frame(frame: *const u8, length: usize) -> u32;
}

/// How many refusals there are. They are numbered from 1 on without a gap; `docs/REFUSALS.md` lists them.
pub const REFUSALS: u8 = 37;

/// In the one number of a frame: the bit that says that it is tagged, and those of its VID.
const TAGGED: u32 = 0x8000;
const VID_BITS: u32 = 0x0FFF;

/// What reading says of a frame.
#[derive(Clone, Copy, Debug, PartialEq, Eq)]
pub enum Reading {
    /// A frame with a tag.
    Tagged {
        /// 0 to 4,094; 0 names no VLAN.
        vid: u16,
        /// 0 to 7.
        priority: u8,
    },
    /// A frame without a tag.
    Untagged,
    /// No frame: the number of the question that was answered no, 1 to [`REFUSALS`].
    Refused(u8),
}

impl Reading {
    /// The reading that a number stands for, or `None` for a number that stands for none.
    pub fn from_number(number: u32) -> Option<Reading> {
        let (high, low) = (number >> 16, number & 0xFFFF);
        match (high, low) {
            (0, 0) => Some(Reading::Untagged),
            (0, TAGGED..) if low & VID_BITS != VID_BITS => Some(Reading::Tagged {
                vid: (low & VID_BITS) as u16,
                priority: (low >> 12 & 7) as u8,
            }),
            (_, 0) if (1..=u32::from(REFUSALS)).contains(&high) => {
                Some(Reading::Refused(high as u8))
            }
            _ => None,
        }
    }
}

/// The one number that the proved reader answers for a frame.
#[inline]
pub fn read_number(frame: &[u8]) -> u32 {
    // SAFETY: the pointer and the length are those of a live slice, which the callee only reads
    // and does not keep.
    unsafe { bridge_read_frame(frame.as_ptr(), frame.len()) }
}

/// Reads a frame.
///
/// # Panics
///
/// Only if the linked library answers a number that stands for no reading, and so is not the one
/// that was proved.
pub fn read_frame(frame: &[u8]) -> Reading {
    let number = read_number(frame);
    Reading::from_number(number).unwrap_or_else(|| {
        panic!("the frame library answered {number}, which stands for no reading")
    })
}

#[cfg(test)]
mod tests {
    use super::*;

    /// A frame of 60 bytes with these bytes from 12 to 15.
    fn frame(middle: [u8; 4]) -> Vec<u8> {
        let mut frame = vec![0; 60];
        frame[12..16].copy_from_slice(&middle);
        frame
    }

    #[test]
    fn numbers_become_readings() {
        assert_eq!(Reading::from_number(0), Some(Reading::Untagged));
        assert_eq!(
            Reading::from_number(53_258),
            Some(Reading::Tagged {
                vid: 10,
                priority: 5
            })
        );
        assert_eq!(Reading::from_number(458_752), Some(Reading::Refused(7)));
        assert_eq!(
            Reading::from_number(u32::from(REFUSALS) << 16),
            Some(Reading::Refused(REFUSALS))
        );
        for number in [
            1,
            10,
            32_767,
            36_863,
            65_535,
            65_537,
            458_753,
            u32::MAX,
            u32::from(REFUSALS + 1) << 16,
            256 << 16,
        ] {
            assert_eq!(Reading::from_number(number), None, "{number}");
        }
    }

    #[test]
    fn frames_become_readings() {
        assert_eq!(read_frame(&[]), Reading::Refused(4));
        assert_eq!(
            read_frame(&frame([0x08, 0x00, 0xA0, 0x0A])),
            Reading::Untagged
        );
        assert_eq!(
            read_frame(&frame([0x81, 0x00, 0xA0, 0x0A])),
            Reading::Tagged {
                vid: 10,
                priority: 5
            }
        );
        assert_eq!(
            read_frame(&frame([0x81, 0x00, 0x60, 0x00])),
            Reading::Tagged {
                vid: 0,
                priority: 3
            }
        );
        assert_eq!(
            read_frame(&frame([0x81, 0x00, 0xB0, 0x0A])),
            Reading::Refused(7)
        );
        assert_eq!(
            read_frame(&frame([0x81, 0x00, 0x0F, 0xFF])),
            Reading::Refused(6)
        );
        assert_eq!(
            read_frame(&frame([0x81, 0x00, 0x0F, 0xFE])),
            Reading::Tagged {
                vid: 4094,
                priority: 0
            }
        );
    }
}
