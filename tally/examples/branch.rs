//! Books count lines on the shelves of the branches they come from.
//!
//!     cargo run --offline --release --example branch
//!
//! A count line is a product code and a quantity. The line does not say which branch counted: a
//! branch is a VLAN, and only the tag of the frame names it. So a line is booked under the VID of its
//! frame, and not at all where there is none.
//!
//! The body of a count frame, as this example lays it out: the two bytes 88 B5, which stand for
//! traffic of one's own, then text, `CODE=QUANTITY` and a line end, then zeros up to the least length.

use std::collections::BTreeMap;
use tally::{Reading, read_frame};

const COUNT_KIND: [u8; 2] = [0x88, 0xB5];

/// The addresses are those of the hire kit, and so the same in every branch.
const COUNTER: [u8; 6] = [0x02, 0, 0, 0, 0, 0x0A];
const OFFICE: [u8; 6] = [0x02, 0, 0, 0, 0, 0x0B];

/// A frame from a counter to the office, tagged where there is a tag.
fn count_frame(tag: Option<u16>, text: &str) -> Vec<u8> {
    let mut frame = [OFFICE, COUNTER].concat();
    if let Some(tag) = tag {
        frame.extend([0x81, 0x00]);
        frame.extend(tag.to_be_bytes());
    }
    frame.extend(COUNT_KIND);
    frame.extend(text.as_bytes());
    frame.push(b'\n');
    frame.resize(frame.len().max(60), 0);
    frame
}

/// The product code and quantity in a frame's body, or `None` where it holds no count line.
fn count_line(body: &[u8]) -> Option<(&str, u32)> {
    let text = body.strip_prefix(&COUNT_KIND)?;
    let end = text.iter().position(|&byte| byte == b'\n')?;
    let (code, quantity) = str::from_utf8(&text[..end]).ok()?.split_once('=')?;
    Some((code, quantity.parse().ok()?))
}

/// What is counted so far: for each branch, how many of each product.
type Shelves = BTreeMap<u16, BTreeMap<String, u32>>;

/// Books a frame's count line, and says what was done.
fn book(shelves: &mut Shelves, frame: &[u8]) -> String {
    let (vid, priority) = match read_frame(frame) {
        Reading::Refused(number) => return format!("refused with {number}, nothing booked"),
        Reading::Untagged => return "no tag, so no branch: nothing booked".to_string(),
        Reading::Tagged { vid: 0, priority } => {
            return format!("priority {priority} and no VLAN, so no branch: nothing booked");
        }
        Reading::Tagged { vid, priority } => (vid, priority),
    };
    // An accepted tagged frame has its body from byte 16 on.
    let Some((code, quantity)) = count_line(&frame[16..]) else {
        return format!("branch {vid}: no count line, nothing booked");
    };
    let shelf = shelves
        .entry(vid)
        .or_default()
        .entry(code.to_string())
        .or_default();
    let Some(sum) = shelf.checked_add(quantity) else {
        return format!("branch {vid}: {code} would pass what a shelf can hold, nothing booked");
    };
    *shelf = sum;
    format!("branch {vid}: {quantity} of {code} booked (priority {priority})")
}

fn main() {
    let mut shelves = Shelves::new();
    let frames = [
        ("branch 10", count_frame(Some(0x000A), "SCREW-4X40=144")),
        (
            "branch 20, same line",
            count_frame(Some(0x0014), "SCREW-4X40=12"),
        ),
        (
            "branch 10, priority 5",
            count_frame(Some(0xA00A), "HINGE-75=8"),
        ),
        ("branch 10 again", count_frame(Some(0x000A), "SCREW-4X40=6")),
        ("no tag", count_frame(None, "SCREW-4X40=500")),
        (
            "tag with VID 0",
            count_frame(Some(0x6000), "SCREW-4X40=500"),
        ),
        ("CFI set", count_frame(Some(0xB00A), "SCREW-4X40=500")),
        ("VID 4,095", count_frame(Some(0x0FFF), "SCREW-4X40=500")),
        (
            "cut off at 59 bytes",
            count_frame(Some(0x000A), "SCREW-4X40=500")[..59].to_vec(),
        ),
        ("no quantity", count_frame(Some(0x000A), "SCREW-4X40=many")),
    ];
    for (name, frame) in &frames {
        println!(
            "{name:<22} {:>2} bytes: {}",
            frame.len(),
            book(&mut shelves, frame)
        );
    }
    println!();
    for (vid, products) in &shelves {
        for (code, sum) in products {
            println!("branch {vid}: {sum:>4} of {code}");
        }
    }
}
