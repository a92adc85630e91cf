//! Document 02, E14: what the openings of records cost, from input bytes to output
//! bytes.

use crate::bavc::node_count;
use crate::calls::Refusal;
use crate::record::{read_first, Record};
use crate::shape::{decode_all_chall, grinding_bits_are_zero};

/// The most bytes of an input that is reported, 64 KiB.
const MOST_BYTES: usize = 65_536;

/// The node count of an opening and its unused slots; 4, 5 and 6 as reconstruct
/// finds them.
fn cost(record: &Record) -> Result<(usize, usize), Refusal> {
    let shape = record.shape.resolve().ok_or(Refusal::Shape)?;
    if !grinding_bits_are_zero(&shape, record.challenge) {
        return Err(Refusal::Grinding);
    }
    let count = node_count(&shape, &decode_all_chall(&shape, record.challenge));
    let unused = shape.t.checked_sub(count).ok_or(Refusal::Nodes)?;
    let mut left_over = record
        .opening
        .iter()
        .rev()
        .take(unused * shape.node_bytes());
    if left_over.any(|byte| *byte != 0) {
        return Err(Refusal::Slots);
    }
    Ok((count, unused))
}

/// What the program prints for this input.
pub fn report(input: &[u8]) -> Vec<u8> {
    if input.len() > MOST_BYTES {
        return format!("refused {}\n", Refusal::Line as u32).into_bytes();
    }
    let mut text = String::new();
    let (mut nodes, mut slots) = (0, 0);
    let mut rest = input;
    let mut place = 0;
    while !rest.is_empty() {
        place += 1;
        // Where no record can be read, nothing tells where another would begin.
        let (found, behind) = match read_first(rest) {
            Ok((record, behind)) => (cost(&record), behind),
            Err(refusal) => (Err(refusal), &[][..]),
        };
        match found {
            Ok((count, unused)) => {
                text += &format!("{place} {count} {unused}\n");
                nodes += count;
                slots += unused;
            }
            Err(refusal) => text += &format!("{place} refused {}\n", refusal as u32),
        }
        rest = behind;
    }
    text += &format!("total {nodes} {slots}\n");
    text.into_bytes()
}
