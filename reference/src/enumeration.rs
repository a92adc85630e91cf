//! Document 02, E10: all challenges of a small shape at level 128, from input
//! bytes to output bytes.

use crate::bavc::node_count;
use crate::calls::Refusal;
use crate::shape::Shape;
use crate::Block;

/// The most challenge bits outside the grinding bits that are listed.
const MOST_BITS: usize = 16;

/// One to five decimal digits and nothing else.
fn number(digits: &[u8]) -> Option<usize> {
    if !(1..=5).contains(&digits.len()) || !digits.iter().all(u8::is_ascii_digit) {
        return None;
    }
    std::str::from_utf8(digits).ok()?.parse().ok()
}

/// The whole input: four numbers with one space between, then one line feed or
/// the end.
fn parse(input: &[u8]) -> Option<Shape> {
    let line = input.strip_suffix(b"\n").unwrap_or(input);
    let numbers: Option<Vec<usize>> = line.split(|byte| *byte == b' ').map(number).collect();
    let [tau, k, w, t] = numbers?[..] else {
        return None;
    };
    Some(Shape::new(tau, k, w, t))
}

/// The challenge that hides these indices: the bits of each vector behind those
/// of the vectors before it, least first; the grinding bits are 0.
fn challenge_of(shape: &Shape, indices: &[usize]) -> Block {
    let mut challenge = [0; 16];
    let mut n = 0;
    for (i, index) in indices.iter().enumerate() {
        for bit in 0..shape.depth(i) {
            challenge[n / 8] |= ((index >> bit & 1) as u8) << (n % 8);
            n += 1;
        }
    }
    challenge
}

/// The next indices: vector 0 goes on, and a vector that was at its last entry
/// begins anew and lets the next one go on. Whether there are any.
fn advance(shape: &Shape, indices: &mut [usize]) -> bool {
    for (i, index) in indices.iter_mut().enumerate() {
        *index += 1;
        if *index < shape.entries(i) {
            return true;
        }
        *index = 0;
    }
    false
}

/// What the program prints for this input.
pub fn list_challenges(input: &[u8]) -> Vec<u8> {
    let refused = |why: Refusal| format!("refused {}\n", why as u32).into_bytes();
    let Some(given) = parse(input) else {
        return refused(Refusal::Line);
    };
    let Some(shape) = given.resolve() else {
        return refused(Refusal::Shape);
    };
    let bits: usize = (0..shape.tau).map(|i| shape.depth(i)).sum();
    if bits > MOST_BITS {
        return refused(Refusal::TooLarge);
    }
    let mut text = String::new();
    let (mut within, mut total) = (0, 0);
    let mut indices = vec![0; shape.tau];
    loop {
        let count = node_count(&shape, &indices);
        for byte in challenge_of(&shape, &indices) {
            text += &format!("{byte:02x}");
        }
        text += &format!(" {count}\n");
        within += usize::from(count <= shape.t);
        total += count;
        if !advance(&shape, &mut indices) {
            break;
        }
    }
    text += &format!("{within} {total}\n");
    text.into_bytes()
}
