//! The listing program of document 01, at level 128, from input bytes to output
//! bytes.

use crate::calls::{plan, Refusal};
use crate::shape::Shape;

/// One to five decimal digits and one space at the front of the line; gives
/// the number and moves the line past them.
fn number(line: &mut &[u8]) -> Option<usize> {
    let space = line.iter().position(|byte| *byte == b' ')?;
    let digits = &line[..space];
    if !(1..=5).contains(&digits.len()) || !digits.iter().all(u8::is_ascii_digit) {
        return None;
    }
    *line = &line[space + 1..];
    let value = |digit: &u8| usize::from(digit - b'0');
    Some(digits.iter().fold(0, |sum, digit| 10 * sum + value(digit)))
}

/// The value of a lowercase hexadecimal digit.
fn hex_digit(digit: u8) -> Option<u8> {
    match digit {
        b'0'..=b'9' => Some(digit - b'0'),
        b'a'..=b'f' => Some(digit - b'a' + 10),
        _ => None,
    }
}

/// The whole line: four numbers, 32 hexadecimal digits, then one line feed or
/// the end.
fn parse(mut line: &[u8]) -> Option<(Shape, Vec<u8>)> {
    let mut next = || number(&mut line);
    let shape = Shape::new(next()?, next()?, next()?, next()?);
    let digits = line.strip_suffix(b"\n").unwrap_or(line);
    if digits.len() != 32 {
        return None;
    }
    let pairs = digits.chunks_exact(2);
    let challenge = pairs.map(|pair| Some(16 * hex_digit(pair[0])? + hex_digit(pair[1])?));
    Some((shape, challenge.collect::<Option<_>>()?))
}

/// What the listing program prints for this input.
pub fn list(input: &[u8]) -> Vec<u8> {
    let Some((shape, challenge)) = parse(input) else {
        return format!("refused {}\n", Refusal::Line as u32).into_bytes();
    };
    let allowance = shape.resolve().map_or(0, |shape| shape.t);
    let mut nodes = vec![0; allowance];
    let answer = plan(shape, &challenge, &mut nodes);
    if answer.number != 0 {
        return format!("refused {}\n", answer.number).into_bytes();
    }
    let mut text = format!("nodes {}\n", answer.count);
    for node in &nodes[..answer.count as usize] {
        text += &format!("{node}\n");
    }
    text.into_bytes()
}
