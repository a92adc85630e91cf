//! A stretch of the rows: document 02, E1.

use std::ops::Range;

/// Bytes f to f + g - 1 of every row: f is `first`, g is `width`.
#[derive(Clone, Copy, Debug, PartialEq, Eq)]
pub struct Stretch {
    pub first: usize,
    pub width: usize,
}

impl Stretch {
    pub const fn new(first: usize, width: usize) -> Stretch {
        Stretch { first, width }
    }

    /// The places of these bytes in a row of b bytes, or nothing where g is 0 or
    /// f + g, which may be any sum of two numbers, exceeds b.
    pub fn within(self, b: usize) -> Option<Range<usize>> {
        let end = self.first.checked_add(self.width)?;
        (self.width > 0 && end <= b).then_some(self.first..end)
    }
}

/// Of strings of b bytes, one after another, the bytes at these places.
pub fn cut(strings: &[u8], b: usize, places: &Range<usize>) -> Vec<u8> {
    let each = strings.chunks_exact(b);
    each.flat_map(|string| string[places.clone()].to_vec())
        .collect()
}

/// Strings of b bytes that [`cut`] makes these of: zeros at all other places.
pub fn spread(parts: &[u8], b: usize, places: &Range<usize>) -> Vec<u8> {
    let each = parts.chunks_exact(places.len());
    each.flat_map(|part| {
        let mut string = vec![0; b];
        string[places.clone()].copy_from_slice(part);
        string
    })
    .collect()
}
