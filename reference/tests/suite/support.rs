//! Bytes to try, and document 01's definitions of covered and revealed nodes.

use reference::cli;
use reference::shape::Shape;

/// Bytes that look random: SplitMix64 from a seed.
pub fn noise(seed: u64, length: usize) -> Vec<u8> {
    let word = |n: u64| {
        let mut z = (seed << 32 | n).wrapping_mul(0x9e37_79b9_7f4a_7c15);
        z = (z ^ z >> 30).wrapping_mul(0xbf58_476d_1ce4_e5b9);
        z = (z ^ z >> 27).wrapping_mul(0x94d0_49bb_1331_11eb);
        z ^ z >> 31
    };
    let words = (1..=length.div_ceil(8) as u64).flat_map(|n| word(n).to_le_bytes());
    words.take(length).collect()
}

/// The challenge with this first byte and zeros after it.
pub fn first_byte(byte: u8) -> Vec<u8> {
    let mut challenge = vec![0; 16];
    challenge[0] = byte;
    challenge
}

/// Bit n of a challenge, least first.
pub fn bit(challenge: &[u8], n: usize) -> bool {
    challenge[n / 8] & (1 << (n % 8)) != 0
}

/// These bytes, as many as a challenge has, with the grinding bits of the shape set
/// to 0.
pub fn allowed(shape: &Shape, bytes: &[u8]) -> Vec<u8> {
    assert_eq!(8 * bytes.len(), shape.level);
    let mut kept = bytes.to_vec();
    for n in shape.level - shape.w..shape.level {
        kept[n / 8] &= !(1 << (n % 8));
    }
    kept
}

/// Document 02, E2 and E7: r, the number of vectors of depth k + 1.
fn deeper(shape: &Shape) -> usize {
    shape.level - shape.w - shape.tau * shape.k
}

/// Document 02, E7 and E8: the bytes of a leaf commitment.
pub fn leaf_commitment(shape: &Shape) -> usize {
    let blocks = if shape.kind == 1 { 2 } else { 3 };
    blocks * shape.level / 8
}

/// Document 02, E2: L.
pub fn leaves(shape: &Shape) -> usize {
    (shape.tau + deeper(shape)) << shape.k
}

/// Document 02, E2: entry j of vector i as a leaf, counted from 0.
fn place(shape: &Shape, i: usize, j: usize) -> usize {
    let near = 1 << shape.k;
    if j < near {
        shape.tau * j + i
    } else {
        shape.tau * near + deeper(shape) * (j - near) + i
    }
}

/// The hidden indices, from the bits of the challenge in their order.
pub fn indices(shape: &Shape, challenge: &[u8]) -> Vec<usize> {
    let mut bits = (0..shape.level).map(|n| usize::from(bit(challenge, n)));
    let mut indices = Vec::new();
    for i in 0..shape.tau {
        let depth = if i < deeper(shape) {
            shape.k + 1
        } else {
            shape.k
        };
        let index = (0..depth).fold(0, |sum, j| sum + (bits.next().unwrap() << j));
        indices.push(index);
    }
    indices
}

/// A node is covered if it is a hidden leaf or has a hidden leaf beneath it.
pub fn covered(shape: &Shape, challenge: &[u8]) -> Vec<bool> {
    fn cover(node: usize, leaves: usize, hidden: &[usize], marks: &mut Vec<bool>) -> bool {
        marks[node] = if node < leaves - 1 {
            let left = cover(2 * node + 1, leaves, hidden, marks);
            let right = cover(2 * node + 2, leaves, hidden, marks);
            left || right
        } else {
            hidden.contains(&node)
        };
        marks[node]
    }
    let leaves = leaves(shape);
    let entries = indices(shape, challenge).into_iter().enumerate();
    let hidden: Vec<usize> = entries
        .map(|(i, j)| leaves - 1 + place(shape, i, j))
        .collect();
    let mut marks = vec![false; 2 * leaves - 1];
    cover(0, leaves, &hidden, &mut marks);
    marks
}

/// The revealed nodes: those not covered whose parent is, by falling parent.
pub fn revealed(shape: &Shape, challenge: &[u8]) -> Vec<usize> {
    let marks = covered(shape, challenge);
    let uncovered = (1..marks.len()).filter(|&node| !marks[node]);
    let mut nodes: Vec<usize> = uncovered
        .filter(|&node| marks[node.div_ceil(2) - 1])
        .collect();
    nodes.sort_by_key(|&node| std::cmp::Reverse(node.div_ceil(2)));
    nodes
}

/// The bytes of a hexadecimal string, spaces left out.
pub fn hex(digits: &str) -> Vec<u8> {
    cli::from_hex(&digits.replace(' ', "")).unwrap()
}
