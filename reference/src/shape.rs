//! Shapes, row lengths and challenges: documents 01 and 02 for the limits, tables
//! 3.2 and 5.1 and section 5.5.1 of document 000 for what they mean.

use std::ops::Range;

/// A shape as a caller gives it: τ vectors, the first τ_1 of depth k + 1 and
/// the others of depth k, grinding width w, node allowance T, the level, λ, in
/// bits, and the leaf kind, 0 for FAEST, 1 for FAEST-EM. Document 000 calls this k the
/// smaller depth, k - 1.
#[derive(Clone, Copy, Debug, PartialEq, Eq)]
pub struct Shape {
    pub tau: usize,
    pub k: usize,
    pub w: usize,
    pub t: usize,
    pub level: usize,
    pub kind: usize,
}

/// FAEST-128s of table 3.2.
pub const FAEST_128S: Shape = Shape::new(11, 11, 7, 102);

/// The default, FAEST-128f of table 3.2 (document 02, E3).
pub const DEFAULT: Shape = Shape::new(16, 7, 8, 110);

/// FAEST-192s, -192f, -256s and -256f of table 3.2.
pub const FAEST_192S: Shape = Shape::at_level(16, 11, 12, 162, 192);
pub const FAEST_192F: Shape = Shape::at_level(24, 7, 8, 163, 192);
pub const FAEST_256S: Shape = Shape::at_level(22, 11, 6, 245, 256);
pub const FAEST_256F: Shape = Shape::at_level(32, 7, 8, 246, 256);

/// The six FAEST-EM sets of table 3.2.
pub const FAEST_EM_128S: Shape = Shape::of_kind(11, 11, 7, 103, 128, 1);
pub const FAEST_EM_128F: Shape = Shape::of_kind(16, 7, 8, 112, 128, 1);
pub const FAEST_EM_192S: Shape = Shape::of_kind(16, 11, 8, 162, 192, 1);
pub const FAEST_EM_192F: Shape = Shape::of_kind(24, 7, 8, 176, 192, 1);
pub const FAEST_EM_256S: Shape = Shape::of_kind(22, 11, 6, 218, 256, 1);
pub const FAEST_EM_256F: Shape = Shape::of_kind(32, 7, 8, 234, 256, 1);

impl Shape {
    /// A shape of document 01, at level 128 and of the ordinary kind.
    pub const fn new(tau: usize, k: usize, w: usize, t: usize) -> Shape {
        Shape::at_level(tau, k, w, t, 128)
    }

    /// A shape of document 02, E7, of the ordinary kind.
    pub const fn at_level(tau: usize, k: usize, w: usize, t: usize, level: usize) -> Shape {
        Shape::of_kind(tau, k, w, t, level, 0)
    }

    /// A shape of document 02, E8.
    pub const fn of_kind(
        tau: usize,
        k: usize,
        w: usize,
        t: usize,
        level: usize,
        kind: usize,
    ) -> Shape {
        Shape {
            tau,
            k,
            w,
            t,
            level,
            kind,
        }
    }

    /// Documents 01 and 02 (E2, E7, E8): the shape meant, or nothing where a shape
    /// rule is broken. Four zeros at level 128 and of kind 0 stand for the default
    /// before any rule is applied.
    pub fn resolve(self) -> Option<Shape> {
        if self == Shape::new(0, 0, 0, 0) {
            return Some(DEFAULT);
        }
        let in_range = (1..=32).contains(&self.tau)
            && (1..=12).contains(&self.k)
            && (0..=127).contains(&self.w)
            && (1..=512).contains(&self.t)
            && [128, 192, 256].contains(&self.level)
            && self.kind <= 1;
        (in_range && self.k == (self.level - self.w) / self.tau && self.depth(0) <= 12)
            .then_some(self)
    }

    /// The bytes of a node, a seed and a challenge: λ bits.
    pub fn node_bytes(&self) -> usize {
        self.level / 8
    }

    /// Table 5.1: n_leafcom, 3 for FAEST, 2 for FAEST-EM.
    fn n_leafcom(&self) -> usize {
        match self.kind {
            0 => 3,
            _ => 2,
        }
    }

    /// The bytes of a leaf commitment: n_leafcom λ bits.
    pub fn leaf_commitment_bytes(&self) -> usize {
        self.n_leafcom() * self.node_bytes()
    }

    /// The bytes of the commitment: 2λ bits.
    pub fn commitment_bytes(&self) -> usize {
        2 * self.node_bytes()
    }

    /// The bytes of V and of Q, λ columns of b bytes.
    pub fn matrix_bytes(&self, b: usize) -> usize {
        self.level * b
    }

    /// The bytes of the corrections of b bytes.
    pub fn corrections_bytes(&self, b: usize) -> usize {
        (self.tau - 1) * b
    }

    /// Table 5.1: τ_1, the number of the deeper vectors.
    pub fn tau_1(&self) -> usize {
        (self.level - self.w) % self.tau
    }

    /// The depth of vector i: k or k - 1 of document 000.
    pub fn depth(&self, i: usize) -> usize {
        self.k + usize::from(i < self.tau_1())
    }

    /// Table 5.1: N_i, the entries of vector i.
    pub fn entries(&self, i: usize) -> usize {
        1 << self.depth(i)
    }

    /// The entries of the vectors before vector i.
    pub fn entries_before(&self, i: usize) -> usize {
        (0..i).map(|i| self.entries(i)).sum()
    }

    /// Table 5.1: L, the leaves of the tree.
    pub fn leaves(&self) -> usize {
        self.entries_before(self.tau)
    }

    /// The bytes of a tree of 2L - 1 nodes.
    pub fn tree_bytes(&self) -> usize {
        self.node_bytes() * (2 * self.leaves() - 1)
    }

    /// The bytes of all leaf commitments.
    pub fn leaf_commitments_bytes(&self) -> usize {
        self.leaf_commitment_bytes() * self.leaves()
    }

    /// The bytes of an opening: n_leafcom λ τ + T_open λ bits.
    pub fn opening_bytes(&self) -> usize {
        self.leaf_commitment_bytes() * self.tau + self.node_bytes() * self.t
    }
}

/// Document 01: the bytes of a row of so many bits, or nothing where the row
/// length is not allowed.
pub fn row_bytes(row_bits: usize) -> Option<usize> {
    let b = row_bits / 8;
    (8 * b == row_bits && (8..=65_536).contains(&row_bits)).then_some(b)
}

/// Bit n of a challenge; bit 0 is the least bit of byte 0.
pub fn challenge_bit(challenge: &[u8], n: usize) -> bool {
    challenge[n / 8] >> (n % 8) & 1 == 1
}

/// Figure 7.2, line 21: whether the last w bits are 0.
pub fn grinding_bits_are_zero(shape: &Shape, challenge: &[u8]) -> bool {
    (shape.level - shape.w..shape.level).all(|n| !challenge_bit(challenge, n))
}

/// Figure 3.5: NumRec, the number with these bits, least first.
fn num_rec(bits: impl DoubleEndedIterator<Item = bool>) -> usize {
    bits.rev().fold(0, |sum, bit| 2 * sum + usize::from(bit))
}

/// Figure 5.7: DecodeChall_3, the bits of Δ_i.
fn decode_chall(shape: &Shape, i: usize) -> Range<usize> {
    let (tau_1, k) = (shape.tau_1(), shape.k + 1);
    if i < tau_1 {
        return i * k..(i + 1) * k;
    }
    let t = i - tau_1;
    tau_1 * k + t * (k - 1)..tau_1 * k + (t + 1) * (k - 1)
}

/// Figure 5.7: DecodeAllChall_3, the hidden indices Δ_0 to Δ_(τ-1).
pub fn decode_all_chall(shape: &Shape, challenge: &[u8]) -> Vec<usize> {
    (0..shape.tau)
        .map(|i| num_rec(decode_chall(shape, i).map(|n| challenge_bit(challenge, n))))
        .collect()
}
