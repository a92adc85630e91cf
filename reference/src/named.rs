//! The profile for named sets of document 02, E13: the check of a record for the
//! twelve sets of document 000, section 3.1, and for nothing else.

use crate::calls::{Answer, Refusal};
use crate::record::{check_record, front};
use crate::shape::Shape;

/// A row of table 3.2: λ, ℓ, τ, w_grind, T_open, B, n_leafcom.
pub struct Set {
    pub lambda: usize,
    pub l: usize,
    pub tau: usize,
    pub w: usize,
    pub t: usize,
    pub b: usize,
    pub blocks: usize,
}

/// A row, its numbers in the order of the table.
const fn row(lambda: usize, numbers: [usize; 6]) -> Set {
    let [l, tau, w, t, b, blocks] = numbers;
    Set {
        lambda,
        l,
        tau,
        w,
        t,
        b,
        blocks,
    }
}

/// Table 3.2: FAEST, then FAEST-EM.
pub const SETS: [Set; 12] = [
    row(128, [1280, 11, 7, 102, 16, 3]),
    row(128, [1280, 16, 8, 110, 16, 3]),
    row(192, [2496, 16, 12, 162, 16, 3]),
    row(192, [2496, 24, 8, 163, 16, 3]),
    row(256, [3104, 22, 6, 245, 16, 3]),
    row(256, [3104, 32, 8, 246, 16, 3]),
    row(128, [960, 11, 7, 103, 16, 2]),
    row(128, [960, 16, 8, 112, 16, 2]),
    row(192, [1728, 16, 8, 162, 16, 2]),
    row(192, [1728, 24, 8, 176, 16, 2]),
    row(256, [2688, 22, 6, 218, 16, 2]),
    row(256, [2688, 32, 8, 234, 16, 2]),
];

impl Set {
    /// Table 5.1: k - 1, the smaller depth, is (λ - w_grind) / τ rounded down.
    pub fn shape(&self) -> Shape {
        let k = (self.lambda - self.w) / self.tau;
        let kind = usize::from(self.blocks == 2);
        Shape::of_kind(self.tau, k, self.w, self.t, self.lambda, kind)
    }

    /// Table 5.1: the witness length with what the checks add, in bits.
    pub fn row_bits(&self) -> usize {
        self.l + 3 * self.lambda + self.b
    }
}

/// Check, for named sets: 13 behind 1 and 2, before the second field. The shape is
/// the one that is written: four zeros are no set.
pub fn check_named(
    bytes: &[u8],
    tree: &mut [u8],
    leaf_commitments: &mut [u8],
    q: &mut [u8],
) -> Answer {
    match front(bytes) {
        Err(refusal) => Answer::refused(refusal, 0),
        Ok(found)
            if SETS
                .iter()
                .any(|set| (set.shape(), set.row_bits()) == found) =>
        {
            check_record(bytes, tree, leaf_commitments, q)
        }
        Ok(_) => Answer::refused(Refusal::NotNamed, 0),
    }
}
