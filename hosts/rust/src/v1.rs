//! FAEST version 1: a tree for each vector, with w 0, t 1 and kind 0; the count is 0, and no challenge is refused. No byte of version 1 was compared with another
//! maker's.
//!
//! ```
//! use rachnoel::v1::{self, Commit, Open, Reconstruct};
//!
//! let (shape, row_bits) = (v1::shape(32, 4, 128), 16);
//! let n = v1::lengths(shape, row_bits / 8).expect("a shape");
//! let [mut commitment, mut trees, mut leaf_commitments, mut u, mut v, mut corrections, mut opening] =
//!     [n.commitment, n.trees, n.leaf_commitments, n.u, n.matrix, n.corrections, n.opening].map(|n| vec![0; n]);
//! Commit {
//!     shape, row_bits, root: &[1; 16], iv: &[2; 16], commitment: &mut commitment, trees: &mut trees, leaf_commitments: &mut leaf_commitments, u: &mut u,
//!     v: &mut v, corrections: &mut corrections,
//! }.run()?;
//! Open { shape, challenge: &[3; 16], trees: &trees, leaf_commitments: &leaf_commitments, opening: &mut opening }.run()?;
//! let [mut made, mut trees, mut leaf_commitments, mut q] = [n.commitment, n.trees, n.leaf_commitments, n.matrix].map(|n| vec![0; n]);
//! Reconstruct {
//!     shape, row_bits, iv: &[2; 16], challenge: &[3; 16], corrections: &corrections, opening: &opening, commitment: &mut made, trees: &mut trees,
//!     leaf_commitments: &mut leaf_commitments, q: &mut q,
//! }.run()?;
//! assert_eq!(made, commitment);
//! # Ok::<(), rachnoel::Refusal>(())
//! ```

use super::Shape;
#[cfg(any(feature = "v1_signer", feature = "v1_verifier"))]
use super::{counted, flat, Count, Refusal, IV};

pub const FAEST_128S: Shape = shape(11, 11, 128);
pub const FAEST_128F: Shape = shape(16, 8, 128);
pub const FAEST_192S: Shape = shape(16, 12, 192);
pub const FAEST_192F: Shape = shape(24, 8, 192);
pub const FAEST_256S: Shape = shape(22, 11, 256);
pub const FAEST_256F: Shape = shape(32, 8, 256);

/// tau vectors at a level: w is 0 and t is 1.
#[must_use]
pub const fn shape(tau: usize, k: usize, level: usize) -> Shape {
    Shape::new(tau, k, 0, 1, level)
}

/// The lengths of a shape's slices, in bytes.
#[derive(Clone, Copy, Debug, PartialEq, Eq)]
pub struct Lengths {
    /// Of a root and of a challenge.
    pub node: usize,
    pub commitment: usize,
    pub trees: usize,
    pub leaf_commitments: usize,
    pub u: usize,
    /// Of V and of Q.
    pub matrix: usize,
    pub corrections: usize,
    pub opening: usize,
}

/// The lengths with rows of so many bytes. None where this is no shape of version 1, four zeros included, or a row has more than 8,192 bytes.
#[must_use]
pub fn lengths(shape: Shape, row_bytes: usize) -> Option<Lengths> {
    let m = shape.lengths(row_bytes)?;
    let Shape { tau, k, w: 0, t: 1, level, kind: 0 } = shape else { return None };
    let leaves = (level - tau * k + tau) << k;
    Some(Lengths {
        node: m.node,
        commitment: m.commitment,
        trees: m.node * (2 * leaves - tau),
        leaf_commitments: 2 * m.node * leaves,
        u: m.u,
        matrix: m.matrix,
        corrections: m.corrections,
        opening: m.node * (level + 2 * tau),
    })
}

/// The commitment to the trees that grow from a root. Root, trees, u and v are secret. The example is at the head of this module.
#[cfg(feature = "v1_signer")]
#[must_use]
pub struct Commit<'a> {
    pub shape: Shape,
    pub row_bits: usize,
    pub root: &'a [u8],
    pub iv: &'a [u8; IV],
    pub commitment: &'a mut [u8],
    pub trees: &'a mut [u8],
    pub leaf_commitments: &'a mut [u8],
    pub u: &'a mut [u8],
    pub v: &'a mut [u8],
    pub corrections: &'a mut [u8],
}

/// Without the buffers: some of them are secret.
#[cfg(feature = "v1_signer")]
impl std::fmt::Debug for Commit<'_> {
    fn fmt(&self, f: &mut std::fmt::Formatter<'_>) -> std::fmt::Result {
        f.debug_struct("Commit").field("shape", &self.shape).finish_non_exhaustive()
    }
}

#[cfg(feature = "v1_signer")]
impl Commit<'_> {
    /// # Errors
    /// Refusals 1, 2, 3.
    pub fn run(self) -> Result<Count, Refusal> {
        let Commit { shape, row_bits, root, iv, commitment, trees, leaf_commitments, u, v, corrections } = self;
        counted(|count| flat::v1_commit(shape, row_bits, root, iv, commitment, trees, leaf_commitments, u, v, corrections, count))
    }
}

/// The opening of a challenge, from the trees and the leaf commitments that commit wrote. Open the trees for one challenge only.
#[cfg(feature = "v1_signer")]
#[must_use]
pub struct Open<'a> {
    pub shape: Shape,
    pub challenge: &'a [u8],
    pub trees: &'a [u8],
    pub leaf_commitments: &'a [u8],
    pub opening: &'a mut [u8],
}

/// Without the buffers: some of them are secret.
#[cfg(feature = "v1_signer")]
impl std::fmt::Debug for Open<'_> {
    fn fmt(&self, f: &mut std::fmt::Formatter<'_>) -> std::fmt::Result {
        f.debug_struct("Open").field("shape", &self.shape).finish_non_exhaustive()
    }
}

#[cfg(feature = "v1_signer")]
impl Open<'_> {
    /// # Errors
    /// Refusals 1, 3.
    pub fn run(self) -> Result<Count, Refusal> {
        counted(|count| flat::v1_open(self.shape, self.challenge, self.trees, self.leaf_commitments, self.opening, count))
    }
}

/// Commitment, trees, leaf commitments and q from an opening. The host compares the commitment with the one that it was given.
#[cfg(feature = "v1_verifier")]
#[must_use]
#[derive(Debug)]
pub struct Reconstruct<'a> {
    pub shape: Shape,
    pub row_bits: usize,
    pub iv: &'a [u8; IV],
    pub challenge: &'a [u8],
    pub corrections: &'a [u8],
    pub opening: &'a [u8],
    pub commitment: &'a mut [u8],
    pub trees: &'a mut [u8],
    pub leaf_commitments: &'a mut [u8],
    pub q: &'a mut [u8],
}

#[cfg(feature = "v1_verifier")]
impl Reconstruct<'_> {
    /// # Errors
    /// Refusals 1, 2, 3.
    pub fn run(self) -> Result<Count, Refusal> {
        let Reconstruct { shape, row_bits, iv, challenge, corrections, opening, commitment, trees, leaf_commitments, q } = self;
        counted(|count| flat::v1_reconstruct(shape, row_bits, iv, challenge, corrections, opening, commitment, trees, leaf_commitments, q, count))
    }
}
