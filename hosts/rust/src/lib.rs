//! The calls of the proved archives. Each has a struct of its buffers, made by name, and a method that makes the call and gives `Result<Count, Refusal>`.
//!
//! ```
//! use rachnoel::{Commit, Open, Reconstruct, FAEST_128F as SET};
//!
//! let n = SET.shape.lengths(SET.row_bits / 8).expect("a shape");
//! let (root, iv) = (vec![1; n.node], [2; rachnoel::IV]);
//! let [mut commitment, mut tree, mut leaf_commitments, mut u, mut v, mut corrections, mut opening] =
//!     [n.commitment, n.tree, n.leaf_commitments, n.u, n.matrix, n.corrections, n.opening].map(|n| vec![0; n]);
//! Commit {
//!     shape: SET.shape, row_bits: SET.row_bits, root: &root, iv: &iv, commitment: &mut commitment, tree: &mut tree,
//!     leaf_commitments: &mut leaf_commitments, u: &mut u, v: &mut v, corrections: &mut corrections,
//! }.run()?;
//!
//! let challenge = vec![0; n.node];
//! let opened = Open { shape: SET.shape, challenge: &challenge, tree: &tree, leaf_commitments: &leaf_commitments, opening: &mut opening }.run()?;
//!
//! let [mut made, mut tree, mut leaf_commitments, mut q] = [n.commitment, n.tree, n.leaf_commitments, n.matrix].map(|n| vec![0; n]);
//! let checked = Reconstruct {
//!     shape: SET.shape, row_bits: SET.row_bits, iv: &iv, challenge: &challenge, corrections: &corrections, opening: &opening,
//!     commitment: &mut made, tree: &mut tree, leaf_commitments: &mut leaf_commitments, q: &mut q,
//! }.run()?;
//! assert_eq!((made, checked), (commitment, opened));
//! # Ok::<(), rachnoel::Refusal>(())
//! ```
//!
//! A borrow shows what a C host must promise, so all of this is safe; the stack is still the caller's duty ([`STACK`]). Lists of numbers are bytes, four to a
//! number, least byte first: [`number`] reads one. With a refusal nothing is written, but with [`Refusal::Mismatch`] the work buffers of a check are. docs/API.md
//! says what each call does and what is proved of it.

pub mod flat;
pub mod v1;

use std::fmt;

// ---- answers

/// How many nodes the opening reveals; 0 of the calls that plan none.
#[derive(Clone, Copy, Debug, Default, PartialEq, Eq, PartialOrd, Ord, Hash)]
pub struct Count(pub usize);

/// Why a call was refused: the first reason that applies, in the order of document 01. Those that a count comes with have it.
#[derive(Clone, Copy, Debug, PartialEq, Eq, Hash)]
pub enum Refusal {
    /// tau, k, w, t, level and kind are no shape.
    Shape,
    /// The row length is no multiple of 8 from 8 to 65,536.
    Row,
    /// A slice of another length.
    Buffer,
    /// One of the last w bits of the challenge is 1.
    Grinding,
    /// The challenge needs more than t nodes: draw another.
    Nodes(Count),
    /// A byte in an unused slot of the opening is not 0.
    Slots(Count),
    /// A stretch of no bytes, or one that ends behind the row.
    Stretch,
    /// The first byte of a record is missing, or an unknown version.
    Version,
    /// A field of a record has another length, bytes are missing, or bytes are left over.
    Field,
    /// The reconstructed commitment is not the record's.
    Mismatch(Count),
    /// Shape and row length of a record are no named set's.
    NotNamed,
}

/// The numbers of the refusals and their texts, those of the header.
const TEXTS: [(usize, &str); 11] = [
    (1, "shape: the numbers are not allowed together"),
    (2, "row length: not a multiple of 8 from 8 to 65,536"),
    (3, "buffer: a lent buffer has another length"),
    (4, "grinding: a grinding bit of the challenge is 1"),
    (5, "nodes: the challenge needs more nodes than T"),
    (6, "slots: an unused slot of the opening holds a byte other than 0"),
    (8, "stretch: it has no bytes, or ends behind the row"),
    (9, "version: the first byte of the record is missing or unknown"),
    (10, "field: a field of the record has another length, or bytes are missing or left over"),
    (11, "commitment: the reconstructed one is not the record's"),
    (13, "not named: shape and row length are no named set's"),
];

impl Refusal {
    /// The refusal of a number, with the count that came with it; None of 0 and of a number that no call answers with.
    ///
    /// ```
    /// use rachnoel::{Count, Refusal};
    /// assert_eq!(Refusal::of(5, 111), Some(Refusal::Nodes(Count(111))));
    /// assert_eq!(Refusal::of(7, 0), None);
    /// ```
    #[must_use]
    pub const fn of(number: usize, count: usize) -> Option<Refusal> {
        Some(match number {
            1 => Refusal::Shape,
            2 => Refusal::Row,
            3 => Refusal::Buffer,
            4 => Refusal::Grinding,
            5 => Refusal::Nodes(Count(count)),
            6 => Refusal::Slots(Count(count)),
            8 => Refusal::Stretch,
            9 => Refusal::Version,
            10 => Refusal::Field,
            11 => Refusal::Mismatch(Count(count)),
            13 => Refusal::NotNamed,
            _ => return None,
        })
    }

    /// The number of documents 01 and 02.
    ///
    /// ```
    /// assert_eq!(rachnoel::Refusal::Grinding.number(), 4);
    /// ```
    #[must_use]
    pub const fn number(self) -> usize {
        match self {
            Refusal::Shape => 1,
            Refusal::Row => 2,
            Refusal::Buffer => 3,
            Refusal::Grinding => 4,
            Refusal::Nodes(_) => 5,
            Refusal::Slots(_) => 6,
            Refusal::Stretch => 8,
            Refusal::Version => 9,
            Refusal::Field => 10,
            Refusal::Mismatch(_) => 11,
            Refusal::NotNamed => 13,
        }
    }
}

impl fmt::Display for Refusal {
    fn fmt(&self, f: &mut fmt::Formatter<'_>) -> fmt::Result {
        let text = TEXTS.iter().find(|(number, _)| *number == self.number()).map_or("unknown", |(_, text)| text);
        write!(f, "refused {} {text}", self.number())
    }
}

impl std::error::Error for Refusal {}

/// The answer of a flat call, which gets a slice for the count.
#[allow(dead_code)]
fn counted(call: impl FnOnce(&mut [u8]) -> usize) -> Result<Count, Refusal> {
    let mut count = [0; 4];
    let number = call(&mut count);
    answered(number, number_in(&count))
}

#[allow(dead_code)]
fn answered(number: usize, count: usize) -> Result<Count, Refusal> {
    match Refusal::of(number, count) {
        None if number == 0 => Ok(Count(count)),
        None => unreachable!("a call answered {number}"),
        Some(refusal) => Err(refusal),
    }
}

#[allow(dead_code)]
fn number_in(bytes: &[u8]) -> usize {
    bytes.iter().rev().fold(0, |n, &byte| n << 8 | usize::from(byte))
}

/// The number in four bytes of a list, of a count or of a length.
#[must_use]
pub fn number(bytes: [u8; 4]) -> u32 {
    u32::from_le_bytes(bytes)
}

// ---- lengths in bytes

/// Bytes of an IV.
pub const IV: usize = 16;
/// No row has more bytes.
pub const ROW_MOST: usize = 8192;
/// No record has more bytes.
pub const RECORD_MOST: usize = 273_555;
/// Bytes of stack for any call at any shape.
pub const STACK: usize = 20 * 1024;
/// The version of this library.
pub const VERSION: &str = env!("CARGO_PKG_VERSION");

/// A shape: tau vectors, the first level - w - tau k of depth k + 1 and the others of depth k, w grinding bits, at most t nodes, the security level in bits, and the
/// leaf kind, 0 ordinary or 1 Even-Mansour.
#[derive(Clone, Copy, Debug, PartialEq, Eq, Hash)]
pub struct Shape {
    pub tau: usize,
    pub k: usize,
    pub w: usize,
    pub t: usize,
    pub level: usize,
    pub kind: usize,
}

/// A named set: its shape and the row length that is fixed for it.
#[derive(Clone, Copy, Debug, PartialEq, Eq, Hash)]
pub struct Set {
    pub name: &'static str,
    pub shape: Shape,
    pub row_bits: usize,
}

impl Set {
    #[allow(clippy::too_many_arguments)]
    const fn new(name: &'static str, tau: usize, k: usize, w: usize, t: usize, level: usize, kind: usize, row_bits: usize) -> Set {
        Set { name, shape: Shape { tau, k, w, t, level, kind }, row_bits }
    }
}

/// Four zeros at level 128 with ordinary leaves stand for FAEST-128f.
pub const DEFAULT: Set = Set::new("default", 0, 0, 0, 0, 128, 0, 1680);
pub const FAEST_128S: Set = Set::new("FAEST-128s", 11, 11, 7, 102, 128, 0, 1680);
pub const FAEST_128F: Set = Set::new("FAEST-128f", 16, 7, 8, 110, 128, 0, 1680);
pub const FAEST_192S: Set = Set::new("FAEST-192s", 16, 11, 12, 162, 192, 0, 3088);
pub const FAEST_192F: Set = Set::new("FAEST-192f", 24, 7, 8, 163, 192, 0, 3088);
pub const FAEST_256S: Set = Set::new("FAEST-256s", 22, 11, 6, 245, 256, 0, 3888);
pub const FAEST_256F: Set = Set::new("FAEST-256f", 32, 7, 8, 246, 256, 0, 3888);
pub const FAEST_EM_128S: Set = Set::new("FAEST-EM-128s", 11, 11, 7, 103, 128, 1, 1360);
pub const FAEST_EM_128F: Set = Set::new("FAEST-EM-128f", 16, 7, 8, 112, 128, 1, 1360);
pub const FAEST_EM_192S: Set = Set::new("FAEST-EM-192s", 16, 11, 8, 162, 192, 1, 2320);
pub const FAEST_EM_192F: Set = Set::new("FAEST-EM-192f", 24, 7, 8, 176, 192, 1, 2320);
pub const FAEST_EM_256S: Set = Set::new("FAEST-EM-256s", 22, 11, 6, 218, 256, 1, 3472);
pub const FAEST_EM_256F: Set = Set::new("FAEST-EM-256f", 32, 7, 8, 234, 256, 1, 3472);

/// The twelve sets of FAEST version 2.
pub const SETS: [Set; 12] = [
    FAEST_128S, FAEST_128F, FAEST_192S, FAEST_192F, FAEST_256S, FAEST_256F, FAEST_EM_128S, FAEST_EM_128F, FAEST_EM_192S, FAEST_EM_192F, FAEST_EM_256S,
    FAEST_EM_256F,
];

/// The lengths of a shape's slices, in bytes.
#[derive(Clone, Copy, Debug, PartialEq, Eq)]
pub struct Lengths {
    /// Of a root and of a challenge.
    pub node: usize,
    pub commitment: usize,
    pub indices: usize,
    pub nodes: usize,
    pub tree: usize,
    pub leaf_commitments: usize,
    pub u: usize,
    /// Of V and of Q.
    pub matrix: usize,
    pub corrections: usize,
    pub opening: usize,
}

impl Shape {
    /// With ordinary leaves.
    #[must_use]
    pub const fn new(tau: usize, k: usize, w: usize, t: usize, level: usize) -> Shape {
        Shape { tau, k, w, t, level, kind: 0 }
    }

    /// The same with Even-Mansour leaves.
    #[must_use]
    pub const fn even_mansour(self) -> Shape {
        Shape { kind: 1, ..self }
    }

    /// The lengths with rows of so many bytes: row_bits / 8, or the width of a stretch; 0 for a call without rows. None where this is no shape, or a row has more
    /// than 8,192 bytes.
    ///
    /// ```
    /// let n = rachnoel::FAEST_128F.shape.lengths(210).unwrap();
    /// assert_eq!((n.tree, n.matrix, n.opening), (98_288, 26_880, 2_528));
    /// assert_eq!(rachnoel::FAEST_128F.shape.lengths(1 << 57), None);
    /// ```
    #[must_use]
    pub fn lengths(self, row_bytes: usize) -> Option<Lengths> {
        let Shape { tau, k, w, t, level, kind } = if self == DEFAULT.shape { FAEST_128F.shape } else { self };
        if row_bytes > ROW_MOST || !(1..=32).contains(&tau) || !(1..=12).contains(&k) || w > 127 || !(1..=512).contains(&t) || kind > 1 {
            return None;
        }
        if ![128, 192, 256].contains(&level) {
            return None;
        }
        let deeper = level.checked_sub(w + tau * k)?;
        if deeper >= tau || (deeper > 0 && k > 11) {
            return None;
        }
        let (leaves, node) = ((tau + deeper) << k, level / 8);
        let leaf = (3 - kind) * node;
        Some(Lengths {
            node,
            commitment: 2 * node,
            indices: 4 * tau,
            nodes: 4 * t,
            tree: node * (2 * leaves - 1),
            leaf_commitments: leaf * leaves,
            u: row_bytes,
            matrix: level * row_bytes,
            corrections: (tau - 1) * row_bytes,
            opening: leaf * tau + node * t,
        })
    }
}

// ---- planning

/// The hidden indices of a challenge, as numbers of four bytes.
///
/// ```
/// let (challenge, mut indices) = ([0x0c, 0, 0, 0, 0, 0, 0, 0, 0, 0, 0, 0, 0, 0, 0, 0], [0; 8]);
/// rachnoel::Decode { shape: rachnoel::Shape::new(2, 2, 124, 4, 128), challenge: &challenge, indices: &mut indices }.run()?;
/// assert_eq!(indices, [0, 0, 0, 0, 3, 0, 0, 0]);
/// # Ok::<(), rachnoel::Refusal>(())
/// ```
#[cfg(feature = "planning")]
#[must_use]
#[derive(Debug)]
pub struct Decode<'a> {
    pub shape: Shape,
    pub challenge: &'a [u8],
    pub indices: &'a mut [u8],
}

#[cfg(feature = "planning")]
impl Decode<'_> {
    /// # Errors
    /// Refusals 1, 3, 4.
    pub fn run(self) -> Result<Count, Refusal> {
        counted(|count| flat::decode(self.shape, self.challenge, self.indices, count))
    }
}

/// The nodes that an opening reveals, as numbers of four bytes at the front of the list; what stands behind them stays.
///
/// ```
/// let (challenge, mut nodes) = ([0x0c, 0, 0, 0, 0, 0, 0, 0, 0, 0, 0, 0, 0, 0, 0, 0], [0; 16]);
/// let count = rachnoel::Plan { shape: rachnoel::Shape::new(2, 2, 124, 4, 128), challenge: &challenge, nodes: &mut nodes }.run()?;
/// assert_eq!((count.0, nodes[0], nodes[4], nodes[8], nodes[12]), (4, 13, 8, 5, 4));
/// # Ok::<(), rachnoel::Refusal>(())
/// ```
#[cfg(feature = "planning")]
#[must_use]
#[derive(Debug)]
pub struct Plan<'a> {
    pub shape: Shape,
    pub challenge: &'a [u8],
    pub nodes: &'a mut [u8],
}

#[cfg(feature = "planning")]
impl Plan<'_> {
    /// # Errors
    /// Refusals 1, 3, 4, 5.
    pub fn run(self) -> Result<Count, Refusal> {
        counted(|count| flat::plan(self.shape, self.challenge, self.nodes, count))
    }
}

// ---- the signing half

/// The commitment to the tree of a root. Root, tree, u and v are secret. The example is at the head of this crate.
///
/// ```
/// # use rachnoel::{Commit, Refusal, Shape};
/// let refused = Commit {
///     shape: Shape::new(33, 1, 95, 9, 128), row_bits: 8, root: &[0; 16], iv: &[0; 16], commitment: &mut [], tree: &mut [], leaf_commitments: &mut [],
///     u: &mut [], v: &mut [], corrections: &mut [],
/// }.run();
/// assert_eq!(refused, Err(Refusal::Shape));
/// ```
#[cfg(feature = "signer")]
#[must_use]
pub struct Commit<'a> {
    pub shape: Shape,
    pub row_bits: usize,
    pub root: &'a [u8],
    pub iv: &'a [u8; IV],
    pub commitment: &'a mut [u8],
    pub tree: &'a mut [u8],
    pub leaf_commitments: &'a mut [u8],
    pub u: &'a mut [u8],
    pub v: &'a mut [u8],
    pub corrections: &'a mut [u8],
}

/// Without the buffers: some of them are secret.
#[cfg(feature = "signer")]
impl std::fmt::Debug for Commit<'_> {
    fn fmt(&self, f: &mut std::fmt::Formatter<'_>) -> std::fmt::Result {
        f.debug_struct("Commit").field("shape", &self.shape).finish_non_exhaustive()
    }
}

#[cfg(feature = "signer")]
impl Commit<'_> {
    /// # Errors
    /// Refusals 1, 2, 3.
    pub fn run(self) -> Result<Count, Refusal> {
        let Commit { shape, row_bits, root, iv, commitment, tree, leaf_commitments, u, v, corrections } = self;
        counted(|count| flat::commit(shape, row_bits, root, iv, commitment, tree, leaf_commitments, u, v, corrections, count))
    }

    /// The same with `width` bytes from byte `first` on of u, of each correction and of each column of v.
    ///
    /// ```
    /// # use rachnoel::{Commit, Refusal, Shape};
    /// let shape = Shape::new(1, 1, 127, 1, 128);
    /// let [mut commitment, mut tree, mut leaf_commitments, mut u, mut v] = [32, 48, 96, 2, 256].map(|n| vec![0; n]);
    /// Commit {
    ///     shape, row_bits: 64, root: &[0; 16], iv: &[0; 16], commitment: &mut commitment, tree: &mut tree, leaf_commitments: &mut leaf_commitments,
    ///     u: &mut u, v: &mut v, corrections: &mut [],
    /// }.stretch(3, 2)?;
    /// # Ok::<(), Refusal>(())
    /// ```
    ///
    /// # Errors
    /// Refusals 1, 2, 8, 3.
    pub fn stretch(self, first: usize, width: usize) -> Result<Count, Refusal> {
        let Commit { shape, row_bits, root, iv, commitment, tree, leaf_commitments, u, v, corrections } = self;
        counted(|count| flat::commit_stretch(shape, row_bits, first, width, root, iv, commitment, tree, leaf_commitments, u, v, corrections, count))
    }
}

/// The opening of a challenge, from the tree and the leaf commitments that commit wrote. Open a tree for one challenge only. The example is at the head of this crate.
#[cfg(feature = "signer")]
#[must_use]
pub struct Open<'a> {
    pub shape: Shape,
    pub challenge: &'a [u8],
    pub tree: &'a [u8],
    pub leaf_commitments: &'a [u8],
    pub opening: &'a mut [u8],
}

/// Without the buffers: some of them are secret.
#[cfg(feature = "signer")]
impl std::fmt::Debug for Open<'_> {
    fn fmt(&self, f: &mut std::fmt::Formatter<'_>) -> std::fmt::Result {
        f.debug_struct("Open").field("shape", &self.shape).finish_non_exhaustive()
    }
}

#[cfg(feature = "signer")]
impl Open<'_> {
    /// A challenge that needs more than t nodes is refused; draw another.
    ///
    /// ```
    /// # use rachnoel::{Count, Open, Refusal, Shape};
    /// let challenge = [0x0c, 0, 0, 0, 0, 0, 0, 0, 0, 0, 0, 0, 0, 0, 0, 0];
    /// let shape = Shape::new(2, 2, 124, 3, 128);
    /// let n = shape.lengths(0).unwrap();
    /// let (tree, leaf_commitments, mut opening) = (vec![0; n.tree], vec![0; n.leaf_commitments], vec![0; n.opening]);
    /// let refused = Open { shape, challenge: &challenge, tree: &tree, leaf_commitments: &leaf_commitments, opening: &mut opening }.run();
    /// assert_eq!(refused, Err(Refusal::Nodes(Count(4))));
    /// ```
    ///
    /// # Errors
    /// Refusals 1, 3, 4, 5.
    pub fn run(self) -> Result<Count, Refusal> {
        counted(|count| flat::open(self.shape, self.challenge, self.tree, self.leaf_commitments, self.opening, count))
    }
}

// ---- the checking half

/// Commitment, tree, leaf commitments and q from an opening. The host compares the commitment with the one that it was given. The example is at the head of this crate.
///
/// ```
/// # use rachnoel::{Reconstruct, Refusal, Shape};
/// let refused = Reconstruct {
///     shape: Shape::new(2, 2, 124, 4, 128), row_bits: 12, iv: &[0; 16], challenge: &[0; 16], corrections: &[], opening: &[], commitment: &mut [],
///     tree: &mut [], leaf_commitments: &mut [], q: &mut [],
/// }.run();
/// assert_eq!(refused.unwrap_err().to_string(), "refused 2 row length: not a multiple of 8 from 8 to 65,536");
/// ```
#[cfg(feature = "verifier")]
#[must_use]
#[derive(Debug)]
pub struct Reconstruct<'a> {
    pub shape: Shape,
    pub row_bits: usize,
    pub iv: &'a [u8; IV],
    pub challenge: &'a [u8],
    pub corrections: &'a [u8],
    pub opening: &'a [u8],
    pub commitment: &'a mut [u8],
    pub tree: &'a mut [u8],
    pub leaf_commitments: &'a mut [u8],
    pub q: &'a mut [u8],
}

#[cfg(feature = "verifier")]
impl Reconstruct<'_> {
    /// # Errors
    /// Refusals 1 to 6.
    pub fn run(self) -> Result<Count, Refusal> {
        let Reconstruct { shape, row_bits, iv, challenge, corrections, opening, commitment, tree, leaf_commitments, q } = self;
        counted(|count| flat::reconstruct(shape, row_bits, iv, challenge, corrections, opening, commitment, tree, leaf_commitments, q, count))
    }

    /// The same with the corrections cut to `width` bytes from byte `first` on, and these bytes of each column of q.
    ///
    /// ```
    /// # use rachnoel::{Reconstruct, Refusal, Shape};
    /// let refused = Reconstruct {
    ///     shape: Shape::new(2, 2, 124, 4, 128), row_bits: 16, iv: &[0; 16], challenge: &[0; 16], corrections: &[], opening: &[], commitment: &mut [],
    ///     tree: &mut [], leaf_commitments: &mut [], q: &mut [],
    /// }.stretch(1, 2);
    /// assert_eq!(refused, Err(Refusal::Stretch));
    /// ```
    ///
    /// # Errors
    /// Refusals 1, 2, 8, 3, 4, 5, 6.
    pub fn stretch(self, first: usize, width: usize) -> Result<Count, Refusal> {
        let Reconstruct { shape, row_bits, iv, challenge, corrections, opening, commitment, tree, leaf_commitments, q } = self;
        counted(|count| {
            flat::reconstruct_stretch(shape, row_bits, first, width, iv, challenge, corrections, opening, commitment, tree, leaf_commitments, q, count)
        })
    }
}

// ---- records

/// The lengths of the three work buffers that a record asks for.
#[derive(Clone, Copy, Debug, PartialEq, Eq)]
pub struct WorkLengths {
    pub tree: usize,
    pub leaf_commitments: usize,
    pub q: usize,
}

/// What a record asks for by its front.
///
/// ```
/// assert_eq!(rachnoel::work_lengths(&[]), Err(rachnoel::Refusal::Version));
/// ```
///
/// # Errors
/// Refusals 9, 10, 1, 2.
#[cfg(feature = "broker")]
pub fn work_lengths(record: &[u8]) -> Result<WorkLengths, Refusal> {
    let mut lengths = [0; 12];
    answered(flat::work_lengths(record, &mut lengths), 0)?;
    Ok(WorkLengths { tree: number_in(&lengths[..4]), leaf_commitments: number_in(&lengths[4..8]), q: number_in(&lengths[8..]) })
}

/// A record and its work buffers, which hold what reconstruct writes where the record is accepted, and with [`Refusal::Mismatch`] too.
///
/// ```
/// use rachnoel::{work_lengths, Check, Refusal};
/// fn nodes(record: &[u8]) -> Result<usize, Refusal> {
///     let n = work_lengths(record)?;
///     let [mut tree, mut leaf_commitments, mut q] = [n.tree, n.leaf_commitments, n.q].map(|n| vec![0; n]);
///     Ok(Check { record, tree: &mut tree, leaf_commitments: &mut leaf_commitments, q: &mut q }.named()?.0)
/// }
/// assert_eq!(nodes(b"no record"), Err(Refusal::Version));
/// ```
#[cfg(feature = "broker")]
#[must_use]
#[derive(Debug)]
pub struct Check<'a> {
    pub record: &'a [u8],
    pub tree: &'a mut [u8],
    pub leaf_commitments: &'a mut [u8],
    pub q: &'a mut [u8],
}

#[cfg(feature = "broker")]
impl Check<'_> {
    /// Whether a record of any shape has its form, reconstruct accepts its fields, and gives the record's commitment. The corrections are not bound by it.
    ///
    /// # Errors
    /// Refusals 9, 10, 1, 2, 10, 3, 4, 5, 6, 11.
    pub fn any_shape(self) -> Result<Count, Refusal> {
        counted(|count| flat::check_record(self.record, self.tree, self.leaf_commitments, self.q, count))
    }

    /// The same for the twelve sets of FAEST version 2 alone, each with its row length.
    ///
    /// # Errors
    /// Refusals 9, 10, 1, 2, 13, 10, 3, 4, 5, 6, 11.
    pub fn named(self) -> Result<Count, Refusal> {
        counted(|count| flat::check_named(self.record, self.tree, self.leaf_commitments, self.q, count))
    }
}

/// The length of a record.
///
/// ```
/// assert_eq!(rachnoel::record_length(rachnoel::Shape::new(2, 2, 124, 4, 128), 8), Ok(260));
/// ```
///
/// # Errors
/// Refusals 1, 2.
#[cfg(feature = "writer")]
pub fn record_length(shape: Shape, row_bits: usize) -> Result<usize, Refusal> {
    let mut length = [0; 4];
    answered(flat::record_length(shape, row_bits, &mut length), 0)?;
    Ok(number_in(&length))
}

/// The record of a shape as it is given, a row length and the other fields, which are not tested but for their lengths.
///
/// ```
/// use rachnoel::{record_length, Shape, WriteRecord};
/// let shape = Shape::new(2, 2, 124, 4, 128);
/// let mut record = vec![0; record_length(shape, 8)?];
/// WriteRecord {
///     shape, row_bits: 8, iv: &[0; 16], challenge: &[0; 16], corrections: &[0; 1], opening: &[0; 160], commitment: &[0; 32], record: &mut record,
/// }.run()?;
/// assert_eq!(record[0], 2);
/// # Ok::<(), rachnoel::Refusal>(())
/// ```
#[cfg(feature = "writer")]
#[must_use]
#[derive(Debug)]
pub struct WriteRecord<'a> {
    pub shape: Shape,
    pub row_bits: usize,
    pub iv: &'a [u8; IV],
    pub challenge: &'a [u8],
    pub corrections: &'a [u8],
    pub opening: &'a [u8],
    pub commitment: &'a [u8],
    pub record: &'a mut [u8],
}

#[cfg(feature = "writer")]
impl WriteRecord<'_> {
    /// # Errors
    /// Refusals 1, 2, 3.
    pub fn run(self) -> Result<(), Refusal> {
        let WriteRecord { shape, row_bits, iv, challenge, corrections, opening, commitment, record } = self;
        answered(flat::write_record(shape, row_bits, iv, challenge, corrections, opening, commitment, record), 0).map(|_| ())
    }
}
