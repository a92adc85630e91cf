//! The five calls of document 01, with their refusals and exact lengths, and
//! the two of a stretch of the rows (document 02, E1).
//!
//! Every call tests what it is lent in the order of the numbers, 8 after 2, and
//! writes only with number 0.

use crate::bavc::{self, Bottom, Vectors};
use crate::shape::{decode_all_chall, grinding_bits_are_zero, row_bytes, Shape};
use crate::stretch::{cut, spread, Stretch};
use crate::vole::{vole_commit, vole_reconstruct, Row};
use crate::Block;

/// Document 01, "When a call is turned down", and document 02, E1, E6,
/// E10 and E13.
#[derive(Clone, Copy, Debug, PartialEq, Eq)]
pub enum Refusal {
    Shape = 1,
    RowLength = 2,
    Buffer = 3,
    Grinding = 4,
    Nodes = 5,
    Slots = 6,
    Line = 7,
    Stretch = 8,
    Version = 9,
    Field = 10,
    Commitment = 11,
    TooLarge = 12,
    NotNamed = 13,
}

/// The answer of a call: 0 or the number of a refusal, and the node count.
#[derive(Clone, Copy, Debug, PartialEq, Eq)]
pub struct Answer {
    pub number: u32,
    pub count: u32,
}

impl Answer {
    pub const fn done(count: usize) -> Answer {
        Answer {
            number: 0,
            count: count as u32,
        }
    }

    pub const fn refused(refusal: Refusal, count: usize) -> Answer {
        Answer {
            number: refusal as u32,
            count: count as u32,
        }
    }
}

/// The tree of document 01: the nodes in order, zero bytes for a covered one.
fn tree_bytes(shape: &Shape, vectors: &Vectors) -> Vec<u8> {
    let zeros = vec![0; shape.node_bytes()];
    let nodes = vectors.nodes.iter();
    let bytes: Vec<&[u8]> = nodes
        .map(|node| node.as_ref().unwrap_or(&zeros).as_slice())
        .collect();
    bytes.concat()
}

/// The leaf commitments of document 01: vector after vector.
fn leaf_commitment_bytes(vectors: &Vectors) -> Vec<u8> {
    vectors.leaf_coms.concat().concat()
}

/// Decode: the hidden indices. Checks 1, 3, 4.
pub fn decode(shape: Shape, challenge: &[u8], indices: &mut [u32]) -> Answer {
    let Some(shape) = shape.resolve() else {
        return Answer::refused(Refusal::Shape, 0);
    };
    if challenge.len() != shape.node_bytes() || indices.len() != shape.tau {
        return Answer::refused(Refusal::Buffer, 0);
    }
    if !grinding_bits_are_zero(&shape, challenge) {
        return Answer::refused(Refusal::Grinding, 0);
    }
    for (place, index) in indices.iter_mut().zip(decode_all_chall(&shape, challenge)) {
        *place = index as u32;
    }
    Answer::done(0)
}

/// Plan: the revealed nodes at the front of a list of T numbers. Checks 1, 3,
/// 4, 5.
pub fn plan(shape: Shape, challenge: &[u8], nodes: &mut [u32]) -> Answer {
    let Some(shape) = shape.resolve() else {
        return Answer::refused(Refusal::Shape, 0);
    };
    if challenge.len() != shape.node_bytes() || nodes.len() != shape.t {
        return Answer::refused(Refusal::Buffer, 0);
    }
    if !grinding_bits_are_zero(&shape, challenge) {
        return Answer::refused(Refusal::Grinding, 0);
    }
    let hidden = decode_all_chall(&shape, challenge);
    let count = bavc::node_count(&shape, &hidden);
    if count > shape.t {
        return Answer::refused(Refusal::Nodes, count);
    }
    for (place, node) in nodes.iter_mut().zip(bavc::revealed_nodes(&shape, &hidden)) {
        *place = node as u32;
    }
    Answer::done(count)
}

/// Commit: figure 5.8 of document 000. Checks 1, 2, 3.
#[allow(clippy::too_many_arguments)]
pub fn commit(
    shape: Shape,
    row_bits: usize,
    root: &[u8],
    iv: &[u8],
    commitment: &mut [u8],
    tree: &mut [u8],
    leaf_commitments: &mut [u8],
    u: &mut [u8],
    v: &mut [u8],
    corrections: &mut [u8],
) -> Answer {
    let Some(shape) = shape.resolve() else {
        return Answer::refused(Refusal::Shape, 0);
    };
    let Some(b) = row_bytes(row_bits) else {
        return Answer::refused(Refusal::RowLength, 0);
    };
    let Ok(iv) = Block::try_from(iv) else {
        return Answer::refused(Refusal::Buffer, 0);
    };
    if root.len() != shape.node_bytes()
        || commitment.len() != shape.commitment_bytes()
        || tree.len() != shape.tree_bytes()
        || leaf_commitments.len() != shape.leaf_commitments_bytes()
        || u.len() != b
        || v.len() != shape.matrix_bytes(b)
        || corrections.len() != shape.corrections_bytes(b)
    {
        return Answer::refused(Refusal::Buffer, 0);
    }
    let made = vole_commit(&shape, root, &iv, row_bits);
    commitment.copy_from_slice(&made.vectors.com);
    tree.copy_from_slice(&tree_bytes(&shape, &made.vectors));
    leaf_commitments.copy_from_slice(&leaf_commitment_bytes(&made.vectors));
    u.copy_from_slice(&made.u);
    v.copy_from_slice(&made.v.concat());
    corrections.copy_from_slice(&made.corrections.concat());
    Answer::done(0)
}

/// Commit, of a stretch of the rows: as commit, but of u, of every column and of
/// every correction the stretch alone. All of them are made and cut. Checks 1, 2,
/// 8, 3.
#[allow(clippy::too_many_arguments)]
pub fn commit_stretch(
    shape: Shape,
    row_bits: usize,
    stretch: Stretch,
    root: &[u8],
    iv: &[u8],
    commitment: &mut [u8],
    tree: &mut [u8],
    leaf_commitments: &mut [u8],
    u: &mut [u8],
    v: &mut [u8],
    corrections: &mut [u8],
) -> Answer {
    let Some(meant) = shape.resolve() else {
        return Answer::refused(Refusal::Shape, 0);
    };
    let Some(b) = row_bytes(row_bits) else {
        return Answer::refused(Refusal::RowLength, 0);
    };
    let Some(places) = stretch.within(b) else {
        return Answer::refused(Refusal::Stretch, 0);
    };
    if u.len() != stretch.width
        || v.len() != meant.matrix_bytes(stretch.width)
        || corrections.len() != meant.corrections_bytes(stretch.width)
    {
        return Answer::refused(Refusal::Buffer, 0);
    }
    let (mut whole_u, mut whole_v) = (vec![0; b], vec![0; meant.matrix_bytes(b)]);
    let mut whole_corrections = vec![0; meant.corrections_bytes(b)];
    let answer = commit(
        shape,
        row_bits,
        root,
        iv,
        commitment,
        tree,
        leaf_commitments,
        &mut whole_u,
        &mut whole_v,
        &mut whole_corrections,
    );
    if answer.number == 0 {
        u.copy_from_slice(&cut(&whole_u, b, &places));
        v.copy_from_slice(&cut(&whole_v, b, &places));
        corrections.copy_from_slice(&cut(&whole_corrections, b, &places));
    }
    answer
}

/// Open: figure 5.4 of document 000, from the tree as it is lent. Checks 1, 3,
/// 4, 5.
pub fn open(
    shape: Shape,
    challenge: &[u8],
    tree: &[u8],
    leaf_commitments: &[u8],
    opening: &mut [u8],
) -> Answer {
    let Some(shape) = shape.resolve() else {
        return Answer::refused(Refusal::Shape, 0);
    };
    if challenge.len() != shape.node_bytes()
        || tree.len() != shape.tree_bytes()
        || leaf_commitments.len() != shape.leaf_commitments_bytes()
        || opening.len() != shape.opening_bytes()
    {
        return Answer::refused(Refusal::Buffer, 0);
    }
    if !grinding_bits_are_zero(&shape, challenge) {
        return Answer::refused(Refusal::Grinding, 0);
    }
    let hidden = decode_all_chall(&shape, challenge);
    let count = bavc::node_count(&shape, &hidden);
    let Some(decom) = bavc::open(&shape, tree, leaf_commitments, &hidden) else {
        return Answer::refused(Refusal::Nodes, count);
    };
    opening.copy_from_slice(&decom);
    Answer::done(count)
}

/// Reconstruct: figure 5.9 of document 000. Checks 1 to 6.
#[allow(clippy::too_many_arguments)]
pub fn reconstruct(
    shape: Shape,
    row_bits: usize,
    iv: &[u8],
    challenge: &[u8],
    corrections: &[u8],
    opening: &[u8],
    commitment: &mut [u8],
    tree: &mut [u8],
    leaf_commitments: &mut [u8],
    q: &mut [u8],
) -> Answer {
    let Some(shape) = shape.resolve() else {
        return Answer::refused(Refusal::Shape, 0);
    };
    let Some(b) = row_bytes(row_bits) else {
        return Answer::refused(Refusal::RowLength, 0);
    };
    let Ok(iv) = Block::try_from(iv) else {
        return Answer::refused(Refusal::Buffer, 0);
    };
    if challenge.len() != shape.node_bytes()
        || corrections.len() != shape.corrections_bytes(b)
        || opening.len() != shape.opening_bytes()
        || commitment.len() != shape.commitment_bytes()
        || tree.len() != shape.tree_bytes()
        || leaf_commitments.len() != shape.leaf_commitments_bytes()
        || q.len() != shape.matrix_bytes(b)
    {
        return Answer::refused(Refusal::Buffer, 0);
    }
    if !grinding_bits_are_zero(&shape, challenge) {
        return Answer::refused(Refusal::Grinding, 0);
    }
    let count = bavc::node_count(&shape, &decode_all_chall(&shape, challenge));
    let c: Vec<Row> = corrections.chunks_exact(b).map(Row::from).collect();
    match vole_reconstruct(&shape, challenge, opening, &c, &iv, row_bits) {
        Err(Bottom::TooManyNodes) => Answer::refused(Refusal::Nodes, count),
        Err(Bottom::UnusedSlotNotZero) => Answer::refused(Refusal::Slots, count),
        Ok((vectors, columns)) => {
            commitment.copy_from_slice(&vectors.com);
            tree.copy_from_slice(&tree_bytes(&shape, &vectors));
            leaf_commitments.copy_from_slice(&leaf_commitment_bytes(&vectors));
            q.copy_from_slice(&columns.concat());
            Answer::done(count)
        }
    }
}

/// Reconstruct, of a stretch of the rows: as reconstruct, but of every column the
/// stretch alone, and of every correction the stretch is lent. Q is made whole, with
/// zeros for what is not known of the corrections, and cut: its bytes depend on the
/// bytes of the corrections at the same places only. Checks 1, 2, 8, 3, 4, 5, 6.
#[allow(clippy::too_many_arguments)]
pub fn reconstruct_stretch(
    shape: Shape,
    row_bits: usize,
    stretch: Stretch,
    iv: &[u8],
    challenge: &[u8],
    corrections: &[u8],
    opening: &[u8],
    commitment: &mut [u8],
    tree: &mut [u8],
    leaf_commitments: &mut [u8],
    q: &mut [u8],
) -> Answer {
    let Some(meant) = shape.resolve() else {
        return Answer::refused(Refusal::Shape, 0);
    };
    let Some(b) = row_bytes(row_bits) else {
        return Answer::refused(Refusal::RowLength, 0);
    };
    let Some(places) = stretch.within(b) else {
        return Answer::refused(Refusal::Stretch, 0);
    };
    if corrections.len() != meant.corrections_bytes(stretch.width)
        || q.len() != meant.matrix_bytes(stretch.width)
    {
        return Answer::refused(Refusal::Buffer, 0);
    }
    let mut whole_q = vec![0; meant.matrix_bytes(b)];
    let answer = reconstruct(
        shape,
        row_bits,
        iv,
        challenge,
        &spread(corrections, b, &places),
        opening,
        commitment,
        tree,
        leaf_commitments,
        &mut whole_q,
    );
    if answer.number == 0 {
        q.copy_from_slice(&cut(&whole_q, b, &places));
    }
    answer
}
