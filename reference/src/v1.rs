//! Version 1 of FAEST: commit, open and reconstruct (document 02, E12).
//!
//! A tree for each vector, hashed leaves, no node allowance and no grinding. A
//! tree is the list of its levels: level 0 is the root alone, level l has 2^l
//! nodes from the left, the last one has the leaves. One IV serves every tree and
//! every row, and there is no tweak.

use crate::aes;
use crate::calls::{Answer, Refusal};
use crate::prg::{h0_leaf, h1};
use crate::shape::{decode_all_chall, row_bytes, Shape};
use crate::vole::Row;
use crate::{Block, Digest, LeafCom, Node};

/// The counter that follows: the whole IV is one number of 128 bits, the most
/// significant byte first, modulo 2^128.
pub fn next_counter(counter: &Block) -> Block {
    u128::from_be_bytes(*counter).wrapping_add(1).to_be_bytes()
}

/// PRG1: counter mode of NIST SP 800-38A, with m in bits, a multiple of 8. The key
/// of λ bits is that of AES-λ; the first counter is the IV itself.
pub fn prg1(key: &[u8], iv: &Block, m: usize) -> Vec<u8> {
    let keys = aes::key_expansion(key);
    let (mut counter, mut s) = (*iv, Vec::new());
    while 8 * s.len() < m {
        s.extend(aes::encrypt(&keys, &counter));
        counter = next_counter(&counter);
    }
    s.truncate(m / 8);
    s
}

/// The roots of the vectors: PRG1 of the root, cut in order.
fn vector_roots(shape: &Shape, root: &[u8], iv: &Block) -> Vec<Node> {
    let roots = prg1(root, iv, shape.tau * shape.level);
    roots
        .chunks_exact(shape.node_bytes())
        .map(Node::from)
        .collect()
}

/// The children of a node: the halves of 2λ bits.
fn children(node: &[u8], iv: &Block) -> [Node; 2] {
    let both = prg1(node, iv, 2 * 8 * node.len());
    let (left, right) = both.split_at(node.len());
    [left.to_vec(), right.to_vec()]
}

/// Seed and commitment of a leaf: H0 of its key with the IV behind it, λ bits and
/// then 2λ.
fn leaf_commit(key: &[u8], iv: &Block) -> (Node, LeafCom) {
    let stretched = h0_leaf(8 * key.len(), key, iv);
    let (sd, com) = stretched.split_at(key.len());
    (sd.to_vec(), com.to_vec())
}

/// A level of a tree, from the left. A node that is not known is `None`.
type Level = Vec<Option<Node>>;

/// A vector: the levels of its tree, and of its leaves the seeds and the
/// commitments. The leaf that is not known has no seed.
pub struct Vector {
    pub levels: Vec<Level>,
    pub seeds: Vec<Option<Node>>,
    pub leaf_coms: Vec<LeafCom>,
}

/// The level below: an unknown node has unknown children.
fn level_below(level: &[Option<Node>], iv: &Block) -> Level {
    let below = |node: &Option<Node>| match node {
        Some(node) => children(node, iv).map(Some),
        None => [None, None],
    };
    level.iter().flat_map(below).collect()
}

/// The seeds and the commitments of the leaves; the commitment of the unknown leaf
/// is lent.
fn commit_leaves(levels: Vec<Level>, iv: &Block, hidden: &[u8]) -> Vector {
    let leaves = levels.last().expect("a tree has a root");
    let leaf = |key: &Option<Node>| match key {
        Some(key) => {
            let (sd, com) = leaf_commit(key, iv);
            (Some(sd), com)
        }
        None => (None, hidden.to_vec()),
    };
    let (seeds, leaf_coms) = leaves.iter().map(leaf).unzip();
    Vector {
        levels,
        seeds,
        leaf_coms,
    }
}

/// The vector under a root.
fn commit_vector(root: Node, depth: usize, iv: &Block) -> Vector {
    let mut levels = vec![vec![Some(root)]];
    for l in 0..depth {
        levels.push(level_below(&levels[l], iv));
    }
    commit_leaves(levels, iv, &[])
}

/// The vectors under a root.
fn commit_vectors(shape: &Shape, root: &[u8], iv: &Block) -> Vec<Vector> {
    let roots = vector_roots(shape, root, iv).into_iter().enumerate();
    roots
        .map(|(i, root)| commit_vector(root, shape.depth(i), iv))
        .collect()
}

/// The commitment: H1 of the h_i, each H1 of its vector's leaf commitments.
fn commitment_of(level: usize, vectors: &[Vector]) -> Digest {
    let h = vectors
        .iter()
        .map(|vector| h1(level, &vector.leaf_coms.concat()));
    h1(level, &h.collect::<Vec<Digest>>().concat())
}

/// The trees as they are lent: vector after vector, each level by level, zeros for
/// a node that is not known.
fn trees_bytes(shape: &Shape, vectors: &[Vector]) -> Vec<u8> {
    let zeros = vec![0; shape.node_bytes()];
    let nodes = vectors
        .iter()
        .flat_map(|vector| vector.levels.iter().flatten());
    let bytes: Vec<&[u8]> = nodes
        .map(|node| node.as_ref().unwrap_or(&zeros).as_slice())
        .collect();
    bytes.concat()
}

/// The leaf commitments as they are lent: vector after vector.
fn leaf_coms_bytes(vectors: &[Vector]) -> Vec<u8> {
    let coms = vectors.iter().flat_map(|vector| vector.leaf_coms.iter());
    coms.flatten().copied().collect()
}

/// The nodes of a vector's tree that is lent: its levels as bytes.
fn cut_levels(tree: &[u8], depth: usize, width: usize) -> Vec<Vec<&[u8]>> {
    let mut nodes = tree.chunks_exact(width);
    (0..=depth)
        .map(|l| nodes.by_ref().take(1 << l).collect())
        .collect()
}

/// The place of the path's node on level l, of the path to leaf Δ of a tree of this
/// depth.
fn on_path(delta: usize, depth: usize, l: usize) -> usize {
    delta >> (depth - l)
}

/// The nodes of the trees before vector i: a tree of N leaves has 2N - 1.
fn nodes_before(shape: &Shape, i: usize) -> usize {
    2 * shape.entries_before(i) - i
}

/// The decommitment of vector i: the siblings of the path, from the children of the
/// root down, then the commitment of the hidden leaf.
fn decommit(shape: &Shape, i: usize, delta: usize, trees: &[u8], leaf_coms: &[u8]) -> Vec<u8> {
    let (n, m, depth) = (shape.node_bytes(), com_bytes(shape), shape.depth(i));
    let tree = &trees[n * nodes_before(shape, i)..n * nodes_before(shape, i + 1)];
    let levels = cut_levels(tree, depth, n);
    let mut decom = Vec::new();
    for l in 1..=depth {
        decom.extend(levels[l][on_path(delta, depth, l) ^ 1]);
    }
    let at = m * (shape.entries_before(i) + delta);
    decom.extend(&leaf_coms[at..at + m]);
    decom
}

/// The vector of a decommitment: on each level the sibling stands where it belongs,
/// the path is not known, and the others come from the level above.
fn reconstruct_vector(decom: &[u8], width: usize, delta: usize, iv: &Block) -> Vector {
    let depth = decom.len() / width - 2;
    let (siblings, hidden) = decom.split_at(width * depth);
    let mut levels = vec![vec![None]];
    for (sibling, l) in siblings.chunks_exact(width).zip(1..) {
        let mut level = level_below(&levels[l - 1], iv);
        level[on_path(delta, depth, l) ^ 1] = Some(sibling.to_vec());
        levels.push(level);
    }
    commit_leaves(levels, iv, hidden)
}

/// The decommitments of the vectors, cut from an opening.
fn cut_opening<'a>(shape: &Shape, mut opening: &'a [u8]) -> Vec<&'a [u8]> {
    let mut decoms = Vec::new();
    for i in 0..shape.tau {
        let (decom, rest) = opening.split_at(shape.node_bytes() * (shape.depth(i) + 2));
        decoms.push(decom);
        opening = rest;
    }
    decoms
}

/// The vectors of an opening.
fn reconstruct_vectors(shape: &Shape, hidden: &[usize], opening: &[u8], iv: &Block) -> Vec<Vector> {
    let decoms = cut_opening(shape, opening).into_iter().zip(hidden);
    decoms
        .map(|(decom, delta)| reconstruct_vector(decom, shape.node_bytes(), *delta, iv))
        .collect()
}

/// The row of each seed; an absent one has a row of zeros.
fn rows_of(seeds: &[Option<Node>], iv: &Block, row_bits: usize) -> Vec<Row> {
    let row = |seed: &Option<Node>| match seed {
        Some(sd) => prg1(sd, iv, row_bits),
        None => vec![0; row_bits / 8],
    };
    seeds.iter().map(row).collect()
}

/// The rows of every vector.
fn whole_rows(vectors: &[Vector], iv: &Block, row_bits: usize) -> Vec<Vec<Row>> {
    let rows = vectors.iter();
    rows.map(|vector| rows_of(&vector.seeds, iv, row_bits))
        .collect()
}

/// The sum of whole rows of b bytes.
fn sum<'a>(b: usize, rows: impl Iterator<Item = &'a Row>) -> Row {
    let mut total = vec![0; b];
    for row in rows {
        for (place, byte) in total.iter_mut().zip(row) {
            *place ^= byte;
        }
    }
    total
}

/// Column j of a vector: the sum of the rows e where bit j of e xor Δ is set. Commit
/// has Δ = 0.
fn column(b: usize, rows: &[Row], delta: usize, j: usize) -> Row {
    let chosen = rows.iter().enumerate();
    sum(
        b,
        chosen
            .filter(|(e, _)| (e ^ delta) >> j & 1 == 1)
            .map(|(_, row)| row),
    )
}

/// V: the columns of every vector, one after another; with w 0 they are λ.
fn columns_of(shape: &Shape, rows: &[Vec<Row>], b: usize) -> Vec<u8> {
    let mut v = Vec::new();
    for (i, rows) in rows.iter().enumerate() {
        for j in 0..shape.depth(i) {
            v.extend(column(b, rows, 0, j));
        }
    }
    v
}

/// The corrections: for every vector but the first, the sum of its rows and of those
/// of the first.
fn corrections_of(rows: &[Vec<Row>], b: usize) -> Vec<u8> {
    let others = rows[1..].iter();
    others
        .flat_map(|rows_i| sum(b, rows[0].iter().chain(rows_i)))
        .collect()
}

/// Q: the columns of the rows under the numbers e xor Δ_i, with the correction added
/// where the bit of Δ_i is set and the vector is not the first.
fn corrected_columns(
    shape: &Shape,
    hidden: &[usize],
    rows: &[Vec<Row>],
    corrections: &[Row],
    b: usize,
) -> Vec<u8> {
    let mut q = Vec::new();
    for (i, (rows, &delta)) in rows.iter().zip(hidden).enumerate() {
        for j in 0..shape.depth(i) {
            let column = column(b, rows, delta, j);
            let corrected = i > 0 && delta >> j & 1 == 1;
            q.extend(match corrected {
                true => sum(b, [&column, &corrections[i - 1]].into_iter()),
                false => column,
            });
        }
    }
    q
}

/// The shape of version 1, or nothing where it is refused: w 0, T 1, kind 0, and the
/// rules of version 2. Four zeros are not resolved, since T is not 1.
pub fn meant(shape: Shape) -> Option<Shape> {
    let of_version_1 = shape.w == 0 && shape.t == 1 && shape.kind == 0;
    shape.resolve().filter(|_| of_version_1)
}

/// The bytes of a leaf commitment: 2λ bits.
fn com_bytes(shape: &Shape) -> usize {
    2 * shape.node_bytes()
}

/// The bytes of the trees, of 2L - τ nodes.
fn trees_length(shape: &Shape) -> usize {
    shape.node_bytes() * (2 * shape.leaves() - shape.tau)
}

/// The bytes of all leaf commitments.
fn leaf_coms_length(shape: &Shape) -> usize {
    com_bytes(shape) * shape.leaves()
}

/// The bytes of an opening: λ siblings in all, and two nodes for each hidden leaf.
fn opening_length(shape: &Shape) -> usize {
    shape.node_bytes() * (shape.level + 2 * shape.tau)
}

/// The lengths of the buffers of commit for rows of b bytes, in the order of the call.
pub fn commit_lengths(shape: &Shape, b: usize) -> [usize; 8] {
    [
        shape.node_bytes(),
        16,
        shape.commitment_bytes(),
        trees_length(shape),
        leaf_coms_length(shape),
        b,
        shape.matrix_bytes(b),
        shape.corrections_bytes(b),
    ]
}

/// The same of open.
pub fn open_lengths(shape: &Shape) -> [usize; 4] {
    [
        shape.node_bytes(),
        trees_length(shape),
        leaf_coms_length(shape),
        opening_length(shape),
    ]
}

/// The same of reconstruct.
pub fn reconstruct_lengths(shape: &Shape, b: usize) -> [usize; 8] {
    [
        16,
        shape.node_bytes(),
        shape.corrections_bytes(b),
        opening_length(shape),
        shape.commitment_bytes(),
        trees_length(shape),
        leaf_coms_length(shape),
        shape.matrix_bytes(b),
    ]
}

/// What both halves write of the vectors: the commitment, the trees and the leaf
/// commitments.
fn write_vectors(shape: &Shape, vectors: &[Vector], written: [&mut [u8]; 3]) {
    let [commitment, trees, leaf_commitments] = written;
    commitment.copy_from_slice(&commitment_of(shape.level, vectors));
    trees.copy_from_slice(&trees_bytes(shape, vectors));
    leaf_commitments.copy_from_slice(&leaf_coms_bytes(vectors));
}

/// Commit. Checks 1, 2, 3.
#[allow(clippy::too_many_arguments)]
pub fn commit(
    shape: Shape,
    row_bits: usize,
    root: &[u8],
    iv: &[u8],
    commitment: &mut [u8],
    trees: &mut [u8],
    leaf_commitments: &mut [u8],
    u: &mut [u8],
    v: &mut [u8],
    corrections: &mut [u8],
) -> Answer {
    let Some(shape) = meant(shape) else {
        return Answer::refused(Refusal::Shape, 0);
    };
    let Some(b) = row_bytes(row_bits) else {
        return Answer::refused(Refusal::RowLength, 0);
    };
    let of_leaves = [commitment.len(), trees.len(), leaf_commitments.len()];
    let of_rows = [u.len(), v.len(), corrections.len()];
    if [&[root.len(), iv.len()], &of_leaves[..], &of_rows].concat() != commit_lengths(&shape, b) {
        return Answer::refused(Refusal::Buffer, 0);
    }
    let iv = &Block::try_from(iv).expect("an IV of 16 bytes");
    let vectors = commit_vectors(&shape, root, iv);
    let rows = whole_rows(&vectors, iv, row_bits);
    write_vectors(&shape, &vectors, [commitment, trees, leaf_commitments]);
    u.copy_from_slice(&sum(b, rows[0].iter()));
    v.copy_from_slice(&columns_of(&shape, &rows, b));
    corrections.copy_from_slice(&corrections_of(&rows, b));
    Answer::done(0)
}

/// Open, from the trees as they are lent. Checks 1, 3.
pub fn open(
    shape: Shape,
    challenge: &[u8],
    trees: &[u8],
    leaf_commitments: &[u8],
    opening: &mut [u8],
) -> Answer {
    let Some(shape) = meant(shape) else {
        return Answer::refused(Refusal::Shape, 0);
    };
    let read = [challenge.len(), trees.len(), leaf_commitments.len()];
    if [&read[..], &[opening.len()]].concat() != open_lengths(&shape) {
        return Answer::refused(Refusal::Buffer, 0);
    }
    let hidden = decode_all_chall(&shape, challenge).into_iter().enumerate();
    let decoms: Vec<Vec<u8>> = hidden
        .map(|(i, delta)| decommit(&shape, i, delta, trees, leaf_commitments))
        .collect();
    opening.copy_from_slice(&decoms.concat());
    Answer::done(0)
}

/// Reconstruct. Checks 1, 2, 3.
#[allow(clippy::too_many_arguments)]
pub fn reconstruct(
    shape: Shape,
    row_bits: usize,
    iv: &[u8],
    challenge: &[u8],
    corrections: &[u8],
    opening: &[u8],
    commitment: &mut [u8],
    trees: &mut [u8],
    leaf_commitments: &mut [u8],
    q: &mut [u8],
) -> Answer {
    let Some(shape) = meant(shape) else {
        return Answer::refused(Refusal::Shape, 0);
    };
    let Some(b) = row_bytes(row_bits) else {
        return Answer::refused(Refusal::RowLength, 0);
    };
    let read = [iv.len(), challenge.len(), corrections.len(), opening.len()];
    let of_leaves = [commitment.len(), trees.len(), leaf_commitments.len()];
    if [&read[..], &of_leaves, &[q.len()]].concat() != reconstruct_lengths(&shape, b) {
        return Answer::refused(Refusal::Buffer, 0);
    }
    let iv = &Block::try_from(iv).expect("an IV of 16 bytes");
    let hidden = decode_all_chall(&shape, challenge);
    let vectors = reconstruct_vectors(&shape, &hidden, opening, iv);
    let rows = whole_rows(&vectors, iv, row_bits);
    let c: Vec<Row> = corrections.chunks_exact(b).map(Row::from).collect();
    write_vectors(&shape, &vectors, [commitment, trees, leaf_commitments]);
    q.copy_from_slice(&corrected_columns(&shape, &hidden, &rows, &c, b));
    Answer::done(0)
}
