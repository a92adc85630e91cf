//! Batch all-but-one vector commitments: document 000, sections 5.1 and 5.2.

use crate::prg::{h0, h1, prg};
use crate::shape::Shape;
use crate::{field, Block, Digest, LeafCom, Node};

/// What [`commit`] and [`reconstruct`] give: the commitment, the nodes of the
/// tree, and for each vector its leaf commitments and leaf seeds in entry
/// order. A node or seed that reconstruction cannot know is `None`.
pub struct Vectors {
    pub com: Digest,
    pub nodes: Vec<Option<Node>>,
    pub leaf_coms: Vec<Vec<LeafCom>>,
    pub seeds: Vec<Vec<Option<Node>>>,
}

/// Why [`reconstruct`] gives ⊥: line 18 or line 23 of figure 5.5.
#[derive(Clone, Copy, Debug, PartialEq, Eq)]
pub enum Bottom {
    TooManyNodes,
    UnusedSlotNotZero,
}

/// Figure 5.2: BAVC.PosInTree, the leaf of entry j of vector i. The entries that
/// all vectors have come first, interleaved, then those of the deeper vectors.
pub fn pos_in_tree(shape: &Shape, i: usize, j: usize) -> usize {
    let common = 1 << shape.k;
    let place = match j < common {
        true => shape.tau * j + i,
        false => shape.tau * common + shape.tau_1() * (j - common) + i,
    };
    shape.leaves() - 1 + place
}

/// Figure 5.3: FAEST.LeafHash, h = u x_0 + x_1 in the field of 2^(3λ) elements,
/// where x_0 has λ bits.
pub fn leaf_hash(uhash: &[u8], x0: &[u8], x1: &[u8]) -> LeafCom {
    match x0.len() {
        16 => field::leaf_hash::<6>(uhash, x0, x1),
        24 => field::leaf_hash::<9>(uhash, x0, x1),
        32 => field::leaf_hash::<12>(uhash, x0, x1),
        _ => panic!("no field of this width"),
    }
}

/// Figure 5.3: FAEST.LeafCommit, the seed of λ bits and the commitment of a leaf.
pub fn leaf_commit(r: &[u8], iv: &Block, twk: u32, uhash: &[u8]) -> (Node, LeafCom) {
    let stretched = prg(r, iv, twk, 4 * 8 * r.len());
    let (sd, x1) = stretched.split_at(r.len());
    (sd.to_vec(), leaf_hash(uhash, sd, x1))
}

/// Figure 5.3: FAEST-EM.LeafCommit, the same without a hash: the leaf's key is the
/// seed, and 2λ bits of the generator are the commitment.
pub fn em_leaf_commit(r: &[u8], iv: &Block, twk: u32) -> (Node, LeafCom) {
    (r.to_vec(), prg(r, iv, twk, 2 * 8 * r.len()))
}

/// The two halves of 2λ bits from node α: figure 5.4, line 7.
fn children(node: &[u8], iv: &Block, alpha: usize) -> (Node, Node) {
    let both = prg(node, iv, alpha as u32, 2 * 8 * node.len());
    let (left, right) = both.split_at(node.len());
    (left.to_vec(), right.to_vec())
}

/// Figure 5.4, lines 8 to 13, which are lines 28 to 37 of figure 5.5: the leaf
/// commitments, the seeds and the commitment. A leaf without a node has its
/// commitment from `hidden`, the one of its vector.
fn commit_leaves(
    shape: &Shape,
    iv: &Block,
    nodes: Vec<Option<Node>>,
    hidden: &[LeafCom],
) -> Vectors {
    // For FAEST-EM there is no hash key (line 4).
    let uhash = match shape.kind {
        0 => h0(shape.level, iv, shape.tau),
        _ => Vec::new(),
    };
    let (mut leaf_coms, mut seeds, mut h) = (Vec::new(), Vec::new(), Vec::new());
    for i in 0..shape.tau {
        let twk = (i + shape.leaves() - 1) as u32;
        let (mut coms_i, mut seeds_i) = (Vec::new(), Vec::new());
        for j in 0..shape.entries(i) {
            let (seed, com) = match &nodes[pos_in_tree(shape, i, j)] {
                Some(node) => {
                    let (seed, com) = match shape.kind {
                        0 => leaf_commit(node, iv, twk, &uhash[i]),
                        _ => em_leaf_commit(node, iv, twk),
                    };
                    (Some(seed), com)
                }
                None => (None, hidden[i].clone()),
            };
            seeds_i.push(seed);
            coms_i.push(com);
        }
        h.push(h1(shape.level, &coms_i.concat()));
        leaf_coms.push(coms_i);
        seeds.push(seeds_i);
    }
    Vectors {
        com: h1(shape.level, &h.concat()),
        nodes,
        leaf_coms,
        seeds,
    }
}

/// Figure 5.4: BAVC.Commit.
pub fn commit(shape: &Shape, r: &[u8], iv: &Block) -> Vectors {
    let l = shape.leaves();
    let mut k = vec![Node::new(); 2 * l - 1];
    k[0] = r.to_vec();
    for alpha in 0..=l - 2 {
        (k[2 * alpha + 1], k[2 * alpha + 2]) = children(&k[alpha], iv, alpha);
    }
    commit_leaves(shape, iv, k.into_iter().map(Some).collect(), &[])
}

/// Figure 5.4, lines 4 to 15: the marks S and their number n_h.
fn mark(shape: &Shape, hidden: &[usize]) -> (Vec<bool>, usize) {
    let mut s = vec![false; 2 * shape.leaves() - 1];
    let mut n_h = 0;
    for (i, &delta) in hidden.iter().enumerate() {
        let mut alpha = pos_in_tree(shape, i, delta);
        s[alpha] = true;
        n_h += 1;
        while alpha > 0 && !s[(alpha - 1) / 2] {
            alpha = (alpha - 1) / 2;
            s[alpha] = true;
            n_h += 1;
        }
    }
    (s, n_h)
}

/// Figure 5.4, line 16: the node count n_h - 2τ + 1.
pub fn node_count(shape: &Shape, hidden: &[usize]) -> usize {
    let (_, n_h) = mark(shape, hidden);
    n_h + 1 - 2 * shape.tau
}

/// Figure 5.4, lines 19 to 22: the revealed nodes, in the order of the opening.
pub fn revealed_nodes(shape: &Shape, hidden: &[usize]) -> Vec<usize> {
    let (s, _) = mark(shape, hidden);
    (0..=shape.leaves() - 2)
        .rev()
        .filter(|i| s[2 * i + 1] ^ s[2 * i + 2])
        .map(|i| 2 * i + 1 + usize::from(s[2 * i + 1]))
        .collect()
}

/// Figure 5.4: BAVC.Open, from the nodes and the leaf commitments (vector after
/// vector) in bytes; nothing where the node count exceeds T_open.
pub fn open(shape: &Shape, tree: &[u8], leaf_coms: &[u8], hidden: &[usize]) -> Option<Vec<u8>> {
    let (n, m) = (shape.node_bytes(), shape.leaf_commitment_bytes());
    let mut decom = Vec::new();
    for (i, &delta) in hidden.iter().enumerate() {
        let at = m * (shape.entries_before(i) + delta);
        decom.extend(&leaf_coms[at..at + m]);
    }
    if node_count(shape, hidden) > shape.t {
        return None;
    }
    for alpha in revealed_nodes(shape, hidden) {
        decom.extend(&tree[n * alpha..n * alpha + n]);
    }
    decom.resize(shape.opening_bytes(), 0);
    Some(decom)
}

/// Figure 5.5: BAVC.Reconstruct.
pub fn reconstruct(
    shape: &Shape,
    decom: &[u8],
    hidden: &[usize],
    iv: &Block,
) -> Result<Vectors, Bottom> {
    let l = shape.leaves();
    let m = shape.leaf_commitment_bytes();
    let (coms, nodes) = decom.split_at(m * shape.tau);
    let coms: Vec<LeafCom> = coms.chunks_exact(m).map(LeafCom::from).collect();
    let mut nodes = nodes.chunks_exact(shape.node_bytes());

    // Mark tree nodes that are not revealed.
    let mut s = vec![false; 2 * l - 1];
    for (i, &delta) in hidden.iter().enumerate() {
        s[pos_in_tree(shape, i, delta)] = true;
    }

    // Walk up the tree, copying nodes from the opening.
    let mut k: Vec<Option<Node>> = vec![None; 2 * l - 1];
    for i in (0..=l - 2).rev() {
        s[i] = s[2 * i + 1] || s[2 * i + 2];
        if s[2 * i + 1] ^ s[2 * i + 2] {
            let node = nodes.next().ok_or(Bottom::TooManyNodes)?;
            let alpha = 2 * i + 1 + usize::from(s[2 * i + 1]);
            k[alpha] = Some(node.to_vec());
        }
    }

    // Line 22, read as: what is left over is all zeroes.
    if nodes.flatten().any(|&byte| byte != 0) {
        return Err(Bottom::UnusedSlotNotZero);
    }

    // Expand the tree. A node that is not marked has its seed by now.
    for i in 0..=l - 2 {
        if !s[i] {
            let node = k[i].as_ref().expect("an unmarked node is known");
            let (left, right) = children(node, iv, i);
            (k[2 * i + 1], k[2 * i + 2]) = (Some(left), Some(right));
        }
    }
    Ok(commit_leaves(shape, iv, k, &coms))
}
