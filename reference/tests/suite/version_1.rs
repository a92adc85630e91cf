//! Version 1 (document 02, E12): its counter mode, its bytes worked out anew by node
//! numbers, the opening, the round trip and the refusals.

use reference::calls::Answer;
use reference::shake::{shake128, shake256};
use reference::shape::Shape;
use reference::v1::{commit, next_counter, open, prg1, reconstruct};
use reference::{aes, Block};

use crate::support::{bit, hex, indices, leaves, noise};

/// A shape of version 1.
const fn shape(tau: usize, k: usize, level: usize) -> Shape {
    Shape::at_level(tau, k, 0, 1, level)
}

/// The smallest trees of each level, uneven ones, and 128s.
const SHAPES: [Shape; 8] = [
    shape(32, 4, 128),
    shape(31, 4, 128),
    shape(26, 4, 128),
    shape(15, 8, 128),
    shape(11, 11, 128),
    shape(32, 6, 192),
    shape(29, 6, 192),
    shape(31, 8, 256),
];

/// IVs of which the last 32, 64 and 128 bits are all set, or nearly.
const IVS: [&str; 6] = [
    "00112233445566778899aabbffffffff",
    "0011223344556677ffffffffffffffff",
    "ffffffffffffffffffffffffffffffff",
    "fffffffffffffffffffffffffffffffe",
    "fffffffffffffffffffffffeffffffff",
    "00000000000000000000000000000000",
];

fn block(digits: &str) -> Block {
    hex(digits).try_into().unwrap()
}

#[test]
fn counter_mode_of_sp_800_38a() {
    // F.5.1, F.5.3 and F.5.5: key, and ciphertext of the four blocks below.
    let plain = "6bc1bee22e409f96e93d7e117393172a ae2d8a571e03ac9c9eb76fac45af8e51
                 30c81c46a35ce411e5fbc1191a0a52ef f69f2445df4f9b17ad2b417be66c3710";
    for (key, cipher) in [
        (
            "2b7e151628aed2a6abf7158809cf4f3c",
            "874d6191b620e3261bef6864990db6ce 9806f66b7970fdff8617187bb9fffdff
             5ae4df3edbd5d35e5b4f09020db03eab 1e031dda2fbe03d1792170a0f3009cee",
        ),
        (
            "8e73b0f7da0e6452c810f32b809079e562f8ead2522c6b7b",
            "1abc932417521ca24f2b0459fe7e6e0b 090339ec0aa6faefd5ccc2c6f4ce8e94
             1e36b26bd1ebc670d1bd1d665620abf7 4f78a7f6d29809585a97daec58c6b050",
        ),
        (
            "603deb1015ca71be2b73aef0857d77811f352c073b6108d72d9810a30914dff4",
            "601ec313775789a5b7a7f504bbf3d228 f443e3ca4d62b59aca84e990cacaf5c5
             2b0930daa23de94ce87017ba2d84988d dfc9c58db67aada613c2dd08457941a6",
        ),
    ] {
        let [plain, cipher] = [plain, cipher].map(|text| hex(&text.replace('\n', "")));
        let made = prg1(&hex(key), &block("f0f1f2f3f4f5f6f7f8f9fafbfcfdfeff"), 512);
        let sum: Vec<u8> = plain.iter().zip(made).map(|(x, y)| x ^ y).collect();
        assert_eq!(sum, cipher, "{key}");
    }
}

#[test]
fn output_blocks_of_sp_800_38a() {
    // F.5.1: the four output blocks, each cut off at every byte.
    let expected = hex(
        "ec8cdf7398607cb0f2d21675ea9ea1e4 362b7c3c6773516318a077d7fc5073ae \
                        6a2cc3787889374fbeb4c81b17ba6c44 e89c399ff0f198c6d40a31db156cabfe",
    );
    let key = hex("2b7e151628aed2a6abf7158809cf4f3c");
    let iv = block("f0f1f2f3f4f5f6f7f8f9fafbfcfdfeff");
    for n in 0..=64 {
        assert_eq!(prg1(&key, &iv, 8 * n), expected[..n]);
    }
}

#[test]
fn the_counter_is_one_number() {
    for (counter, next) in [
        (
            "00000000000000000000000000000000",
            "00000000000000000000000000000001",
        ),
        (
            "000102030405060708090a0b0c0d0eff",
            "000102030405060708090a0b0c0d0f00",
        ),
        (
            "00112233445566778899aabbffffffff",
            "00112233445566778899aabc00000000",
        ),
        (
            "0011223344556677ffffffffffffffff",
            "00112233445566780000000000000000",
        ),
        (
            "00ffffffffffffffffffffffffffffff",
            "01000000000000000000000000000000",
        ),
        (
            "ffffffffffffffffffffffffffffffff",
            "00000000000000000000000000000000",
        ),
    ] {
        assert_eq!(next_counter(&block(counter)), block(next));
        for n in [16, 24, 32] {
            let key = noise(n as u64, n);
            let keys = aes::key_expansion(&key);
            let made = prg1(&key, &block(counter), 256);
            assert_eq!(made[..16], aes::encrypt(&keys, &block(counter)));
            assert_eq!(made[16..], aes::encrypt(&keys, &block(next)));
        }
    }
}

/// What commit writes.
struct Made {
    shape: Shape,
    iv: Block,
    root: Vec<u8>,
    commitment: Vec<u8>,
    trees: Vec<u8>,
    leaf_commitments: Vec<u8>,
    u: Vec<u8>,
    v: Vec<u8>,
    corrections: Vec<u8>,
}

/// The lengths of document 02, E12.
fn tree_nodes(shape: &Shape) -> usize {
    2 * leaves(shape) - shape.tau
}

fn opening_bytes(shape: &Shape) -> usize {
    shape.level / 8 * (shape.level + 2 * shape.tau)
}

/// Commits with some root, rows of b bytes.
fn made(shape: Shape, iv: &str, b: usize) -> Made {
    let n = shape.level / 8;
    let mut made = Made {
        shape,
        iv: block(iv),
        root: noise(shape.tau as u64, n),
        commitment: vec![0; 2 * n],
        trees: vec![0; n * tree_nodes(&shape)],
        leaf_commitments: vec![0; 2 * n * leaves(&shape)],
        u: vec![0; b],
        v: vec![0; shape.level * b],
        corrections: vec![0; (shape.tau - 1) * b],
    };
    let answer = commit(
        shape,
        8 * b,
        &made.root,
        &made.iv,
        &mut made.commitment,
        &mut made.trees,
        &mut made.leaf_commitments,
        &mut made.u,
        &mut made.v,
        &mut made.corrections,
    );
    assert_eq!(answer, Answer::done(0));
    made
}

/// The depth of vector i, and where its leaves and its nodes begin.
fn places(shape: &Shape, i: usize) -> (usize, usize, usize) {
    let deeper = shape.level - shape.tau * shape.k;
    let depth = |i: usize| shape.k + usize::from(i < deeper);
    let leaf: usize = (0..i).map(|i| 1 << depth(i)).sum();
    let node: usize = (0..i).map(|i| (2 << depth(i)) - 1).sum();
    (depth(i), leaf, node)
}

impl Made {
    /// Node number a of vector i: the children of a are 2a + 1 and 2a + 2.
    fn node(&self, i: usize, a: usize) -> &[u8] {
        let n = self.shape.level / 8;
        let (_, _, first) = places(&self.shape, i);
        &self.trees[n * (first + a)..n * (first + a + 1)]
    }

    fn hash(&self, message: &[u8], domain: u8, length: usize) -> Vec<u8> {
        let message = [message, &[domain]].concat();
        match self.shape.level {
            128 => shake128(&message, length),
            _ => shake256(&message, length),
        }
    }

    /// The rows of vector i, from the leaves of its tree.
    fn rows(&self, i: usize) -> Vec<Vec<u8>> {
        let n = self.shape.level / 8;
        let (depth, _, _) = places(&self.shape, i);
        let row = |j: usize| {
            let key = self.node(i, (1 << depth) - 1 + j);
            let out = self.hash(&[key, &self.iv].concat(), 0, 3 * n);
            prg1(&out[..n], &self.iv, 8 * self.u.len())
        };
        (0..1 << depth).map(row).collect()
    }

    fn opening(&self, challenge: &[u8]) -> Vec<u8> {
        let mut opening = vec![0; opening_bytes(&self.shape)];
        let (trees, coms) = (&self.trees, &self.leaf_commitments);
        let answer = open(self.shape, challenge, trees, coms, &mut opening);
        assert_eq!(answer, Answer::done(0));
        opening
    }

    /// Commitment, trees, leaf commitments and Q of reconstruct, on buffers with a
    /// pattern in them.
    fn again(&self, challenge: &[u8], opening: &[u8]) -> [Vec<u8>; 4] {
        let written = [
            &self.commitment,
            &self.trees,
            &self.leaf_commitments,
            &self.v,
        ];
        let [mut com, mut trees, mut coms, mut q] = written.map(|like| vec![0xa5; like.len()]);
        let answer = reconstruct(
            self.shape,
            8 * self.u.len(),
            &self.iv,
            challenge,
            &self.corrections,
            opening,
            &mut com,
            &mut trees,
            &mut coms,
            &mut q,
        );
        assert_eq!(answer, Answer::done(0));
        [com, trees, coms, q]
    }
}

fn xor(a: &[u8], b: &[u8]) -> Vec<u8> {
    a.iter().zip(b).map(|(x, y)| x ^ y).collect()
}

#[test]
fn nodes_and_leaves_by_their_numbers() {
    for (shape, iv) in SHAPES.into_iter().zip(IVS.into_iter().cycle()) {
        let (made, n) = (made(shape, iv, 1), shape.level / 8);
        let roots = prg1(&made.root, &made.iv, shape.tau * shape.level);
        let mut tops = Vec::new();
        for i in 0..shape.tau {
            let (depth, first, _) = places(&shape, i);
            assert_eq!(made.node(i, 0), &roots[n * i..n * (i + 1)]);
            for a in 0..(1 << depth) - 1 {
                let both = prg1(made.node(i, a), &made.iv, 2 * shape.level);
                assert_eq!(both[..n], *made.node(i, 2 * a + 1));
                assert_eq!(both[n..], *made.node(i, 2 * a + 2));
            }
            let coms = &made.leaf_commitments[2 * n * first..2 * n * (first + (1 << depth))];
            for (j, com) in coms.chunks_exact(2 * n).enumerate() {
                let key = made.node(i, (1 << depth) - 1 + j);
                let out = made.hash(&[key, &made.iv].concat(), 0, 3 * n);
                assert_eq!(com, &out[n..]);
            }
            tops.extend(made.hash(coms, 1, 2 * n));
        }
        assert_eq!(made.commitment, made.hash(&tops, 1, 2 * n));
        // The last tree ends the trees.
        let (depth, first, node) = places(&shape, shape.tau - 1);
        assert_eq!(made.trees.len(), n * (node + (2 << depth) - 1));
        assert_eq!(made.leaf_commitments.len(), 2 * n * (first + (1 << depth)));
    }
}

#[test]
fn columns_and_corrections() {
    for (shape, iv) in SHAPES.into_iter().zip(IVS.into_iter().cycle()) {
        let b = 21;
        let made = made(shape, iv, b);
        let mut column = made.v.chunks_exact(b);
        for i in 0..shape.tau {
            let rows = made.rows(i);
            let zeros = vec![0; b];
            let all = rows.iter().fold(zeros.clone(), |sum, row| xor(&sum, row));
            match i {
                0 => assert_eq!(all, made.u),
                _ => {
                    let correction = &made.corrections[b * (i - 1)..b * i];
                    assert_eq!(xor(&made.u, &all), correction);
                }
            }
            for j in 0..places(&shape, i).0 {
                let set = rows
                    .iter()
                    .enumerate()
                    .filter(|(e, _)| e / (1 << j) % 2 == 1);
                let sum = set.fold(zeros.clone(), |sum, (_, row)| xor(&sum, row));
                assert_eq!(sum, column.next().unwrap(), "vector {i} column {j}");
            }
        }
        assert_eq!(column.next(), None);
    }
}

/// All bits clear, all set, and mixed ones.
fn challenges(shape: &Shape) -> Vec<Vec<u8>> {
    let n = shape.level / 8;
    let mut all = vec![vec![0; n], vec![0xff; n]];
    all.extend((0..3).map(|seed| noise(seed, n)));
    all
}

/// The numbers of the nodes from the root of a tree to its leaf j.
fn path(depth: usize, j: usize) -> Vec<usize> {
    let mut nodes = vec![(1 << depth) - 1 + j];
    while nodes[0] > 0 {
        nodes.insert(0, (nodes[0] - 1) / 2);
    }
    nodes
}

/// The other child of the same node.
fn sibling(a: usize) -> usize {
    match a % 2 {
        1 => a + 1,
        _ => a - 1,
    }
}

#[test]
fn openings() {
    for (shape, iv) in SHAPES.into_iter().zip(IVS.into_iter().cycle()) {
        // Open takes any bytes as they are.
        let (mut made, n) = (made(shape, iv, 1), shape.level / 8);
        made.trees = noise(1, made.trees.len());
        made.leaf_commitments = noise(2, made.leaf_commitments.len());
        for challenge in challenges(&shape) {
            let mut expected = Vec::new();
            for (i, j) in indices(&shape, &challenge).into_iter().enumerate() {
                let (depth, first, _) = places(&shape, i);
                for a in &path(depth, j)[1..] {
                    expected.extend(made.node(i, sibling(*a)));
                }
                let at = 2 * n * (first + j);
                expected.extend(&made.leaf_commitments[at..at + 2 * n]);
            }
            assert_eq!(made.opening(&challenge), expected);
        }
    }
}

/// The trees with zeros on the path from each root to its hidden leaf.
fn with_zeros(made: &Made, challenge: &[u8]) -> Vec<u8> {
    let n = made.shape.level / 8;
    let mut trees = made.trees.clone();
    for (i, j) in indices(&made.shape, challenge).into_iter().enumerate() {
        let (depth, _, first) = places(&made.shape, i);
        for a in path(depth, j) {
            trees[n * (first + a)..n * (first + a + 1)].fill(0);
        }
    }
    trees
}

#[test]
fn round_trips() {
    for (shape, iv) in SHAPES.into_iter().zip(IVS.into_iter().cycle()) {
        for b in [1, 15, 17] {
            let made = made(shape, iv, b);
            for challenge in challenges(&shape) {
                let [com, trees, coms, q] = made.again(&challenge, &made.opening(&challenge));
                assert_eq!(com, made.commitment);
                assert_eq!(coms, made.leaf_commitments);
                assert_eq!(trees, with_zeros(&made, &challenge));
                // The column rule of demand 3.
                for j in 0..shape.level {
                    let column = &made.v[b * j..b * (j + 1)];
                    let expected = match bit(&challenge, j) {
                        true => xor(column, &made.u),
                        false => column.to_vec(),
                    };
                    assert_eq!(q[b * j..b * (j + 1)], expected, "column {j}");
                }
            }
        }
    }
}

#[test]
fn the_longest_rows() {
    let made = made(SHAPES[0], "ffffffffffffffffffffffffffffff00", 8192);
    let challenge = noise(5, 16);
    let [com, _, _, q] = made.again(&challenge, &made.opening(&challenge));
    assert_eq!(com, made.commitment);
    for j in 0..128 {
        let column = &made.v[8192 * j..8192 * (j + 1)];
        let factor = u8::from(bit(&challenge, j));
        let u: Vec<u8> = made.u.iter().map(|byte| factor * byte).collect();
        assert_eq!(q[8192 * j..8192 * (j + 1)], xor(column, &u), "column {j}");
    }
}

#[test]
fn other_openings_are_not_refused() {
    let made = made(SHAPES[1], IVS[2], 1);
    let challenge = noise(6, 16);
    let opening = made.opening(&challenge);
    for n in (0..opening.len()).step_by(37) {
        let mut other = opening.clone();
        other[n] ^= 0x10;
        let [com, _, coms, _] = made.again(&challenge, &other);
        assert_ne!(com, made.commitment, "byte {n}");
        assert_ne!(coms, made.leaf_commitments, "byte {n}");
    }
}
