//! The archives of version 1 beside the second implementation, byte by byte: the six sets, and shapes, challenges and lengths from a fixed sequence, wrong ones
//! among them. Every buffer that a call may write is filled with 0xa5 before.

use rachnoel::{flat, v1, Shape};
use reference::calls::Answer;
use reference::v1 as second;

// ---- a fixed sequence

struct Dice(u64);

impl Dice {
    fn next(&mut self) -> u64 {
        self.0 = self.0.wrapping_add(0x9e37_79b9_7f4a_7c15);
        let z = (self.0 ^ self.0 >> 30).wrapping_mul(0xbf58_476d_1ce4_e5b9);
        let z = (z ^ z >> 27).wrapping_mul(0x94d0_49bb_1331_11eb);
        z ^ z >> 31
    }

    fn below(&mut self, n: usize) -> usize {
        self.next() as usize % n
    }

    fn bytes(&mut self, n: usize) -> Vec<u8> {
        (0..n).map(|_| self.next() as u8).collect()
    }

    /// A length: the right one, or one time in thirty another.
    fn length(&mut self, right: usize) -> usize {
        match self.below(90) {
            0 => right + 1 + self.below(8),
            1 => right.saturating_sub(1 + self.below(8)),
            2 => 0,
            _ => right,
        }
    }

    /// A shape with small trees, mostly one of version 1.
    fn shape(&mut self) -> Shape {
        let tau = 24 + self.below(9);
        let right = v1::shape(tau, 128 / tau, 128);
        match self.below(20) {
            0 => Shape { w: 1 + self.below(9), ..right },
            1 => Shape { t: 2 * self.below(4), ..right },
            2 => Shape { kind: 1 + self.below(3), ..right },
            3 => Shape { level: 64 * self.below(5), ..right },
            4 => rachnoel::DEFAULT.shape,
            5 => Shape::new(31, 4, 4, 1, 128),
            _ => right,
        }
    }

    fn row_bits(&mut self) -> usize {
        if self.below(20) == 0 { self.below(70000) } else { 8 + 8 * self.below(40) }
    }
}

// ---- what is compared

fn theirs(s: Shape) -> reference::shape::Shape {
    reference::shape::Shape::of_kind(s.tau, s.k, s.w, s.t, s.level, s.kind)
}

fn fresh(n: usize) -> Vec<u8> {
    vec![0xa5; n]
}

/// What the count slice must hold: 0 where it is written.
fn counted(answer: Answer, n: usize) -> Vec<u8> {
    if answer.number == 0 { vec![0; 4] } else { fresh(n) }
}

/// The second implementation has no count slice: where that has another length, an input of another length is lent in its place, which is refused in the same
/// turn.
fn spoiled(right: &[u8], count: usize) -> Vec<u8> {
    if count == 4 { right.to_vec() } else { right.iter().copied().chain([0; 17]).collect() }
}

/// Number and count slice are those of the second implementation.
fn same(what: &str, shape: Shape, number: usize, answer: Answer, count: &[u8]) {
    assert_eq!((number, count), (answer.number as usize, &counted(answer, count.len())[..]), "{what} {shape:?} {}", count.len());
}

/// commit of both: what was written, and the number.
fn commit(shape: Shape, bits: usize, root: &[u8], iv: &[u8], lens: [usize; 6], n: usize) -> ([Vec<u8>; 6], usize) {
    let (mut x, mut y, mut count) = (lens.map(fresh), lens.map(fresh), fresh(n));
    let [a0, a1, a2, a3, a4, a5] = &mut x;
    let number = flat::v1_commit(shape, bits, root, iv, a0, a1, a2, a3, a4, a5, &mut count);
    let [a0, a1, a2, a3, a4, a5] = &mut y;
    let answer = second::commit(theirs(shape), bits, &spoiled(root, n), iv, a0, a1, a2, a3, a4, a5);
    same("commit", shape, number, answer, &count);
    assert!(x == y, "commit {shape:?} {bits}");
    (x, number)
}

fn open(shape: Shape, challenge: &[u8], trees: &[u8], lcs: &[u8], len: usize, n: usize) -> (Vec<u8>, usize) {
    let (mut x, mut y, mut count) = (fresh(len), fresh(len), fresh(n));
    let number = flat::v1_open(shape, challenge, trees, lcs, &mut x, &mut count);
    let answer = second::open(theirs(shape), &spoiled(challenge, n), trees, lcs, &mut y);
    same("open", shape, number, answer, &count);
    assert!(x == y, "open {shape:?}");
    (x, number)
}

fn reconstruct(shape: Shape, bits: usize, read: [&[u8]; 4], lens: [usize; 4], n: usize) -> ([Vec<u8>; 4], usize) {
    let [iv, challenge, corrections, opening] = read;
    let (mut x, mut y, mut count) = (lens.map(fresh), lens.map(fresh), fresh(n));
    let [a0, a1, a2, a3] = &mut x;
    let number = flat::v1_reconstruct(shape, bits, iv, challenge, corrections, opening, a0, a1, a2, a3, &mut count);
    let [a0, a1, a2, a3] = &mut y;
    let answer = second::reconstruct(theirs(shape), bits, &spoiled(iv, n), challenge, corrections, opening, a0, a1, a2, a3);
    same("reconstruct", shape, number, answer, &count);
    assert!(x == y, "reconstruct {shape:?} {bits}");
    (x, number)
}

// ---- the tests

#[test]
fn lengths() {
    let mut shapes = 0;
    for (tau, k) in (0..35).flat_map(|tau| (0..15).map(move |k| (tau, k))) {
        for (w, t) in [(0, 0), (0, 1), (0, 2), (1, 1), (4, 1), (8, 110)] {
            for (level, kind) in [(128, 0), (192, 0), (256, 0), (0, 0), (160, 0), (128, 1), (256, 1), (128, 2)] {
                let shape = Shape { kind, ..Shape::new(tau, k, w, t, level) };
                let (ours, theirs) = (v1::lengths(shape, 7), second::meant(theirs(shape)));
                assert_eq!(ours.is_some(), theirs.is_some(), "{shape:?}");
                let (Some(n), Some(s)) = (ours, theirs) else { continue };
                assert_eq!(second::commit_lengths(&s, 7), [n.node, 16, n.commitment, n.trees, n.leaf_commitments, n.u, n.matrix, n.corrections]);
                assert_eq!(second::open_lengths(&s), [n.node, n.trees, n.leaf_commitments, n.opening]);
                shapes += 1;
            }
        }
    }
    assert_eq!(shapes, 50);
}

/// commit, open and reconstruct, one after another; what open and reconstruct are lent is what the call before wrote, or noise.
#[test]
fn halves() {
    let mut dice = Dice(6);
    let mut seen = [[0; 4]; 3];
    for _ in 0..400 {
        let (shape, bits) = (dice.shape(), dice.row_bits());
        let m = v1::lengths(shape, (bits / 8).min(8192)).unwrap_or(v1::lengths(v1::shape(32, 4, 128), (bits / 8).min(8192)).unwrap());
        let [root, iv, challenge] = [m.node, 16, m.node].map(|right| { let n = dice.length(right); dice.bytes(n) });

        let lens = [m.commitment, m.trees, m.leaf_commitments, m.u, m.matrix, m.corrections].map(|right| dice.length(right));
        let (x, number) = commit(shape, bits, &root, &iv, lens, dice.length(4));
        seen[0][number] += 1;
        let (mut opening, number) = open(shape, &challenge, &x[1], &x[2], dice.length(m.opening), dice.length(4));
        seen[1][number] += 1;
        if dice.below(10) == 0 {
            opening = dice.bytes(opening.len());
        }
        let lens = [m.commitment, m.trees, m.leaf_commitments, m.matrix].map(|right| dice.length(right));
        let (_, number) = reconstruct(shape, bits, [&iv, &challenge, &x[5], &opening], lens, dice.length(4));
        seen[2][number] += 1;
    }
    assert!(seen[0].iter().chain(&seen[2]).all(|&n| n >= 5) && [0, 1, 3].iter().all(|&n| seen[1][n] >= 5), "{seen:?}");
}

/// The six sets, at the row lengths of version 2: the commitment is the signer's, and so are the leaf commitments.
#[test]
fn all_sets() {
    let mut dice = Dice(7);
    let sets = [(v1::FAEST_128S, 1680), (v1::FAEST_128F, 1680), (v1::FAEST_192S, 3088), (v1::FAEST_192F, 3088), (v1::FAEST_256S, 3888), (v1::FAEST_256F, 3888)];
    for (shape, bits) in sets {
        let m = v1::lengths(shape, bits / 8).unwrap();
        let [root, iv, challenge] = [m.node, 16, m.node].map(|n| dice.bytes(n));
        let (x, number) = commit(shape, bits, &root, &iv, [m.commitment, m.trees, m.leaf_commitments, m.u, m.matrix, m.corrections], 4);
        assert_eq!(number, 0);
        let (opening, number) = open(shape, &challenge, &x[1], &x[2], m.opening, 4);
        assert_eq!(number, 0);
        let (y, number) = reconstruct(shape, bits, [&iv, &challenge, &x[5], &opening], [m.commitment, m.trees, m.leaf_commitments, m.matrix], 4);
        assert_eq!(number, 0);
        assert!(x[0] == y[0] && x[2] == y[2], "{shape:?}");
    }
}
