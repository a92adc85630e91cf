//! Commit, open and reconstruct one after another, and what each of them makes
//! of bytes that no other call wrote.

use reference::calls::{commit, commit_stretch, open, reconstruct, reconstruct_stretch, Answer};
use reference::prg::prg;
use reference::shake::shake128;
use reference::shape::Shape;
use reference::stretch::Stretch;
use reference::Block;

use crate::support::{allowed, bit, covered, indices, leaf_commitment, leaves, noise, revealed};

/// What commit writes.
struct Signer {
    commitment: Vec<u8>,
    tree: Vec<u8>,
    coms: Vec<u8>,
    u: Vec<u8>,
    v: Vec<u8>,
    corrections: Vec<u8>,
}

/// What reconstruct writes.
struct Verifier {
    answer: Answer,
    commitment: Vec<u8>,
    tree: Vec<u8>,
    coms: Vec<u8>,
    q: Vec<u8>,
}

fn sign(shape: Shape, row_bits: usize, root: &[u8], iv: &[u8]) -> Signer {
    let (l, b) = (leaves(&shape), row_bits / 8);
    let n = shape.level / 8;
    let mut signer = Signer {
        commitment: noise(1, 2 * n),
        tree: noise(2, n * (2 * l - 1)),
        coms: noise(3, leaf_commitment(&shape) * l),
        u: noise(4, b),
        v: noise(5, shape.level * b),
        corrections: noise(6, (shape.tau - 1) * b),
    };
    let answer = commit(
        shape,
        row_bits,
        root,
        iv,
        &mut signer.commitment,
        &mut signer.tree,
        &mut signer.coms,
        &mut signer.u,
        &mut signer.v,
        &mut signer.corrections,
    );
    assert_eq!(answer, Answer::done(0));
    signer
}

fn opening_bytes(shape: &Shape) -> usize {
    leaf_commitment(shape) * shape.tau + shape.level / 8 * shape.t
}

fn opened(shape: Shape, challenge: &[u8], signer: &Signer) -> (Answer, Vec<u8>) {
    let mut opening = noise(7, opening_bytes(&shape));
    let answer = open(shape, challenge, &signer.tree, &signer.coms, &mut opening);
    (answer, opening)
}

fn verify(
    shape: Shape,
    row_bits: usize,
    iv: &[u8],
    challenge: &[u8],
    corrections: &[u8],
    opening: &[u8],
) -> Verifier {
    let (l, b) = (leaves(&shape), row_bits / 8);
    let n = shape.level / 8;
    let mut verifier = Verifier {
        answer: Answer::done(0),
        commitment: noise(11, 2 * n),
        tree: noise(12, n * (2 * l - 1)),
        coms: noise(13, leaf_commitment(&shape) * l),
        q: noise(15, shape.level * b),
    };
    verifier.answer = reconstruct(
        shape,
        row_bits,
        iv,
        challenge,
        corrections,
        opening,
        &mut verifier.commitment,
        &mut verifier.tree,
        &mut verifier.coms,
        &mut verifier.q,
    );
    verifier
}

fn sign_stretch(shape: Shape, row_bits: usize, z: Stretch, root: &[u8], iv: &[u8]) -> Signer {
    let (l, g) = (leaves(&shape), z.width);
    let n = shape.level / 8;
    let mut signer = Signer {
        commitment: noise(1, 2 * n),
        tree: noise(2, n * (2 * l - 1)),
        coms: noise(3, leaf_commitment(&shape) * l),
        u: noise(4, g),
        v: noise(5, shape.level * g),
        corrections: noise(6, (shape.tau - 1) * g),
    };
    let answer = commit_stretch(
        shape,
        row_bits,
        z,
        root,
        iv,
        &mut signer.commitment,
        &mut signer.tree,
        &mut signer.coms,
        &mut signer.u,
        &mut signer.v,
        &mut signer.corrections,
    );
    assert_eq!(answer, Answer::done(0));
    signer
}

fn verify_stretch(
    shape: Shape,
    row_bits: usize,
    z: Stretch,
    iv: &[u8],
    challenge: &[u8],
    corrections: &[u8],
    opening: &[u8],
) -> Verifier {
    let (l, n) = (leaves(&shape), shape.level / 8);
    let mut verifier = Verifier {
        answer: Answer::done(0),
        commitment: noise(11, 2 * n),
        tree: noise(12, n * (2 * l - 1)),
        coms: noise(13, leaf_commitment(&shape) * l),
        q: noise(15, shape.level * z.width),
    };
    verifier.answer = reconstruct_stretch(
        shape,
        row_bits,
        z,
        iv,
        challenge,
        corrections,
        opening,
        &mut verifier.commitment,
        &mut verifier.tree,
        &mut verifier.coms,
        &mut verifier.q,
    );
    verifier
}

fn xor(a: &[u8], b: &[u8]) -> Vec<u8> {
    a.iter().zip(b).map(|(x, y)| x ^ y).collect()
}

/// Document 01, demand 3: with T at least the count an opening is made and
/// accepted, and commitments and columns fit; with less both give 5.
fn round_trip(tau: usize, k: usize, w: usize, row_bits: usize, challenges: u64) {
    round_trip_of(Shape::new(tau, k, w, 512), row_bits, challenges);
}

fn round_trip_of(shape: Shape, row_bits: usize, challenges: u64) {
    let Shape { tau, k, level, .. } = shape;
    let bytes = level / 8;
    let seed = (tau << 8 | k) as u64;
    let (root, iv) = (noise(seed, bytes), noise(seed + 1, 16));
    let signer = sign(shape, row_bits, &root, &iv);
    let b = row_bits / 8;
    for n in 0..challenges {
        let drawn = match n {
            0 => noise(seed + 2, bytes),
            1 => vec![0; bytes],
            2 => vec![0xff; bytes],
            _ => noise(seed + n, bytes),
        };
        let challenge = allowed(&shape, &drawn);
        let count = revealed(&shape, &challenge).len();

        // One allowance too few.
        if count > 1 {
            let tight = Shape {
                t: count - 1,
                ..shape
            };
            let refused = Answer {
                number: 5,
                count: count as u32,
            };
            assert_eq!(opened(tight, &challenge, &signer).0, refused);
            let opening = vec![0; opening_bytes(&tight)];
            let corrections = &signer.corrections;
            let verifier = verify(tight, row_bits, &iv, &challenge, corrections, &opening);
            assert_eq!(verifier.answer, refused);
        }

        // Just enough, and more than enough.
        for t in [count, count + 3] {
            let shape = Shape { t, ..shape };
            let (answer, opening) = opened(shape, &challenge, &signer);
            assert_eq!(answer, Answer::done(count), "{shape:?}");
            let corrections = &signer.corrections;
            let verifier = verify(shape, row_bits, &iv, &challenge, corrections, &opening);
            assert_eq!(verifier.answer, Answer::done(count), "{shape:?}");
            assert_eq!(verifier.commitment, signer.commitment, "{shape:?}");
            assert_eq!(verifier.coms, signer.coms, "{shape:?}");
            for (node, covered) in covered(&shape, &challenge).into_iter().enumerate() {
                let place = bytes * node..bytes * node + bytes;
                let expected = match covered {
                    true => &vec![0; bytes],
                    false => &signer.tree[place.clone()],
                };
                assert_eq!(&verifier.tree[place], expected, "{shape:?} node {node}");
            }
            for j in 0..level {
                let place = b * j..b * (j + 1);
                let v = signer.v[place.clone()].to_vec();
                let expected = match bit(&challenge, j) {
                    true => xor(&v, &signer.u),
                    false => v,
                };
                assert_eq!(verifier.q[place], expected, "{shape:?} column {j}");
            }
        }
    }
}

#[test]
fn small_shapes() {
    round_trip(1, 1, 127, 8, 4);
    round_trip(1, 5, 123, 72, 8);
    round_trip(2, 2, 124, 128, 16);
    round_trip(3, 1, 125, 1680, 8);
    round_trip(5, 6, 98, 200, 8);
    round_trip(13, 3, 89, 264, 8);
    round_trip(31, 1, 97, 16, 8);
    round_trip(32, 4, 0, 136, 8);
}

#[test]
fn two_depths() {
    round_trip(2, 1, 125, 128, 16);
    round_trip(3, 1, 123, 72, 16);
    round_trip(7, 2, 110, 136, 8);
    round_trip(31, 2, 36, 16, 4);
    round_trip(32, 3, 1, 264, 4);
    round_trip(16, 7, 8, 1680, 3);
    round_trip(2, 11, 105, 24, 3);
    round_trip(10, 11, 9, 24, 1);
}

#[test]
fn levels_192_and_256() {
    for (tau, k, w, level, row_bits, challenges) in [
        (32, 2, 127, 192, 8, 8),
        (16, 4, 127, 192, 136, 4),
        (32, 6, 0, 192, 72, 3),
        (24, 7, 8, 192, 3088, 1),
        (6, 11, 125, 192, 16, 1),
        (32, 4, 127, 256, 8, 8),
        (16, 8, 127, 256, 136, 1),
        (31, 6, 69, 256, 24, 2),
        (32, 7, 8, 256, 3888, 1),
    ] {
        round_trip_of(Shape::at_level(tau, k, w, 512, level), row_bits, challenges);
    }
}

#[test]
fn even_mansour_leaves() {
    for (tau, k, w, level, row_bits, challenges) in [
        (1, 1, 127, 128, 8, 4),
        (2, 2, 124, 128, 128, 16),
        (3, 1, 123, 128, 72, 16),
        (32, 3, 1, 128, 264, 4),
        (16, 7, 8, 128, 1360, 2),
        (32, 2, 127, 192, 8, 8),
        (24, 7, 8, 192, 2320, 1),
        (32, 4, 127, 256, 136, 8),
        (32, 7, 8, 256, 3472, 1),
    ] {
        let shape = Shape::of_kind(tau, k, w, 512, level, 1);
        round_trip_of(shape, row_bits, challenges);
    }
}

#[test]
fn even_mansour_leaves_by_their_definition() {
    // The seed of a leaf is its key: u is the xor of the rows of the keys, and its
    // commitment is twice the level from the key, with the tweak i + L - 1.
    for (tau, k, w, level) in [(3, 4, 116, 128), (32, 2, 127, 192)] {
        let shape = Shape::of_kind(tau, k, w, 512, level, 1);
        let iv: Block = noise(21, 16).try_into().unwrap();
        let (l, n) = (leaves(&shape), level / 8);
        let signer = sign(shape, 400, &noise(20, n), &iv);
        let mut u = vec![0; 50];
        for j in 0..shape.entries(0) {
            let near = 1 << k;
            let place = match j < near {
                true => tau * j,
                false => tau * near + (j - near),
            };
            let at = n * (l - 1 + place);
            let key = &signer.tree[at..at + n];
            u = xor(&u, &prg(key, &iv, 0x8000_0000, 400));
            let com = &signer.coms[2 * n * j..2 * n * (j + 1)];
            assert_eq!(com, prg(key, &iv, (l - 1) as u32, 2 * level));
        }
        assert_eq!(signer.u, u);
    }
}

#[test]
fn rows_of_every_remainder() {
    // 1 to 33 bytes: whole blocks and every uneven last block.
    for b in 1..=33 {
        round_trip(2, 1, 126, 8 * b, 2);
    }
}

#[test]
fn longest_rows() {
    round_trip(4, 2, 120, 65_536, 4);
}

#[test]
fn large_shapes() {
    round_trip(16, 8, 0, 1680, 3);
    round_trip(11, 11, 7, 1680, 1);
    round_trip(10, 12, 8, 24, 1);
    round_trip(1, 12, 116, 24, 3);
}

#[test]
fn vectors_do_not_share_their_leaves() {
    // No two nodes, no two leaf commitments and no two columns are alike.
    let shape = Shape::new(7, 3, 107, 512);
    let signer = sign(shape, 1680, &noise(30, 16), &noise(31, 16));
    let distinct = |bytes: &[u8], size: usize| {
        let mut parts: Vec<&[u8]> = bytes.chunks_exact(size).collect();
        parts.sort_unstable();
        parts.dedup();
        parts.len()
    };
    assert_eq!(distinct(&signer.tree, 16), 2 * 56 - 1);
    assert_eq!(distinct(&signer.coms, 48), 56);
    // The 21 columns and the zero one.
    assert_eq!(distinct(&signer.v, 210), 22);
    assert_eq!(distinct(&signer.corrections, 210), 6);
    assert!(signer.v[21 * 210..].iter().all(|&byte| byte == 0));
}

#[test]
fn columns_by_their_definition() {
    // Column j of vector i is the xor of the rows whose entry has bit j set, u
    // is the xor of all rows of vector 0, correction i that of u_0 and u_i. The
    // seed of a leaf is the first 16 bytes it is stretched to.
    let (shape, row_bits) = (Shape::new(3, 4, 116, 512), 200);
    let iv: Block = noise(21, 16).try_into().unwrap();
    let signer = sign(shape, row_bits, &noise(20, 16), &iv);
    let l = 3 << 4;
    let row = |i: usize, j: usize| {
        let at = 16 * (l - 1 + 3 * j + i);
        let leaf = &signer.tree[at..at + 16];
        let seed = prg(leaf, &iv, (i + l - 1) as u32, 128);
        prg(&seed, &iv, i as u32 + 0x8000_0000, row_bits)
    };
    let sum = |i: usize, chosen: &dyn Fn(usize) -> bool| {
        let rows = (0..16).filter(|&j| chosen(j)).map(|j| row(i, j));
        rows.fold(vec![0; 25], |sum, row| xor(&sum, &row))
    };
    assert_eq!(signer.u, sum(0, &|_| true));
    for i in 0..3 {
        for j in 0..4 {
            let at = 25 * (4 * i + j);
            assert_eq!(signer.v[at..at + 25], sum(i, &|entry| entry >> j & 1 == 1));
        }
        if i > 0 {
            let at = 25 * (i - 1);
            let expected = xor(&signer.u, &sum(i, &|_| true));
            assert_eq!(signer.corrections[at..at + 25], expected);
        }
    }
}

#[test]
fn opening_of_any_tree() {
    // The tree and the leaf commitments are noise: the opening is parts of them
    // in their order, whatever else is in the tree.
    let shape = Shape::new(9, 5, 83, 60);
    let l = 9 << 5;
    let challenge = allowed(&shape, &noise(40, 16));
    let mut signer = Signer {
        commitment: vec![],
        tree: noise(41, 16 * (2 * l - 1)),
        coms: noise(42, 48 * l),
        u: vec![],
        v: vec![],
        corrections: vec![],
    };
    let hidden = indices(&shape, &challenge);
    let nodes = revealed(&shape, &challenge);
    let com = |i: usize| 48 * (32 * i + hidden[i]);
    let mut expected = Vec::new();
    for i in 0..9 {
        expected.extend_from_slice(&signer.coms[com(i)..com(i) + 48]);
    }
    for node in &nodes {
        expected.extend_from_slice(&signer.tree[16 * node..16 * node + 16]);
    }
    assert!(nodes.len() < 60);
    expected.resize(48 * 9 + 16 * 60, 0);
    let (answer, opening) = opened(shape, &challenge, &signer);
    assert_eq!(answer, Answer::done(nodes.len()));
    assert_eq!(opening, expected);

    // Another signer that agrees on just these parts.
    for node in (0..2 * l - 1).filter(|node| !nodes.contains(node)) {
        signer.tree[16 * node..16 * node + 16].fill(0xee);
    }
    for (n, part) in signer.coms.chunks_exact_mut(48).enumerate() {
        if hidden[n / 32] != n % 32 {
            part.fill(0xee);
        }
    }
    let again = opened(shape, &challenge, &signer);
    assert_eq!(again, (answer, expected));
}

#[test]
fn reconstruction_of_any_opening() {
    // The opening and the corrections are noise.
    let (shape, row_bits) = (Shape::new(6, 4, 104, 64), 136);
    let iv = noise(50, 16);
    let challenge = allowed(&shape, &noise(51, 16));
    let hidden = indices(&shape, &challenge);
    let nodes = revealed(&shape, &challenge);
    let mut opening = noise(52, 48 * 6 + 16 * nodes.len());
    opening.resize(48 * 6 + 16 * 64, 0);
    let corrections = noise(53, 5 * 17);
    let made = verify(shape, row_bits, &iv, &challenge, &corrections, &opening);
    assert_eq!(made.answer, Answer::done(nodes.len()));

    // Revealed nodes and hidden leaf commitments are those of the opening.
    for (n, node) in nodes.iter().enumerate() {
        let at = 48 * 6 + 16 * n;
        assert_eq!(
            made.tree[16 * node..16 * node + 16],
            opening[at..at + 16],
            "node {node}"
        );
    }
    for i in 0..6 {
        let at = 48 * (16 * i + hidden[i]);
        assert_eq!(made.coms[at..at + 48], opening[48 * i..48 * i + 48]);
    }
    for (node, covered) in covered(&shape, &challenge).into_iter().enumerate() {
        let zero = made.tree[16 * node..16 * node + 16] == [0; 16];
        assert_eq!(zero, covered, "node {node}");
    }

    // The commitment is SHAKE128 twice, with the byte 1 after the message.
    let hash = |message: &[u8]| shake128(&[message, &[1]].concat(), 32);
    let answers: Vec<Vec<u8>> = made.coms.chunks_exact(48 * 16).map(hash).collect();
    assert_eq!(made.commitment, hash(&answers.concat()));

    // A correction enters the columns of its vector whose bit is 1, only Q
    // depends on it, and vector 0 has none.
    let plain = verify(shape, row_bits, &iv, &challenge, &[0; 5 * 17], &opening);
    assert_eq!(plain.commitment, made.commitment);
    assert_eq!((&plain.tree, &plain.coms), (&made.tree, &made.coms));
    for j in 0..128 {
        let place = 17 * j..17 * j + 17;
        let difference = xor(&plain.q[place.clone()], &made.q[place]);
        let i = j / 4;
        let expected = match (1..6).contains(&i) && bit(&challenge, j) {
            true => corrections[17 * (i - 1)..17 * i].to_vec(),
            false => vec![0; 17],
        };
        assert_eq!(difference, expected, "column {j}");
    }
}

/// Byte by byte: byte p of string c of the stretch is byte f + p of string c.
fn assert_cut(part: &[u8], whole: &[u8], b: usize, z: Stretch) {
    assert_eq!(part.len() * b, whole.len() * z.width);
    for (n, byte) in part.iter().enumerate() {
        let (c, p) = (n / z.width, n % z.width);
        assert_eq!(
            *byte,
            whole[b * c + z.first + p],
            "{z:?} string {c} byte {p}"
        );
    }
}

/// Document 02, E1: a stretch is the same bytes of the whole result, for both
/// halves, and the column rule holds of it.
fn stretches(tau: usize, k: usize, w: usize, b: usize, chosen: &[(usize, usize)]) {
    stretches_of(Shape::new(tau, k, w, 512), b, chosen);
}

fn stretches_of(shape: Shape, b: usize, chosen: &[(usize, usize)]) {
    let Shape { tau, k, level, .. } = shape;
    let seed = (tau << 8 | k) as u64;
    let (root, iv) = (noise(seed, level / 8), noise(seed + 1, 16));
    let challenge = allowed(&shape, &noise(seed + 2, level / 8));
    let whole = sign(shape, 8 * b, &root, &iv);
    let (answer, opening) = opened(shape, &challenge, &whole);
    let corrections = noise(seed + 3, (tau - 1) * b);
    let remade = verify(shape, 8 * b, &iv, &challenge, &corrections, &opening);
    assert_eq!(remade.answer, answer);
    for &(first, width) in chosen {
        let z = Stretch::new(first, width);
        let part = sign_stretch(shape, 8 * b, z, &root, &iv);
        assert_eq!(part.commitment, whole.commitment);
        assert_eq!((&part.tree, &part.coms), (&whole.tree, &whole.coms));
        assert_cut(&part.u, &whole.u, b, z);
        assert_cut(&part.v, &whole.v, b, z);
        assert_cut(&part.corrections, &whole.corrections, b, z);

        // Corrections that are noise: those of the stretch are all that is lent.
        let cut: Vec<u8> = corrections
            .chunks_exact(b)
            .flat_map(|correction| correction[first..first + width].to_vec())
            .collect();
        let made = verify_stretch(shape, 8 * b, z, &iv, &challenge, &cut, &opening);
        assert_eq!(made.answer, answer);
        assert_eq!(made.commitment, remade.commitment);
        assert_eq!((&made.tree, &made.coms), (&remade.tree, &remade.coms));
        assert_cut(&made.q, &remade.q, b, z);

        // The corrections of the signer.
        let cut = &part.corrections;
        let made = verify_stretch(shape, 8 * b, z, &iv, &challenge, cut, &opening);
        for j in 0..level {
            let place = width * j..width * (j + 1);
            let v = part.v[place.clone()].to_vec();
            let expected = match bit(&challenge, j) {
                true => xor(&v, &part.u),
                false => v,
            };
            assert_eq!(made.q[place], expected, "{shape:?} {z:?} column {j}");
        }
    }
}

#[test]
fn stretches_of_short_rows() {
    // Every stretch of rows of 1, 2 and 17 bytes.
    for b in [1, 2, 17] {
        let firsts = (0..b).flat_map(|first| (1..=b - first).map(move |width| (first, width)));
        stretches(3, 1, 123, b, &firsts.collect::<Vec<_>>());
    }
}

#[test]
fn stretches_of_long_rows() {
    const CHOSEN: [(usize, usize); 10] = [
        (0, 210),
        (0, 1),
        (209, 1),
        (5, 20),
        (13, 37),
        (16, 32),
        (15, 1),
        (15, 2),
        (0, 16),
        (200, 10),
    ];
    stretches(1, 1, 127, 210, &CHOSEN);
    stretches(4, 3, 116, 210, &CHOSEN);
    stretches(7, 2, 110, 210, &CHOSEN);
    stretches(16, 7, 8, 210, &[(13, 37)]);
    stretches(2, 2, 124, 8192, &[(0, 16), (8176, 16), (5000, 16)]);
}

#[test]
fn stretches_of_192_and_256() {
    let chosen = [(0, 49), (0, 1), (48, 1), (15, 2), (16, 32), (13, 21)];
    stretches_of(Shape::at_level(32, 2, 127, 512, 192), 49, &chosen);
    stretches_of(Shape::at_level(32, 4, 127, 512, 256), 49, &chosen);
    stretches_of(Shape::of_kind(3, 1, 123, 512, 128, 1), 49, &chosen);
    stretches_of(Shape::of_kind(32, 2, 127, 512, 192, 1), 49, &chosen);
}

#[test]
fn a_stretch_by_its_definition() {
    // Byte p of u is the xor of the bytes f + p of all rows of vector 0.
    let (shape, row_bits) = (Shape::new(3, 4, 116, 512), 400);
    let iv: Block = noise(21, 16).try_into().unwrap();
    let signer = sign_stretch(shape, row_bits, Stretch::new(21, 20), &noise(20, 16), &iv);
    let l = 3 << 4;
    let mut u = vec![0; 20];
    for j in 0..16 {
        let at = 16 * (l - 1 + 3 * j);
        let leaf = &signer.tree[at..at + 16];
        let seed = prg(leaf, &iv, (l - 1) as u32, 128);
        let row = prg(&seed, &iv, 0x8000_0000, row_bits);
        u = xor(&u, &row[21..41]);
    }
    assert_eq!(signer.u, u);
}
