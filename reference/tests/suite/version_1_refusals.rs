//! The refusals of version 1 (document 02, E12): each of them, their order, and that
//! nothing is written.

use reference::calls::Answer;
use reference::shape::Shape;
use reference::v1::{commit, open, reconstruct};

use crate::support::{leaves, noise};

/// All that a call is lent.
#[derive(Clone, PartialEq, Debug)]
struct Lent {
    shape: Shape,
    row_bits: usize,
    read: Vec<Vec<u8>>,
    written: Vec<Vec<u8>>,
}

/// A call, and the lengths of what it reads and writes for a shape and rows of b bytes.
struct Call {
    name: &'static str,
    read: fn(&Shape, usize) -> Vec<usize>,
    written: fn(&Shape, usize) -> Vec<usize>,
    make: fn(&mut Lent) -> Answer,
    checks_rows: bool,
}

fn node(shape: &Shape) -> usize {
    shape.level / 8
}

/// Commitment, trees and leaf commitments.
fn of_vectors(shape: &Shape) -> Vec<usize> {
    let (n, l) = (node(shape), leaves(shape));
    vec![2 * n, n * (2 * l - shape.tau), 2 * n * l]
}

fn opening(shape: &Shape) -> usize {
    node(shape) * (shape.level + 2 * shape.tau)
}

fn make_commit(lent: &mut Lent) -> Answer {
    let [commitment, trees, coms, u, v, corrections] = &mut lent.written[..] else {
        unreachable!()
    };
    commit(
        lent.shape,
        lent.row_bits,
        &lent.read[0],
        &lent.read[1],
        commitment,
        trees,
        coms,
        u,
        v,
        corrections,
    )
}

fn make_open(lent: &mut Lent) -> Answer {
    let [challenge, trees, coms] = &lent.read[..] else {
        unreachable!()
    };
    open(lent.shape, challenge, trees, coms, &mut lent.written[0])
}

fn make_reconstruct(lent: &mut Lent) -> Answer {
    let [commitment, trees, coms, q] = &mut lent.written[..] else {
        unreachable!()
    };
    reconstruct(
        lent.shape,
        lent.row_bits,
        &lent.read[0],
        &lent.read[1],
        &lent.read[2],
        &lent.read[3],
        commitment,
        trees,
        coms,
        q,
    )
}

const CALLS: [Call; 3] = [
    Call {
        name: "commit",
        read: |shape, _| vec![node(shape), 16],
        written: |shape, b| {
            let rows = vec![b, shape.level * b, (shape.tau - 1) * b];
            [of_vectors(shape), rows].concat()
        },
        make: make_commit,
        checks_rows: true,
    },
    Call {
        name: "open",
        read: |shape, _| [vec![node(shape)], of_vectors(shape)[1..].to_vec()].concat(),
        written: |shape, _| vec![opening(shape)],
        make: make_open,
        checks_rows: false,
    },
    Call {
        name: "reconstruct",
        read: |shape, b| vec![16, node(shape), (shape.tau - 1) * b, opening(shape)],
        written: |shape, b| [of_vectors(shape), vec![shape.level * b]].concat(),
        make: make_reconstruct,
        checks_rows: true,
    },
];

const SHAPES: [Shape; 3] = [
    Shape::at_level(32, 4, 0, 1, 128),
    Shape::at_level(29, 6, 0, 1, 192),
    Shape::at_level(32, 8, 0, 1, 256),
];

/// Every shape with every call.
fn pairs() -> impl Iterator<Item = (Shape, &'static Call)> {
    let with = |shape: &'static Shape| CALLS.iter().map(move |call| (*shape, call));
    SHAPES.iter().flat_map(with)
}

/// Buffers of the exact lengths, for rows of 3 bytes.
fn lend(shape: Shape, call: &Call) -> Lent {
    let bytes = |lengths: Vec<usize>, seed: u64| -> Vec<Vec<u8>> {
        let seeds = seed..;
        lengths
            .into_iter()
            .zip(seeds)
            .map(|(n, seed)| noise(seed, n))
            .collect()
    };
    Lent {
        shape,
        row_bits: 24,
        read: bytes((call.read)(&shape, 3), 1),
        written: bytes((call.written)(&shape, 3), 100),
    }
}

/// Makes the call. The answer must have this number and count 0; with a refusal all
/// that was lent must be as it was, with 0 every output must be another.
fn expect(call: &Call, lent: &Lent, number: u32, what: &str) {
    let mut after = lent.clone();
    let answer = (call.make)(&mut after);
    assert_eq!(answer, Answer { number, count: 0 }, "{} {what}", call.name);
    if number == 0 {
        for (new, old) in after.written.iter().zip(&lent.written) {
            assert_ne!(new, old, "{} {what}", call.name);
        }
    } else {
        assert_eq!(after, *lent, "{} {what}", call.name);
    }
}

#[test]
fn every_set_of_conditions() {
    for (shape, call) in pairs() {
        for set in 0..8u32 {
            let mut lent = lend(shape, call);
            let [one, two, three] = [0, 1, 2].map(|n| set >> n & 1 == 1);
            if three {
                lent.written[0].push(0);
            }
            if two {
                lent.row_bits = 20;
            }
            if one {
                lent.shape.k += 1;
            }
            let number = match (one, two && call.checks_rows, three) {
                (true, _, _) => 1,
                (_, true, _) => 2,
                (_, _, true) => 3,
                _ => 0,
            };
            expect(call, &lent, number, &format!("{one} {two} {three}"));
        }
    }
}

#[test]
fn every_buffer_has_its_exact_length() {
    let changes: [fn(usize) -> usize; 4] = [|n| n - 1, |n| n + 1, |_| 0, |n| 2 * n];
    for (shape, call) in pairs() {
        let lent = lend(shape, call);
        for change in changes {
            for n in 0..lent.read.len() {
                let mut other = lent.clone();
                let length = change(other.read[n].len());
                other.read[n].resize(length, 0);
                expect(call, &other, 3, &format!("read {n}, {length} bytes"));
            }
            for n in 0..lent.written.len() {
                let mut other = lent.clone();
                let length = change(other.written[n].len());
                other.written[n].resize(length, 0x77);
                expect(call, &other, 3, &format!("written {n}, {length} bytes"));
            }
        }
    }
}

#[test]
fn shapes_that_are_refused() {
    for (shape, call) in pairs() {
        let mut lent = lend(shape, call);
        let Shape {
            tau,
            k,
            w,
            t,
            level,
            kind,
        } = shape;
        let mut others = Vec::new();
        others.extend([1, 8, 127, 128, usize::MAX].map(|w| Shape { w, ..shape }));
        others.extend([0, 2, 110, 512, usize::MAX].map(|t| Shape { t, ..shape }));
        others.extend([1, 2, 256, usize::MAX].map(|kind| Shape { kind, ..shape }));
        others.extend([0, k - 1, k + 1, 13].map(|k| Shape { k, ..shape }));
        others.extend([0, 10, 33, usize::MAX].map(|tau| Shape { tau, ..shape }));
        others.extend([0, 16, 129, 160, 384].map(|level| Shape { level, ..shape }));
        others.extend([128, 192, 256].map(|level| Shape::at_level(0, 0, 0, 0, level)));
        others.extend([128, 192, 256].map(|level| Shape::at_level(0, 0, 0, 1, level)));
        others.push(Shape::at_level(tau, k - 1, tau, t, level));
        assert_eq!((w, kind), (0, 0));
        for other in others {
            lent.shape = other;
            lent.row_bits = 24;
            expect(call, &lent, 1, &format!("{other:?}"));
            lent.row_bits = 12;
            expect(call, &lent, 1, &format!("{other:?}, rows of 12 bits"));
        }
    }
}

#[test]
fn the_other_sets_of_version_2() {
    // Each of table 3.2 has another w and T; with these changed k does not fit, or does.
    use reference::shape::{DEFAULT, FAEST_128S, FAEST_192F, FAEST_192S, FAEST_256F, FAEST_256S};
    let sets = [
        DEFAULT, FAEST_128S, FAEST_192F, FAEST_192S, FAEST_256F, FAEST_256S,
    ];
    for set in sets {
        for changed in [set, Shape { t: 1, ..set }, Shape { w: 0, ..set }] {
            assert_eq!(reference::v1::meant(changed), None);
        }
        let fits = set.k == set.level / set.tau;
        let changed = Shape { w: 0, t: 1, ..set };
        assert_eq!(reference::v1::meant(changed).is_some(), fits);
    }
}

#[test]
fn the_shapes_of_version_1() {
    // For each number of vectors the one depth there is; the fewest vectors are 11, 16
    // and 22.
    for (level, fewest) in [(128, 11), (192, 16), (256, 22)] {
        for tau in 0..40 {
            let found: Vec<usize> = (0..20)
                .filter(|k| reference::v1::meant(Shape::at_level(tau, *k, 0, 1, level)).is_some())
                .collect();
            match (fewest..=32).contains(&tau) {
                true => assert_eq!(found, [level / tau], "{tau} vectors at {level}"),
                false => assert!(found.is_empty(), "{tau} vectors at {level}"),
            }
        }
    }
}

#[test]
fn row_lengths_that_are_refused() {
    for (shape, call) in pairs().filter(|(_, call)| call.checks_rows) {
        let mut lent = lend(shape, call);
        for row_bits in [
            0,
            1,
            7,
            9,
            23,
            25,
            65535,
            65537,
            65544,
            1 << 32,
            usize::MAX - 7,
        ] {
            lent.row_bits = row_bits;
            expect(call, &lent, 2, &format!("rows of {row_bits} bits"));
        }
        // Allowed, but not those of these buffers.
        for row_bits in [8, 16, 32, 65536] {
            lent.row_bits = row_bits;
            expect(call, &lent, 3, &format!("rows of {row_bits} bits"));
        }
    }
}

#[test]
fn every_challenge_is_taken() {
    // No grinding bits and no node allowance.
    for (shape, call) in pairs().filter(|(_, call)| call.name != "commit") {
        let mut lent = lend(shape, call);
        let place = usize::from(call.name == "reconstruct");
        for byte in [0x00, 0x55, 0x80, 0xff] {
            lent.read[place].fill(byte);
            expect(call, &lent, 0, &format!("challenge of {byte}"));
        }
    }
}
