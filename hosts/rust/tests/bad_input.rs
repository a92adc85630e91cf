//! Bad input through the typed calls: slices of no bytes, a byte too short and too long, and numbers up to 2^63 and beyond the largest product. Each is answered by its
//! refusal, and no buffer changes. A slice of 2^63 bytes cannot be in Rust, and a null pointer neither: hosts in C and Python try those.

use rachnoel::{v1, Check, Commit, Decode, Open, Plan, Reconstruct, Refusal, Shape, WriteRecord, FAEST_128F};

const SHAPE: Shape = Shape::new(2, 2, 124, 4, 128);
const ODD: [usize; 5] = [0, 12, 65_544, 1 << 57, 1 << 63];

fn fresh(n: usize) -> Vec<u8> {
    vec![0xa5; n]
}

/// The call with the right lengths is accepted; with each of them in turn 0, one less and one more it is refused for its buffer, and nothing is written.
fn each_length<const N: usize>(what: &str, right: [usize; N], call: impl Fn(&mut [Vec<u8>; N]) -> Option<Refusal>) {
    assert_eq!(call(&mut right.map(fresh)), None, "{what}");
    for place in 0..N {
        for other in [0, right[place].wrapping_sub(1), right[place] + 1] {
            if other == right[place] || other == usize::MAX {
                continue;
            }
            let mut lens = right;
            lens[place] = other;
            let mut buffers = lens.map(fresh);
            assert_eq!(call(&mut buffers), Some(Refusal::Buffer), "{what}: buffer {place} of {other}");
            assert!(buffers == lens.map(fresh), "{what}: written");
        }
    }
}

#[test]
fn lengths_of_slices() {
    let n = SHAPE.lengths(1).unwrap();
    each_length("decode", [n.indices], |[indices]| Decode { shape: SHAPE, challenge: &[0; 16], indices }.run().err());
    each_length("plan", [n.nodes], |[nodes]| Plan { shape: SHAPE, challenge: &[0; 16], nodes }.run().err());
    each_length(
        "commit",
        [n.node, n.commitment, n.tree, n.leaf_commitments, n.u, n.matrix, n.corrections],
        |[root, commitment, tree, leaf_commitments, u, v, corrections]| {
            Commit { shape: SHAPE, row_bits: 8, root, iv: &[0; 16], commitment, tree, leaf_commitments, u, v, corrections }.run().err()
        },
    );
    each_length("open", [n.tree, n.leaf_commitments, n.opening], |[tree, leaf_commitments, opening]| {
        Open { shape: SHAPE, challenge: &[0; 16], tree, leaf_commitments, opening }.run().err()
    });
    each_length(
        "reconstruct",
        [n.corrections, n.commitment, n.tree, n.leaf_commitments, n.matrix],
        |[corrections, commitment, tree, leaf_commitments, q]| {
            let opening = vec![0; n.opening];
            Reconstruct { shape: SHAPE, row_bits: 8, iv: &[0; 16], challenge: &[0; 16], corrections, opening: &opening, commitment, tree, leaf_commitments, q }.run().err()
        },
    );
    let length = rachnoel::record_length(SHAPE, 8).unwrap();
    each_length("write_record", [n.node, n.corrections, n.opening, n.commitment, length], |[challenge, corrections, opening, commitment, record]| {
        WriteRecord { shape: SHAPE, row_bits: 8, iv: &[0; 16], challenge, corrections, opening, commitment, record }.run().err()
    });
    let m = v1::lengths(v1::shape(32, 4, 128), 1).unwrap();
    each_length(
        "v1 commit",
        [m.node, m.commitment, m.trees, m.leaf_commitments, m.u, m.matrix, m.corrections],
        |[root, commitment, trees, leaf_commitments, u, v, corrections]| {
            v1::Commit { shape: v1::shape(32, 4, 128), row_bits: 8, root, iv: &[0; 16], commitment, trees, leaf_commitments, u, v, corrections }.run().err()
        },
    );
    each_length("v1 open", [m.trees, m.leaf_commitments, m.opening], |[trees, leaf_commitments, opening]| {
        v1::Open { shape: v1::shape(32, 4, 128), challenge: &[0; 16], trees, leaf_commitments, opening }.run().err()
    });
    each_length(
        "v1 reconstruct",
        [m.corrections, m.opening, m.commitment, m.trees, m.leaf_commitments, m.matrix],
        |[corrections, opening, commitment, trees, leaf_commitments, q]| {
            v1::Reconstruct {
                shape: v1::shape(32, 4, 128), row_bits: 8, iv: &[0; 16], challenge: &[0; 16], corrections, opening, commitment, trees, leaf_commitments, q,
            }.run().err()
        },
    );
}

/// The test above can fail: a call that is lent a wrong length for right is not accepted.
#[test]
#[should_panic(expected = "left: Some(Buffer)")]
fn a_wrong_length_is_found() {
    each_length("plan", [17], |[nodes]| Plan { shape: SHAPE, challenge: &[0; 16], nodes }.run().err());
}

#[test]
fn records() {
    let mut record = vec![0; rachnoel::record_length(SHAPE, 8).unwrap()];
    let n = SHAPE.lengths(1).unwrap();
    WriteRecord {
        shape: SHAPE, row_bits: 8, iv: &[0; 16], challenge: &[0; 16], corrections: &[0; 1], opening: &vec![0; n.opening], commitment: &[0; 32], record: &mut record,
    }.run().unwrap();
    let w = rachnoel::work_lengths(&record).unwrap();
    let check = |record: &[u8], lens: [usize; 3], named: bool| {
        let mut work = lens.map(fresh);
        let [tree, leaf_commitments, q] = &mut work;
        let call = Check { record, tree, leaf_commitments, q };
        let refused = if named { call.named() } else { call.any_shape() }.unwrap_err();
        assert!(work == lens.map(fresh) || matches!(refused, Refusal::Mismatch(_)), "written with {refused}");
        refused
    };
    let right = [w.tree, w.leaf_commitments, w.q];
    assert!(matches!(check(&record, right, false), Refusal::Mismatch(_)));
    assert_eq!(check(&record, right, true), Refusal::NotNamed);
    assert_eq!(check(&[], right, false), Refusal::Version);
    assert_eq!(check(&record[..record.len() - 1], right, false), Refusal::Field);
    record.push(0);
    assert_eq!(check(&record, right, false), Refusal::Field);
    record.pop();
    for place in 0..3 {
        for other in [0, right[place] - 1, right[place] + 1] {
            let mut lens = right;
            lens[place] = other;
            assert_eq!(check(&record, lens, false), Refusal::Buffer);
        }
    }
}

#[test]
fn numbers() {
    let none = || (Vec::new(), Vec::new(), Vec::new(), Vec::new());
    for row_bits in ODD {
        let (mut a, mut b, mut c, mut d) = none();
        let call = Reconstruct {
            shape: SHAPE, row_bits, iv: &[0; 16], challenge: &[0; 16], corrections: &[], opening: &[], commitment: &mut a, tree: &mut b, leaf_commitments: &mut c, q: &mut d,
        };
        assert_eq!(call.run(), Err(Refusal::Row));
        assert_eq!(rachnoel::record_length(SHAPE, row_bits), Err(Refusal::Row));
    }
    for width in [0, 2, 1 << 63, usize::MAX] {
        let (mut a, mut b, mut c, mut d) = none();
        let call = Reconstruct {
            shape: SHAPE, row_bits: 8, iv: &[0; 16], challenge: &[0; 16], corrections: &[], opening: &[], commitment: &mut a, tree: &mut b, leaf_commitments: &mut c, q: &mut d,
        };
        assert_eq!(call.stretch(0, width), Err(Refusal::Stretch));
    }
    for large in [1 << 57, 1 << 63, usize::MAX] {
        for shape in [Shape { tau: large, ..SHAPE }, Shape { k: large, ..SHAPE }, Shape { w: large, ..SHAPE }, Shape { t: large, ..SHAPE }, Shape { level: large, ..SHAPE }, Shape { kind: large, ..SHAPE }] {
            assert_eq!(Plan { shape, challenge: &[0; 16], nodes: &mut [] }.run(), Err(Refusal::Shape));
            assert_eq!(shape.lengths(1), None);
        }
    }
    for row_bytes in [8193, 1 << 57, 1 << 63, usize::MAX] {
        assert_eq!((FAEST_128F.shape.lengths(row_bytes), v1::lengths(v1::FAEST_128F, row_bytes)), (None, None));
    }
    assert!(FAEST_128F.shape.lengths(8192).is_some());
}

/// Every number has its refusal, with its text, and back.
#[test]
fn refusals() {
    for number in 0..20 {
        let refusal = Refusal::of(number, 3);
        assert_eq!(refusal.is_some(), [1, 2, 3, 4, 5, 6, 8, 9, 10, 11, 13].contains(&number));
        let Some(refusal) = refusal else { continue };
        assert_eq!(refusal.number(), number);
        assert!(refusal.to_string().starts_with(&format!("refused {number} ")) && refusal.to_string().contains(": "));
    }
}

/// What is printed of a call that holds secrets has none of their bytes.
#[test]
fn secrets_are_not_printed() {
    let (mut commitment, mut tree, mut lcs, mut u, mut v, mut corrections) = (fresh(32), fresh(240), fresh(384), fresh(1), fresh(128), fresh(1));
    let root = [0x5b; 16];
    let call = Commit {
        shape: SHAPE,
        row_bits: 8,
        root: &root,
        iv: &[7; 16],
        commitment: &mut commitment,
        tree: &mut tree,
        leaf_commitments: &mut lcs,
        u: &mut u,
        v: &mut v,
        corrections: &mut corrections,
    };
    let text = format!("{call:?}");
    assert!(text.starts_with("Commit { shape: ") && !text.contains("91, 91") && !text.contains("165"), "{text}");
}
