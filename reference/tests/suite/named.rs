//! The profile for named sets: the table beside table 3.2's signature sizes, what is
//! accepted, and where 13 stands among the refusals.

use reference::named::{check_named, SETS};
use reference::record::{check_record, work_lengths};
use reference::shape::{
    Shape, DEFAULT, FAEST_128S, FAEST_192F, FAEST_192S, FAEST_256F, FAEST_256S, FAEST_EM_128F,
    FAEST_EM_128S, FAEST_EM_192F, FAEST_EM_192S, FAEST_EM_256F, FAEST_EM_256S,
};

use crate::records::Signed;

/// Signature sizes in bytes, the last column of table 3.2, by the formula of
/// section 3.1 from the row length.
#[test]
fn the_signature_sizes_come_out_of_the_table() {
    let sizes = [
        4506, 5924, 11260, 14948, 20696, 26548, 3906, 5060, 9340, 12380, 17984, 23476,
    ];
    for (set, size) in SETS.iter().zip(sizes) {
        let opening = set.t * set.lambda + set.blocks * set.lambda * set.tau;
        let bits = set.tau * set.row_bits() + opening + set.lambda + 128 + 32;
        assert_eq!(bits, 8 * size);
    }
}

#[test]
fn the_shapes_are_those_used_elsewhere() {
    let shapes = [
        FAEST_128S,
        DEFAULT,
        FAEST_192S,
        FAEST_192F,
        FAEST_256S,
        FAEST_256F,
        FAEST_EM_128S,
        FAEST_EM_128F,
        FAEST_EM_192S,
        FAEST_EM_192F,
        FAEST_EM_256S,
        FAEST_EM_256F,
    ];
    for (set, shape) in SETS.iter().zip(shapes) {
        assert_eq!(set.shape(), shape);
        assert_eq!(set.shape().resolve(), Some(shape));
    }
}

/// The front of a record of a version.
fn front(version: u8, s: Shape, row_bits: usize) -> Vec<u8> {
    let mut head = vec![s.tau as u8, s.k as u8, s.w as u8];
    head.extend((s.t as u16).to_be_bytes());
    head.extend((row_bits as u32).to_be_bytes());
    head.extend([(s.level / 8) as u8, s.kind as u8]);
    head.truncate(8 + usize::from(version));
    let mut bytes = vec![version, 0, 0, 0, head.len() as u8];
    bytes.extend(head);
    bytes
}

fn number(bytes: &[u8]) -> u32 {
    let answer = check_named(bytes, &mut [], &mut [], &mut []);
    assert_eq!(answer.count, 0);
    answer.number
}

/// The shapes with one number of `s` changed: each by one up and down, the level to
/// each other one, the kind to the other.
fn changed(s: Shape) -> Vec<Shape> {
    let mut all = vec![Shape {
        kind: 1 - s.kind,
        ..s
    }];
    for level in [128, 192, 256]
        .into_iter()
        .filter(|level| *level != s.level)
    {
        all.push(Shape { level, ..s });
    }
    for by in [1, usize::MAX] {
        let moved = |x: usize| x.wrapping_add(by);
        all.extend([
            Shape {
                tau: moved(s.tau),
                ..s
            },
            Shape { k: moved(s.k), ..s },
            Shape { w: moved(s.w), ..s },
            Shape { t: moved(s.t), ..s },
        ]);
    }
    all
}

/// A front alone is 10 where it is named, for what is missing behind it. With one
/// number changed it is 13, or 1 where the numbers are no shape; both come up.
#[test]
fn thirteen_for_each_changed_number() {
    let mut found = [0, 0];
    for set in &SETS {
        let (s, row) = (set.shape(), set.row_bits());
        let version = 2 + s.kind as u8;
        assert_eq!(number(&front(version, s, row)), 10);
        for bits in [row - 8, row + 8, 1680, 3088, 3888, 1360, 2320, 3472] {
            let right = if bits == row { 10 } else { 13 };
            assert_eq!(number(&front(version, s, bits)), right);
        }
        for other in changed(s) {
            let right = if other.resolve().is_some() { 13 } else { 1 };
            assert_eq!(number(&front(2 + other.kind as u8, other, row)), right);
            found[usize::from(right == 1)] += 1;
        }
    }
    // of 132 changed shapes
    assert_eq!(found, [64, 68]);
}

/// A record of a set is accepted, and its bytes are those of `check_record`; with
/// four zeros for FAEST-128f it is 13.
#[test]
fn accepted_as_check_record_accepts() {
    for (shape, row_bits, right) in [
        (DEFAULT, 1680, 0),
        (FAEST_EM_128F, 1360, 0),
        (Shape::new(0, 0, 0, 0), 1680, 13),
        (DEFAULT, 1360, 13),
    ] {
        let bytes = Signed::new(shape, row_bits, &[0; 16]).written();
        let [tree, coms, q] = work_lengths(&bytes).unwrap();
        let mut all = [(); 2].map(|()| [tree, coms, q].map(|length| vec![0x3c; length]));
        let [[tree, coms, q], [tree2, coms2, q2]] = &mut all;
        let checked = check_record(&bytes, tree, coms, q);
        let named = check_named(&bytes, tree2, coms2, q2);
        assert_eq!((checked.number, named.number), (0, right));
        assert_eq!(named.count, if right == 0 { checked.count } else { 0 });
        assert_eq!(all[0] == all[1], right == 0);
        assert_eq!(all[1][0].iter().all(|byte| *byte == 0x3c), right == 13);
    }
}

#[test]
fn zeros_and_versions() {
    let zeros = Shape::new(0, 0, 0, 0);
    for version in [1, 2] {
        assert_eq!(number(&front(version, zeros, 1680)), 13);
        assert_eq!(number(&front(version, DEFAULT, 1680)), 10);
        assert_eq!(number(&front(version, FAEST_128S, 1680)), 10);
        assert_eq!(number(&front(version, FAEST_128S, 1688)), 13);
    }
    assert_eq!(number(&front(3, zeros, 1680)), 1);
}

/// 9, 10, 1 and 2 come before 13, as the check of any record has them.
#[test]
fn the_front_comes_first() {
    let wrong = Shape::new(2, 2, 124, 4);
    let good = front(2, wrong, 8);
    assert_eq!(number(&good), 13);
    let tau = Shape { tau: 33, ..wrong };
    for (bytes, right) in [
        (vec![], 9),
        (vec![4], 9),
        (good[..14].to_vec(), 10),
        (front(2, tau, 7), 1),
        (front(2, wrong, 7), 2),
    ] {
        assert_eq!(number(&bytes), right);
        assert_eq!(
            check_record(&bytes, &mut [], &mut [], &mut []).number,
            right
        );
    }
}
