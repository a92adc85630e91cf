//! The limits on shapes and row lengths.

use reference::calls::{commit, decode, open, plan, reconstruct, Answer};
use reference::shape::Shape;

/// The numbers of the five calls for a shape, all with empty buffers: 1 where
/// the shape is refused, otherwise 2 or 3.
fn numbers(shape: Shape) -> [u32; 5] {
    let none = || Vec::<u8>::new();
    let (mut a, mut b, mut c, mut d, mut e, mut f) =
        (none(), none(), none(), none(), none(), none());
    let answers: [Answer; 5] = [
        decode(shape, &[], &mut []),
        plan(shape, &[], &mut []),
        commit(
            shape,
            0,
            &[],
            &[],
            &mut a,
            &mut b,
            &mut c,
            &mut d,
            &mut e,
            &mut f,
        ),
        open(shape, &[], &[], &[], &mut a),
        reconstruct(shape, 0, &[], &[], &[], &[], &mut a, &mut b, &mut c, &mut d),
    ];
    assert!(answers.iter().all(|answer| answer.count == 0));
    answers.map(|answer| answer.number)
}

const REFUSED: [u32; 5] = [1; 5];
const NOT_REFUSED: [u32; 5] = [3, 3, 2, 3, 2];

#[test]
fn shapes_of_the_paper() {
    for (tau, k, w, t) in [
        (0, 0, 0, 0),
        (11, 11, 7, 102),
        (32, 4, 0, 512),
        (1, 1, 127, 1),
        (10, 12, 8, 512),
        (1, 12, 116, 1),
        (32, 1, 96, 1),
        (16, 8, 0, 110),
        (16, 7, 8, 110),
        (11, 11, 6, 102),
        (10, 11, 9, 512),
    ] {
        let shape = Shape::new(tau, k, w, t);
        assert_eq!(numbers(shape), NOT_REFUSED, "{shape:?}");
    }
    for (tau, k, w, t) in [
        (33, 1, 95, 512),
        (33, 3, 29, 102),
        (1, 13, 115, 1),
        (9, 13, 11, 102),
        (11, 11, 7, 0),
        (11, 11, 7, 513),
        (10, 11, 8, 512),
        (10, 12, 7, 512),
        (11, 11, 8, 102),
        (1, 1, 128, 1),
        (0, 11, 128, 102),
        (0, 11, 127, 102),
        (11, 0, 128, 102),
        (11, 0, 127, 102),
        (0, 0, 0, 102),
        (0, 0, 128, 0),
        (0, 0, 127, 1),
        (0, 1, 0, 0),
        (1, 0, 0, 0),
        (12, 11, 0, 102),
    ] {
        let shape = Shape::new(tau, k, w, t);
        assert_eq!(numbers(shape), REFUSED, "{shape:?}");
    }
}

/// How many shapes with numbers up to 140 and these T there are at a level and of a
/// kind.
fn allowed(level: usize, kind: usize, allowances: &[usize]) -> usize {
    let mut allowed = 0;
    for tau in 0..=140 {
        for k in 0..=140 {
            for w in 0..=140 {
                for &t in allowances {
                    if Shape::of_kind(tau, k, w, t, level, kind)
                        .resolve()
                        .is_some()
                    {
                        allowed += 1;
                    }
                }
            }
        }
    }
    allowed
}

#[test]
fn how_many_shapes_there_are() {
    // 2980 triples of τ up to 32, k up to 12 and w up to 127 leave r from 0 to
    // τ - 1, and 0 where k is 12 (python3: sum(0 <= 128 - w - t * k < t and
    // (128 - w == t * k or k < 12) for t in range(1, 33) for k in range(1, 13)
    // for w in range(128))), and 2796 and 2112 with 192 and 256 for 128; two of
    // the four T are allowed; and at 128 of kind 0 there are the zeros.
    let allowances = [0, 1, 512, 513];
    for (kind, zeros) in [(0, 1), (1, 0)] {
        assert_eq!(allowed(128, kind, &allowances), 2 * 2980 + zeros);
        assert_eq!(allowed(192, kind, &allowances), 2 * 2796);
        assert_eq!(allowed(256, kind, &allowances), 2 * 2112);
    }
    for (level, kind) in [(128, 2), (192, 2), (256, 255), (160, 1)] {
        assert_eq!(allowed(level, kind, &[0, 1]), 0, "{level} {kind}");
    }
    for level in [0, 8, 16, 24, 32, 64, 127, 129, 160, 224, 384] {
        assert_eq!(allowed(level, 0, &[0, 1]), 0, "{level}");
    }
}

/// 64 bits more are at least two more for each of at most 32 vectors.
#[test]
fn no_numbers_are_a_shape_of_two_levels() {
    for tau in 1..=32 {
        for k in 1..=12 {
            for w in 0..=127 {
                let levels = [128, 192, 256].map(|level| Shape::at_level(tau, k, w, 1, level));
                let shapes = levels.iter().filter(|shape| shape.resolve().is_some());
                assert!(shapes.count() <= 1, "{tau} {k} {w}");
            }
        }
    }
}

#[test]
fn shapes_of_192_and_256() {
    for (tau, k, w, t, level) in [
        (16, 11, 12, 162, 192),
        (24, 7, 8, 163, 192),
        (22, 11, 6, 245, 256),
        (32, 7, 8, 246, 256),
        // The fewest leaves, the most of each number, and sets that document 000
        // has not.
        (32, 2, 127, 1, 192),
        (32, 6, 0, 512, 192),
        (16, 12, 0, 1, 192),
        (6, 11, 125, 1, 192),
        (6, 12, 120, 512, 192),
        (32, 4, 127, 1, 256),
        (32, 8, 0, 512, 256),
        (21, 12, 4, 1, 256),
        (11, 12, 124, 1, 256),
        (22, 11, 14, 512, 256),
    ] {
        let shape = Shape::at_level(tau, k, w, t, level);
        assert_eq!(numbers(shape), NOT_REFUSED, "{shape:?}");
        for kind in [1, 2, 3, 255, 256, 257, 1 << 32, (1 << 32) + 1, usize::MAX] {
            let expected = if kind == 1 { NOT_REFUSED } else { REFUSED };
            assert_eq!(numbers(Shape { kind, ..shape }), expected, "{kind}");
        }
        for other in [0, 128, 192, 256, level - 1, level + 1, level / 8, 8 * level] {
            let moved = Shape {
                level: other,
                ..shape
            };
            if other != level {
                assert_eq!(numbers(moved), REFUSED, "{moved:?}");
            }
        }
    }
    for (tau, k, w, t, level) in [
        (0, 0, 0, 0, 0),
        (0, 0, 0, 0, 127),
        (0, 0, 0, 0, 160),
        (0, 0, 0, 0, 192),
        (0, 0, 0, 0, 256),
        (0, 0, 0, 0, usize::MAX),
        (0, 0, 0, 1, 192),
        // w above 127, depths above 12, sums that miss the level by one.
        (32, 2, 128, 1, 192),
        (32, 4, 128, 1, 256),
        (8, 8, 128, 40, 192),
        (15, 12, 11, 162, 192),
        (21, 12, 3, 245, 256),
        (16, 12, 1, 162, 192),
        (33, 5, 27, 162, 192),
        (33, 7, 25, 245, 256),
        (24, 7, 8, 0, 192),
        (24, 7, 8, 513, 192),
        (24, 8, 8, 163, 192),
        (24, 6, 8, 163, 192),
        // Depths and w add up to the level, which is none.
        (2, 8, 0, 16, 16),
        (2, 12, 0, 24, 24),
        (1, 3, 124, 3, 127),
        (1, 5, 124, 5, 129),
        (4, 9, 124, 36, 160),
        (32, 5, 0, 512, 160),
        (32, 7, 0, 512, 224),
        (32, 12, 0, 512, 384),
        // Numbers modulo a word that would be allowed.
        (24, 7, 8, 163, (1 << 32) + 192),
        (24, 7, 8, 163, (1 << 63) + 192),
        (24, 7, 8, 163, usize::MAX),
        (usize::MAX, usize::MAX, 127, 163, 256),
        (24, 7, (1 << 32) + 8, 163, 192),
    ] {
        let shape = Shape::at_level(tau, k, w, t, level);
        assert_eq!(numbers(shape), REFUSED, "{shape:?}");
        let other = Shape { kind: 1, ..shape };
        assert_eq!(numbers(other), REFUSED, "{other:?}");
    }
}

#[test]
fn shapes_of_the_even_mansour_kind() {
    for (tau, k, w, t, level) in [
        (11, 11, 7, 103, 128),
        (16, 7, 8, 112, 128),
        (16, 11, 8, 162, 192),
        (24, 7, 8, 176, 192),
        (22, 11, 6, 218, 256),
        (32, 7, 8, 234, 256),
        (1, 1, 127, 1, 128),
    ] {
        let shape = Shape::of_kind(tau, k, w, t, level, 1);
        assert_eq!(numbers(shape), NOT_REFUSED, "{shape:?}");
    }
    // Four zeros are no shape of this kind.
    for level in [0, 128, 192, 256] {
        let zeros = Shape::of_kind(0, 0, 0, 0, level, 1);
        assert_eq!(numbers(zeros), REFUSED, "{zeros:?}");
    }
    let zeros = Shape::of_kind(0, 0, 0, 0, 128, 2);
    assert_eq!(numbers(zeros), REFUSED);
}

#[test]
fn numbers_of_any_size() {
    let huge = usize::MAX;
    for (tau, k, w, t) in [
        (huge, huge, huge, huge),
        (huge, 11, 7, 102),
        (11, huge, 7, 102),
        (11, 11, huge, 102),
        (11, 11, 7, huge),
        // τ × k + w is 128 modulo the word.
        (huge, 2, 130, 102),
        (2, huge, 130, 102),
        (huge, huge, 127, 102),
        ((1 << 63) + 11, 2, 106, 102),
        (64, huge / 64 + 3, 0, 102),
        // The numbers modulo 2^32 would be allowed.
        ((1 << 32) + 11, 11, 7, 102),
        (11, (1 << 32) + 11, 7, 102),
        (11, 11, (1 << 32) + 7, 102),
        (11, 11, 7, (1 << 32) + 102),
        (1 << 32, 0, 0, 0),
        (0, 0, 0, 1 << 32),
    ] {
        let shape = Shape::new(tau, k, w, t);
        assert_eq!(numbers(shape), REFUSED, "{shape:?}");
    }
}

/// The numbers of commit and reconstruct at the smallest shape for a row
/// length, with buffers for rows of b bytes.
fn row_numbers(row_bits: usize, b: usize) -> (u32, u32) {
    let shape = Shape::new(1, 1, 127, 1);
    let (mut commitment, mut tree, mut coms) = (vec![0; 32], vec![0; 48], vec![0; 96]);
    let (mut u, mut v) = (vec![0; b], vec![0; 128 * b]);
    let made = commit(
        shape,
        row_bits,
        &[1; 16],
        &[2; 16],
        &mut commitment,
        &mut tree,
        &mut coms,
        &mut u,
        &mut v,
        &mut [],
    );
    let opening = [0; 48 + 16];
    let remade = reconstruct(
        shape,
        row_bits,
        &[2; 16],
        &[0; 16],
        &[],
        &opening,
        &mut commitment,
        &mut tree,
        &mut coms,
        &mut v,
    );
    (made.number, remade.number)
}

#[test]
fn row_lengths() {
    for row_bits in [8, 16, 120, 128, 136, 1680, 65_528, 65_536] {
        assert_eq!(row_numbers(row_bits, row_bits / 8), (0, 0), "{row_bits}");
        assert_eq!(
            row_numbers(row_bits, row_bits / 8 + 1),
            (3, 3),
            "{row_bits}"
        );
    }
    for row_bits in [0, 1, 7, 9, 12, 65_535, 65_537, 65_544, 1 << 20] {
        assert_eq!(row_numbers(row_bits, row_bits / 8), (2, 2), "{row_bits}");
    }
    for row_bits in [usize::MAX, usize::MAX - 7, 1 << 63, (1 << 32) + 8] {
        assert_eq!(row_numbers(row_bits, 1), (2, 2), "{row_bits}");
    }
}
