//! Records: written and read back, each refusal and their order, and that
//! nothing is written but with 0 and 11.

use reference::calls::{commit, open, Answer, Refusal};
use reference::record::{
    check_record, read, record_bytes, version_1, work_lengths, write_record, Record,
};
use reference::shape::Shape;

use crate::support::{first_byte, noise};

/// What commit and open give, to make a record of. Where open is refused the
/// opening is zeros.
pub struct Signed {
    shape: Shape,
    row_bits: usize,
    iv: Vec<u8>,
    challenge: Vec<u8>,
    corrections: Vec<u8>,
    opening: Vec<u8>,
    commitment: Vec<u8>,
}

impl Signed {
    pub fn new(shape: Shape, row_bits: usize, challenge: &[u8]) -> Signed {
        let meant = shape.resolve().unwrap();
        let b = row_bits / 8;
        let mut signed = Signed {
            shape,
            row_bits,
            iv: noise(2, 16),
            challenge: challenge.to_vec(),
            corrections: vec![0; (meant.tau - 1) * b],
            opening: vec![0; meant.opening_bytes()],
            commitment: vec![0; meant.level / 4],
        };
        let mut tree = vec![0; meant.tree_bytes()];
        let mut coms = vec![0; meant.leaf_commitments_bytes()];
        let (mut u, mut v) = (vec![0; b], vec![0; meant.level * b]);
        let answer = commit(
            shape,
            row_bits,
            &noise(1, meant.level / 8),
            &signed.iv,
            &mut signed.commitment,
            &mut tree,
            &mut coms,
            &mut u,
            &mut v,
            &mut signed.corrections,
        );
        assert_eq!(answer.number, 0);
        open(shape, challenge, &tree, &coms, &mut signed.opening);
        signed
    }

    fn record(&self) -> Record<'_> {
        Record {
            shape: self.shape,
            row_bits: self.row_bits,
            iv: &self.iv,
            challenge: &self.challenge,
            corrections: &self.corrections,
            opening: &self.opening,
            commitment: &self.commitment,
        }
    }

    pub fn written(&self) -> Vec<u8> {
        let meant = self.shape.resolve().unwrap();
        let mut bytes = vec![0x55; record_bytes(&meant, self.row_bits / 8)];
        let answer = write_record(&self.record(), &mut bytes);
        assert_eq!(answer, Answer::done(0));
        bytes
    }
}

/// Work buffers with a pattern, and the same after a check, with its answer.
fn checked(bytes: &[u8], lengths: [usize; 3]) -> (Answer, Vec<Vec<u8>>, Vec<Vec<u8>>) {
    let before: Vec<Vec<u8>> = lengths.iter().map(|length| noise(3, *length)).collect();
    let mut after = before.clone();
    let [tree, coms, q] = &mut after[..] else {
        unreachable!()
    };
    let answer = check_record(bytes, tree, coms, q);
    (answer, before, after)
}

/// The answer of the check, with work buffers of the right lengths; they are as
/// they were but with 0 and 11.
fn answer_of(bytes: &[u8], lengths: [usize; 3]) -> (u32, u32) {
    let (answer, before, after) = checked(bytes, lengths);
    assert_eq!(before == after, !matches!(answer.number, 0 | 11));
    (answer.number, answer.count)
}

const SHAPES: [(Shape, usize); 15] = [
    (Shape::new(1, 1, 127, 1), 8),
    (Shape::new(2, 2, 124, 4), 8),
    (Shape::new(2, 1, 125, 4), 16),
    (Shape::new(3, 1, 123, 6), 24),
    (Shape::new(32, 3, 1, 512), 72),
    (Shape::new(16, 7, 8, 110), 136),
    (Shape::new(0, 0, 0, 0), 8),
    (Shape::at_level(32, 2, 127, 40, 192), 8),
    (Shape::at_level(24, 7, 8, 163, 192), 24),
    (Shape::at_level(32, 4, 127, 300, 256), 136),
    (Shape::at_level(32, 7, 8, 246, 256), 8),
    (Shape::of_kind(1, 1, 127, 1, 128, 1), 8),
    (Shape::of_kind(16, 7, 8, 112, 128, 1), 136),
    (Shape::of_kind(32, 2, 127, 40, 192, 1), 8),
    (Shape::of_kind(32, 4, 127, 300, 256, 1), 24),
];

#[test]
fn a_written_record_is_read_back_and_accepted() {
    for (shape, row_bits) in SHAPES {
        let signed = Signed::new(shape, row_bits, &vec![0; shape.level / 8]);
        let bytes = signed.written();
        assert_eq!(read(&bytes), Ok(signed.record()));
        let lengths = work_lengths(&bytes).unwrap();
        let (answer, before, after) = checked(&bytes, lengths);
        assert_eq!(answer.number, 0, "{shape:?}");
        assert!(before.iter().zip(&after).all(|(old, new)| old != new));
    }
}

#[test]
fn the_bytes_of_a_small_record() {
    let bytes = Signed::new(Shape::new(1, 1, 127, 1), 8, &[0; 16]).written();
    assert_eq!(bytes.len(), 163);
    let front = [2, 0, 0, 0, 10, 1, 1, 127, 0, 1, 0, 0, 0, 8, 16, 0, 0, 0, 16];
    assert_eq!(bytes[..19], front);
    assert_eq!(bytes[35..39], [0, 0, 0, 16]);
    assert_eq!(bytes[55..63], [0, 0, 0, 0, 0, 0, 0, 64]);
    assert_eq!(bytes[127..131], [0, 0, 0, 32]);
}

#[test]
fn the_bytes_of_a_record_of_192_and_of_256() {
    for (shape, level_byte, long) in [
        (Shape::at_level(32, 2, 127, 40, 192), 24, 3_418),
        (Shape::at_level(32, 4, 127, 40, 256), 32, 4_530),
    ] {
        let n = level_byte as usize;
        let bytes = Signed::new(shape, 8, &vec![0; n]).written();
        assert_eq!(bytes.len(), long);
        let (k, opening) = (shape.k as u8, 3 * n * 32 + n * 40);
        assert_eq!(bytes[..9], [2, 0, 0, 0, 10, 32, k, 127, 0]);
        assert_eq!(bytes[9..15], [40, 0, 0, 0, 8, level_byte]);
        assert_eq!(bytes[15..19], [0, 0, 0, 16]);
        assert_eq!(bytes[35..39], [0, 0, 0, level_byte]);
        let at = 39 + n;
        assert_eq!(bytes[at..at + 4], [0, 0, 0, 31]);
        let at = at + 4 + 31;
        assert_eq!(bytes[at..at + 4], (opening as u32).to_be_bytes());
        let at = at + 4 + opening;
        assert_eq!(bytes[at..at + 4], (2 * n as u32).to_be_bytes());
        assert_eq!(at + 4 + 2 * n, long);
    }
}

/// A version 1 record and a version 2 record of level 128 with one content: both are
/// read as it and accepted with the same count and the same buffers.
#[test]
fn versions_1_and_2() {
    let first = |shape: &Shape| (shape.level, shape.kind) == (128, 0);
    for (shape, row_bits) in SHAPES.into_iter().filter(|(shape, _)| first(shape)) {
        let signed = Signed::new(shape, row_bits, &[0; 16]);
        let (older, newer) = (version_1(&signed.record()), signed.written());
        assert_eq!(older[..5], [1, 0, 0, 0, 9]);
        assert_eq!(newer[..5], [2, 0, 0, 0, 10]);
        assert_eq!(older[5..14], newer[5..14]);
        assert_eq!((newer[14], &older[14..]), (16, &newer[15..]));
        assert_eq!(read(&older), Ok(signed.record()));
        assert_eq!(read(&older), read(&newer));
        let lengths = work_lengths(&newer).unwrap();
        assert_eq!(work_lengths(&older), Ok(lengths));
        let (answer, _, after) = checked(&newer, lengths);
        assert_eq!(answer.number, 0);
        assert_eq!(checked(&older, lengths), checked(&newer, lengths));
        // The head of one version with the byte of the other: 10.
        for (bytes, other) in [(&older, 2), (&newer, 1)] {
            let mut swapped = bytes.clone();
            swapped[0] = other;
            assert_eq!(answer_of(&swapped, lengths), (10, 0));
            swapped[0] = 3;
            assert_eq!(answer_of(&swapped, lengths), (10, 0));
        }
        assert!(!after[2].is_empty());
    }
}

#[test]
fn the_bytes_of_a_record_of_version_3() {
    let shape = Shape::of_kind(1, 1, 127, 1, 128, 1);
    let bytes = Signed::new(shape, 8, &[0; 16]).written();
    assert_eq!(bytes.len(), 148);
    let front = [
        3, 0, 0, 0, 11, 1, 1, 127, 0, 1, 0, 0, 0, 8, 16, 1, 0, 0, 0, 16,
    ];
    assert_eq!(bytes[..20], front);
    assert_eq!(bytes[36..40], [0, 0, 0, 16]);
    assert_eq!(bytes[56..64], [0, 0, 0, 0, 0, 0, 0, 48]);
    assert_eq!(bytes[112..116], [0, 0, 0, 32]);
    assert_eq!(read(&bytes).unwrap().shape, shape);
}

/// In a record of version 3 every kind but 1 is 1, before a row length and before a
/// field that is wrong; a version 3 record of ordinary leaves is none.
#[test]
fn every_kind_byte() {
    for (shape, row_bits) in SHAPES.into_iter().filter(|(shape, _)| shape.kind == 1) {
        let bytes = Signed::new(shape, row_bits, &vec![0; shape.level / 8]).written();
        let lengths = work_lengths(&bytes).unwrap();
        assert_eq!((bytes[0], bytes[15]), (3, 1));
        assert_eq!(answer_of(&bytes, lengths).0, 0);
        for kind in (0..=255).filter(|kind| *kind != 1) {
            let mut changed = bytes.clone();
            changed[15] = kind;
            assert_eq!(answer_of(&changed, lengths), (1, 0), "{shape:?} {kind}");
            assert_eq!(work_lengths(&changed), Err(Refusal::Shape));
            changed[13] = 12;
            changed[19] = 17;
            assert_eq!(answer_of(&changed, lengths), (1, 0), "{shape:?} {kind}");
            changed[4] = 10;
            assert_eq!(answer_of(&changed, lengths), (10, 0), "{shape:?} {kind}");
        }
        // The level byte as in version 2.
        for level in (0..=255).filter(|level| usize::from(*level) != shape.level / 8) {
            let mut changed = bytes.clone();
            changed[14] = level;
            assert_eq!(answer_of(&changed, lengths), (1, 0), "{shape:?} {level}");
        }
        // Four zeros are no default of this kind.
        let mut zeros = bytes.clone();
        zeros[5..10].fill(0);
        assert_eq!(answer_of(&zeros, lengths), (1, 0));
    }
    // An ordinary record with head and version of a version 3 record.
    let signed = Signed::new(Shape::new(2, 2, 124, 4), 8, &[0; 16]);
    let bytes = signed.written();
    let lengths = work_lengths(&bytes).unwrap();
    for (kind, number) in [(0, 1), (1, 10), (2, 1)] {
        let head = [&[3, 0, 0, 0, 11], &bytes[5..15], &[kind]].concat();
        let other = [&head[..], &bytes[15..]].concat();
        assert_eq!(answer_of(&other, lengths), (number, 0), "{kind}");
    }
}

/// A level byte that is none is 1, before a row length and before a field that is
/// wrong; one that the numbers do not add up to is 1 as well.
#[test]
fn every_level_byte() {
    for (shape, byte) in [
        (Shape::new(2, 2, 124, 4), 16),
        (Shape::new(0, 0, 0, 0), 16),
        (Shape::at_level(32, 2, 127, 40, 192), 24),
        (Shape::at_level(32, 4, 127, 300, 256), 32),
    ] {
        let bytes = Signed::new(shape, 8, &vec![0; shape.level / 8]).written();
        let lengths = work_lengths(&bytes).unwrap();
        assert_eq!(bytes[14], byte);
        assert_eq!(answer_of(&bytes, lengths).0, 0);
        for other in (0..=255).filter(|other| *other != byte) {
            let mut changed = bytes.clone();
            changed[14] = other;
            assert_eq!(answer_of(&changed, lengths), (1, 0), "{shape:?} {other}");
            assert_eq!(work_lengths(&changed), Err(Refusal::Shape));
            changed[13] = 12;
            changed[18] = 17;
            assert_eq!(answer_of(&changed, lengths), (1, 0), "{shape:?} {other}");
        }
    }
}

#[test]
fn numbers_of_several_bytes() {
    let signed = Signed::new(Shape::new(2, 2, 124, 0x0102), 65_536, &[0; 16]);
    let bytes = signed.written();
    assert_eq!(bytes[8..14], [1, 2, 0, 1, 0, 0]);
    assert_eq!(bytes[55..59], [0, 0, 0x20, 0]);
    let opening = 48 * 2 + 16 * 0x0102;
    let at = 59 + 0x2000;
    assert_eq!(bytes[at..at + 4], (opening as u32).to_be_bytes());
}

#[test]
fn zeros_stay_zeros() {
    let bytes = Signed::new(Shape::new(0, 0, 0, 0), 8, &[0; 16]).written();
    assert_eq!((&bytes[5..10], bytes[14]), (&[0; 5][..], 16));
    assert_eq!(read(&bytes).unwrap().shape, Shape::new(0, 0, 0, 0));
    let meant = Shape::new(16, 7, 8, 110);
    assert_eq!(bytes.len(), record_bytes(&meant, 1));
}

/// A condition, its number, and how it is brought about in a record of so many
/// bytes or in the lengths of the work buffers.
type Condition = (u32, fn(&mut Vec<u8>, usize, &mut [usize; 3]));

const CONDITIONS: [Condition; 12] = [
    (9, |bytes, _, _| bytes[0] = 0),
    (10, |bytes, _, _| bytes[4] = 9),
    (1, |bytes, _, _| bytes[6] = 13),
    (1, |bytes, _, _| bytes[14] = 24),
    (2, |bytes, _, _| bytes[13] = 12),
    (10, |bytes, _, _| bytes[38] = 17),
    (10, |bytes, _, _| bytes.push(7)),
    (3, |_, _, lengths| lengths[0] += 1),
    (3, |_, _, lengths| lengths[2] -= 1),
    (4, |bytes, _, _| bytes[54] = 0x10),
    (6, |bytes, long, _| bytes[long - 37] = 1),
    (11, |bytes, long, _| bytes[long - 1] ^= 0x80),
];

#[test]
fn every_set_of_conditions() {
    // Challenge 00 needs two nodes (P3), 0c four (P4): with T 3 that is 5, which
    // comes before 11, and no slot is unused, so that 6 does not hold.
    for (t, byte, needed) in [(4, 0x00, 2), (3, 0x0c, 4)] {
        let signed = Signed::new(Shape::new(2, 2, 124, t), 8, &first_byte(byte));
        let bytes = signed.written();
        for set in 0..1 << CONDITIONS.len() {
            let (mut other, mut lengths) = (bytes.clone(), work_lengths(&bytes).unwrap());
            let mut numbers = Vec::new();
            for (n, (number, bring)) in CONDITIONS.iter().enumerate() {
                if set >> n & 1 == 1 {
                    bring(&mut other, bytes.len(), &mut lengths);
                    numbers.push(*number);
                }
            }
            let number = match (numbers.first(), t) {
                (None | Some(6 | 11), 3) => 5,
                (first, _) => *first.unwrap_or(&0),
            };
            let count = match number {
                0 | 5 | 6 | 11 => needed,
                _ => 0,
            };
            assert_eq!(answer_of(&other, lengths), (number, count), "{set:b}");
        }
    }
}

#[test]
fn every_prefix_and_a_byte_more() {
    let signed = Signed::new(Shape::new(1, 1, 127, 1), 8, &[0; 16]);
    let wide = Signed::new(Shape::at_level(32, 2, 127, 40, 192), 8, &[0; 24]);
    let other = Signed::new(Shape::of_kind(2, 2, 124, 4, 128, 1), 8, &[0; 16]);
    for bytes in [
        signed.written(),
        version_1(&signed.record()),
        wide.written(),
        other.written(),
    ] {
        let lengths = work_lengths(&bytes).unwrap();
        assert_eq!(answer_of(&bytes, lengths).0, 0);
        assert_eq!(answer_of(&bytes[..0], lengths), (9, 0));
        for n in 1..bytes.len() {
            assert_eq!(answer_of(&bytes[..n], lengths), (10, 0), "{n}");
        }
        for byte in 0..=255 {
            let longer = [&bytes[..], &[byte]].concat();
            assert_eq!(answer_of(&longer, lengths), (10, 0));
        }
    }
}

#[test]
fn every_version() {
    let bytes = Signed::new(Shape::new(1, 1, 127, 1), 8, &[0; 16]).written();
    let lengths = work_lengths(&bytes).unwrap();
    for version in 0..=255 {
        let mut other = bytes.clone();
        other[0] = version;
        // Versions 1 and 3 have other lengths of field one.
        let number = match version {
            1 | 3 => 10,
            2 => 0,
            _ => 9,
        };
        assert_eq!(answer_of(&other, lengths).0, number, "{version}");
        assert_eq!(work_lengths(&other).is_ok(), version == 2);
    }
}

#[test]
fn lengths_near_the_largest_number() {
    let bytes = Signed::new(Shape::new(2, 2, 124, 4), 8, &[0; 16]).written();
    let lengths = work_lengths(&bytes).unwrap();
    for at in [1, 15, 35, 55, 60, 224] {
        for length in [u32::MAX, u32::MAX - 3, 1 << 31, 0] {
            let mut other = bytes.clone();
            other[at..at + 4].copy_from_slice(&length.to_be_bytes());
            assert_eq!(answer_of(&other, lengths), (10, 0), "{at} {length}");
        }
    }
}

#[test]
fn corrections_are_not_bound() {
    let signed = Signed::new(Shape::new(2, 2, 124, 4), 8, &first_byte(0x04));
    let bytes = signed.written();
    let lengths = work_lengths(&bytes).unwrap();
    let mut other = bytes.clone();
    other[59] ^= 1;
    let (answer, _, after) = checked(&bytes, lengths);
    let (again, _, changed) = checked(&other, lengths);
    assert_eq!((answer.number, again), (0, answer));
    assert_eq!(after[..2], changed[..2]);
    assert_ne!(after[2], changed[2]);
}

#[test]
fn the_writer_refuses_and_writes_nothing() {
    let signed = Signed::new(Shape::new(2, 2, 124, 4), 8, &[0; 16]);
    let long = signed.written().len();
    let short = &signed.opening[1..];
    let cases: [(Refusal, Record, usize); 16] = [
        (
            Refusal::Shape,
            Record {
                shape: Shape::of_kind(2, 2, 124, 4, 128, 2),
                ..signed.record()
            },
            long,
        ),
        (
            Refusal::Shape,
            Record {
                shape: Shape::of_kind(0, 0, 0, 0, 128, 1),
                ..signed.record()
            },
            long,
        ),
        // The opening of the other kind.
        (
            Refusal::Buffer,
            Record {
                shape: Shape::of_kind(2, 2, 124, 4, 128, 1),
                ..signed.record()
            },
            long - 31,
        ),
        (
            Refusal::Shape,
            Record {
                shape: Shape::at_level(2, 2, 124, 4, 192),
                ..signed.record()
            },
            long,
        ),
        (
            Refusal::Shape,
            Record {
                shape: Shape::at_level(0, 0, 0, 0, 256),
                row_bits: 7,
                ..signed.record()
            },
            long,
        ),
        (
            Refusal::Shape,
            Record {
                shape: Shape::at_level(2, 2, 124, 4, 128 + 256 * 8),
                ..signed.record()
            },
            long,
        ),
        (
            Refusal::Buffer,
            Record {
                challenge: &short[..24],
                ..signed.record()
            },
            long,
        ),
        (
            Refusal::Shape,
            Record {
                shape: Shape::new(2, 2, 122, 4),
                row_bits: 7,
                ..signed.record()
            },
            0,
        ),
        (
            Refusal::Shape,
            Record {
                shape: Shape::new(258, 2, 124, 4),
                ..signed.record()
            },
            long,
        ),
        (
            Refusal::RowLength,
            Record {
                row_bits: 12,
                ..signed.record()
            },
            0,
        ),
        (
            Refusal::RowLength,
            Record {
                row_bits: (1 << 32) + 8,
                ..signed.record()
            },
            long,
        ),
        (Refusal::Buffer, signed.record(), long - 1),
        (Refusal::Buffer, signed.record(), long + 1),
        (
            Refusal::Buffer,
            Record {
                iv: short,
                ..signed.record()
            },
            long,
        ),
        (
            Refusal::Buffer,
            Record {
                opening: short,
                ..signed.record()
            },
            long,
        ),
        (
            Refusal::Buffer,
            Record {
                commitment: &short[..31],
                ..signed.record()
            },
            long,
        ),
    ];
    for (refusal, record, length) in cases {
        let mut bytes = vec![0x55; length];
        assert_eq!(
            write_record(&record, &mut bytes),
            Answer::refused(refusal, 0)
        );
        assert!(bytes.iter().all(|byte| *byte == 0x55));
    }
}

#[test]
fn the_writer_tests_no_challenge_and_no_opening() {
    let mut signed = Signed::new(Shape::new(2, 2, 124, 4), 8, &first_byte(0x10));
    signed.opening = vec![0xff; signed.opening.len()];
    let bytes = signed.written();
    let lengths = work_lengths(&bytes).unwrap();
    assert_eq!(answer_of(&bytes, lengths), (4, 0));
}
