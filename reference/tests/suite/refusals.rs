//! The refusals: each of them, their order, and that nothing is written.

use reference::calls::{
    commit, commit_stretch, decode, open, plan, reconstruct, reconstruct_stretch, Answer,
};
use reference::shape::Shape;
use reference::stretch::Stretch;

use crate::support::{first_byte, leaf_commitment, leaves, noise, revealed};

/// All that a call is lent: what it reads and what it writes.
#[derive(Clone, PartialEq, Debug)]
struct Lent {
    shape: Shape,
    row_bits: usize,
    stretch: Stretch,
    read: Vec<Vec<u8>>,
    written: Vec<Vec<u8>>,
    numbers: Vec<u32>,
}

/// A call, how its buffers are made for a shape and a challenge, the place of
/// the challenge and of the opening among what it reads, and what it checks.
struct Call {
    name: &'static str,
    lend: fn(Shape, &[u8]) -> Lent,
    make: fn(&mut Lent) -> Answer,
    challenge: Option<usize>,
    opening: Option<usize>,
    checks: &'static [u32],
}

/// The bytes of a row, and the stretch of the calls that have one.
const B: usize = 3;
const STRETCH: Stretch = Stretch::new(1, 2);

/// Buffers of these lengths, the written ones with a pattern in them.
fn lend(shape: Shape, read: Vec<Vec<u8>>, written: &[usize], numbers: usize) -> Lent {
    let pattern = |(n, &length): (usize, &usize)| noise(n as u64, length);
    Lent {
        shape,
        row_bits: 8 * B,
        stretch: STRETCH,
        read,
        written: written.iter().enumerate().map(pattern).collect(),
        numbers: (0..numbers as u32).map(|n| 0xabcd_0000 + n).collect(),
    }
}

/// The buffers of commit and of reconstruct for rows of which b bytes are written.
fn lend_commit(shape: Shape, b: usize) -> Lent {
    let (l, n) = (leaves(&shape), shape.level / 8);
    let written = [
        2 * n,
        n * (2 * l - 1),
        leaf_commitment(&shape) * l,
        b,
        shape.level * b,
        (shape.tau - 1) * b,
    ];
    lend(shape, vec![noise(7, n), noise(8, 16)], &written, 0)
}

fn lend_reconstruct(shape: Shape, challenge: &[u8], b: usize) -> Lent {
    let (l, n) = (leaves(&shape), shape.level / 8);
    let corrections = noise(11, (shape.tau - 1) * b);
    // The slots that the planned nodes leave unused are zero.
    let nodes = revealed(&shape, challenge).len();
    let coms = leaf_commitment(&shape) * shape.tau;
    let mut opening = noise(12, coms + n * nodes);
    opening.resize(coms + n * shape.t, 0);
    let read = vec![noise(8, 16), challenge.to_vec(), corrections, opening];
    let coms = leaf_commitment(&shape) * l;
    let written = [2 * n, n * (2 * l - 1), coms, shape.level * b];
    lend(shape, read, &written, 0)
}

const CALLS: [Call; 7] = [
    Call {
        name: "decode",
        lend: |shape, challenge| lend(shape, vec![challenge.to_vec()], &[], shape.tau),
        make: |lent| decode(lent.shape, &lent.read[0], &mut lent.numbers),
        challenge: Some(0),
        opening: None,
        checks: &[1, 3, 4],
    },
    Call {
        name: "plan",
        lend: |shape, challenge| lend(shape, vec![challenge.to_vec()], &[], shape.t),
        make: |lent| plan(lent.shape, &lent.read[0], &mut lent.numbers),
        challenge: Some(0),
        opening: None,
        checks: &[1, 3, 4, 5],
    },
    Call {
        name: "commit",
        lend: |shape, _| lend_commit(shape, B),
        make: |lent| {
            let [commitment, tree, coms, u, v, corrections] = &mut lent.written[..] else {
                unreachable!()
            };
            let (root, iv) = (&lent.read[0], &lent.read[1]);
            commit(
                lent.shape,
                lent.row_bits,
                root,
                iv,
                commitment,
                tree,
                coms,
                u,
                v,
                corrections,
            )
        },
        challenge: None,
        opening: None,
        checks: &[1, 2, 3],
    },
    Call {
        name: "open",
        lend: |shape, challenge| {
            let (l, n) = (leaves(&shape), shape.level / 8);
            let m = leaf_commitment(&shape);
            let (tree, coms) = (noise(9, n * (2 * l - 1)), noise(10, m * l));
            let read = vec![challenge.to_vec(), tree, coms];
            lend(shape, read, &[m * shape.tau + n * shape.t], 0)
        },
        make: |lent| {
            let (tree, coms) = (&lent.read[1], &lent.read[2]);
            open(lent.shape, &lent.read[0], tree, coms, &mut lent.written[0])
        },
        challenge: Some(0),
        opening: None,
        checks: &[1, 3, 4, 5],
    },
    Call {
        name: "reconstruct",
        lend: |shape, challenge| lend_reconstruct(shape, challenge, B),
        make: |lent| {
            let [commitment, tree, coms, q] = &mut lent.written[..] else {
                unreachable!()
            };
            reconstruct(
                lent.shape,
                lent.row_bits,
                &lent.read[0],
                &lent.read[1],
                &lent.read[2],
                &lent.read[3],
                commitment,
                tree,
                coms,
                q,
            )
        },
        challenge: Some(1),
        opening: Some(3),
        checks: &[1, 2, 3, 4, 5, 6],
    },
    Call {
        name: "commit_stretch",
        lend: |shape, _| lend_commit(shape, STRETCH.width),
        make: |lent| {
            let [commitment, tree, coms, u, v, corrections] = &mut lent.written[..] else {
                unreachable!()
            };
            let (root, iv) = (&lent.read[0], &lent.read[1]);
            commit_stretch(
                lent.shape,
                lent.row_bits,
                lent.stretch,
                root,
                iv,
                commitment,
                tree,
                coms,
                u,
                v,
                corrections,
            )
        },
        challenge: None,
        opening: None,
        checks: &[1, 2, 8, 3],
    },
    Call {
        name: "reconstruct_stretch",
        lend: |shape, challenge| lend_reconstruct(shape, challenge, STRETCH.width),
        make: |lent| {
            let [commitment, tree, coms, q] = &mut lent.written[..] else {
                unreachable!()
            };
            reconstruct_stretch(
                lent.shape,
                lent.row_bits,
                lent.stretch,
                &lent.read[0],
                &lent.read[1],
                &lent.read[2],
                &lent.read[3],
                commitment,
                tree,
                coms,
                q,
            )
        },
        challenge: Some(1),
        opening: Some(3),
        checks: &[1, 2, 8, 3, 4, 5, 6],
    },
];

/// The numbers in the order in which they are tested.
const ORDER: [u32; 7] = [1, 2, 8, 3, 4, 5, 6];

/// Makes the call. The answer must be this one; with a refusal all that was
/// lent must be as it was, with 0 every output must have lost its pattern.
fn expect(call: &Call, lent: &Lent, answer: Answer, what: &str) {
    let mut after = lent.clone();
    assert_eq!((call.make)(&mut after), answer, "{} {what}", call.name);
    if answer.number == 0 {
        for (new, old) in after.written.iter().zip(&lent.written) {
            assert!(old.is_empty() || new != old, "{} {what}", call.name);
        }
        let (new, old) = (&after.numbers, &lent.numbers);
        assert!(old.is_empty() || new != old, "{} {what}", call.name);
    } else {
        assert_eq!(after, *lent, "{} {what}", call.name);
    }
}

/// Shapes of two vectors and of 32, the fewest that the other levels have at w 127,
/// and for each a first byte of the challenge; the two of level 128 are P3 and P4.
const SHAPES: [(Shape, u8); 6] = [
    (Shape::new(2, 2, 124, 0), 0x00),
    (Shape::new(2, 2, 124, 0), 0x0c),
    (Shape::at_level(32, 2, 127, 0, 192), 0xc7),
    (Shape::at_level(32, 4, 127, 0, 256), 0x35),
    (Shape::of_kind(2, 2, 124, 0, 128, 1), 0x0c),
    (Shape::of_kind(32, 2, 127, 0, 192, 1), 0xc7),
];

/// The nodes that P3 and P4 need.
const NEEDED_00: u32 = 2;
const NEEDED_0C: u32 = 4;

#[test]
fn nodes_of_the_shapes() {
    let needed = |n: usize| {
        let (shape, byte) = SHAPES[n];
        revealed(&shape, &challenge_of(shape, byte)).len() as u32
    };
    assert_eq!((needed(0), needed(1)), (NEEDED_00, NEEDED_0C));
    assert!(needed(2) > 2 && needed(3) > 2);
}

/// The challenge of this shape with this first byte and zeros after it.
fn challenge_of(shape: Shape, byte: u8) -> Vec<u8> {
    let mut challenge = first_byte(byte);
    challenge.resize(shape.level / 8, 0);
    challenge
}

/// Lends buffers on which exactly the conditions of this set hold, as far as
/// the call knows them, and gives the planned count too. The shape allows two nodes
/// more than are needed, or with 5 one less. 5 and 6 cannot hold together, for with 5
/// there are no unused slots.
fn lent_for((shape, byte): (Shape, u8), call: &Call, conditions: &[u32]) -> (Lent, u32) {
    let holds = |number: u32| conditions.contains(&number);
    let challenge = challenge_of(shape, byte);
    let needed = revealed(&shape, &challenge).len();
    let t = match holds(5) {
        true => needed - 1,
        false => needed + 2,
    };
    let needed = needed as u32;
    let mut lent = (call.lend)(Shape { t, ..shape }, &challenge);
    if let (true, Some(opening)) = (holds(6), call.opening) {
        *lent.read[opening].last_mut().unwrap() = 1;
    }
    if let (true, Some(challenge)) = (holds(4), call.challenge) {
        *lent.read[challenge].last_mut().unwrap() = 0x80;
    }
    if holds(3) {
        match lent.written.last_mut() {
            Some(buffer) => buffer.push(0x55),
            None => lent.numbers.push(0x55),
        }
    }
    if holds(8) {
        lent.stretch.first = B - lent.stretch.width + 1;
    }
    if holds(2) {
        lent.row_bits = 12;
    }
    if holds(1) {
        lent.shape.k += 1;
    }
    (lent, needed)
}

/// The same at τ 2, k 2.
fn lent_with(call: &Call, conditions: &[u32]) -> (Lent, u32) {
    lent_for(SHAPES[0], call, conditions)
}

#[test]
fn every_set_of_conditions() {
    for (shape, call) in SHAPES
        .iter()
        .flat_map(|s| CALLS.iter().map(move |c| (*s, c)))
    {
        for set in 0..128u32 {
            let chosen = |&n: &usize| set >> n & 1 == 1;
            let conditions: Vec<u32> = (0..7).filter(chosen).map(|n| ORDER[n]).collect();
            if conditions.contains(&5) && conditions.contains(&6) {
                continue;
            }
            let (lent, needed) = lent_for(shape, call, &conditions);
            let first = conditions
                .iter()
                .find(|number| call.checks.contains(number));
            let number = first.copied().unwrap_or(0);
            let counting = !["decode", "commit", "commit_stretch"].contains(&call.name);
            let count = match number {
                0 | 5 | 6 if counting => needed,
                _ => 0,
            };
            expect(
                call,
                &lent,
                Answer { number, count },
                &format!("{conditions:?}"),
            );
        }
    }
}

#[test]
fn every_buffer_has_its_exact_length() {
    let refused = Answer {
        number: 3,
        count: 0,
    };
    let changes: [fn(usize) -> usize; 4] = [|n| n.wrapping_sub(1), |n| n + 1, |_| 0, |n| 2 * n];
    for (shape, call) in SHAPES
        .iter()
        .flat_map(|s| CALLS.iter().map(move |c| (*s, c)))
    {
        let (lent, _) = lent_for(shape, call, &[]);
        for change in changes {
            for n in 0..lent.read.len() {
                let mut other = lent.clone();
                let length = change(other.read[n].len());
                other.read[n].resize(length, 0);
                expect(call, &other, refused, &format!("read {n}, {length} bytes"));
            }
            for n in 0..lent.written.len() {
                let mut other = lent.clone();
                let length = change(other.written[n].len());
                other.written[n].resize(length, 0x77);
                expect(
                    call,
                    &other,
                    refused,
                    &format!("written {n}, {length} bytes"),
                );
            }
            if !lent.numbers.is_empty() {
                let mut other = lent.clone();
                let length = change(other.numbers.len());
                other.numbers.resize(length, 0x77);
                expect(call, &other, refused, &format!("{length} numbers"));
            }
        }
    }
}

#[test]
fn levels_and_kinds_are_tested_first() {
    let refused = Answer {
        number: 1,
        count: 0,
    };
    for (shape, call) in SHAPES
        .iter()
        .flat_map(|s| CALLS.iter().map(move |c| (*s, c)))
    {
        let (lent, _) = lent_for(shape, call, &[2, 8, 3, 4]);
        for level in [0, 16, 24, 32, 127, 128, 160, 192, 256, 384, usize::MAX] {
            if level != shape.0.level {
                let mut other = lent.clone();
                other.shape.level = level;
                expect(call, &other, refused, &format!("level {level}"));
            }
        }
        for kind in [2, 3, 255, 256, 257, 1 << 32, usize::MAX] {
            let mut other = lent.clone();
            other.shape.kind = kind;
            expect(call, &other, refused, &format!("kind {kind}"));
        }
    }
}

#[test]
fn roots_and_challenges_of_another_level() {
    let refused = Answer {
        number: 3,
        count: 0,
    };
    for (shape, call) in SHAPES
        .iter()
        .flat_map(|s| CALLS.iter().map(move |c| (*s, c)))
    {
        let (lent, _) = lent_for(shape, call, &[]);
        for bytes in [16, 24, 32].into_iter().filter(|n| 8 * n != shape.0.level) {
            // The challenge, or where there is none the root.
            let mut other = lent.clone();
            other.read[call.challenge.unwrap_or(0)].resize(bytes, 0);
            expect(call, &other, refused, &format!("{bytes} bytes"));
        }
    }
}

#[test]
fn buffers_of_the_other_kind() {
    // Leaf commitments and openings have other lengths; decode and plan lend neither.
    let refused = Answer {
        number: 3,
        count: 0,
    };
    for (shape, call) in SHAPES
        .iter()
        .flat_map(|s| CALLS.iter().map(move |c| (*s, c)))
    {
        let (mut lent, needed) = lent_for(shape, call, &[]);
        lent.shape.kind = 1 - lent.shape.kind;
        match call.name {
            "decode" => expect(call, &lent, Answer::done(0), "the other kind"),
            "plan" => expect(call, &lent, Answer::done(needed as usize), "the other kind"),
            _ => expect(call, &lent, refused, "the other kind"),
        }
    }
}

#[test]
fn one_vector_has_no_corrections() {
    let shape = Shape::new(1, 1, 127, 1);
    for call in CALLS.iter().filter(|call| call.checks.contains(&2)) {
        let mut lent = (call.lend)(shape, &first_byte(0));
        if let Some(opening) = call.opening {
            lent.read[opening].truncate(48 + 16);
        }
        let count = u32::from(call.opening.is_some());
        expect(call, &lent, Answer { number: 0, count }, "no corrections");
        match call.opening {
            None => lent.written[5].push(0),
            Some(_) => lent.read[2].push(0),
        }
        let refused = Answer {
            number: 3,
            count: 0,
        };
        expect(call, &lent, refused, "a byte of corrections");
    }
}

#[test]
fn the_lengths_of_a_stretch_are_not_those_of_the_rows() {
    let refused = Answer {
        number: 3,
        count: 0,
    };
    let shape = Shape::new(2, 2, 124, 4);
    let (commit_stretch, reconstruct_stretch) = (&CALLS[5], &CALLS[6]);
    expect(
        commit_stretch,
        &lend_commit(shape, B),
        refused,
        "whole rows",
    );
    let lent = lend_reconstruct(shape, &first_byte(0), B);
    expect(reconstruct_stretch, &lent, refused, "whole rows");
    // The corrections alone are whole ones.
    let mut lent = lend_reconstruct(shape, &first_byte(0), STRETCH.width);
    lent.read[2] = noise(11, B);
    expect(reconstruct_stretch, &lent, refused, "whole corrections");
}

#[test]
fn stretches_that_are_refused() {
    let refused = |number: u32| Answer { number, count: 0 };
    for call in &CALLS[5..] {
        let (lent, _) = lent_with(call, &[]);
        for (first, width) in [
            (0, 0),
            (1, 0),
            (B, 0),
            (B + 1, 0),
            (usize::MAX, 0),
            (0, B + 1),
            (1, B),
            (B, 1),
            (B - 1, 2),
            (usize::MAX, 1),
            (usize::MAX - 1, 2),
            (usize::MAX - 1, 1),
            (1, usize::MAX),
            (2, usize::MAX - 1),
            (0, usize::MAX),
            (usize::MAX, usize::MAX),
            (1 << 63, 1 << 63),
            ((1 << 63) + 1, (1 << 63) + 1),
            (1 << 32, 1),
            (1, (1 << 32) + 1),
        ] {
            let what = format!("{first} {width}");
            let mut other = lent.clone();
            other.stretch = Stretch::new(first, width);
            expect(call, &other, refused(8), &what);
            other.row_bits = 12;
            expect(call, &other, refused(2), &what);
            other.shape.k = 3;
            expect(call, &other, refused(1), &what);
        }
    }
}

#[test]
fn four_zeros_take_the_lengths_of_the_default() {
    let zeros = Shape::new(0, 0, 0, 0);
    let mut list = [0xabcd; 110];
    assert_eq!(plan(zeros, &[0; 16], &mut list).number, 0);
    assert_eq!(plan(zeros, &[0; 16], &mut []).number, 3);
    assert_eq!(decode(zeros, &[0; 16], &mut list[..16]).number, 0);
    assert_eq!(decode(zeros, &[0; 16], &mut list[..15]).number, 3);
    assert_eq!(decode(zeros, &[0; 16], &mut []).number, 3);
    // Bit 120 is the first of the eight grinding bits, bit 119 is not one.
    let mut challenge = [0; 16];
    challenge[15] = 0x01;
    assert_eq!(decode(zeros, &challenge, &mut list[..16]).number, 4);
    challenge[15] = 0;
    challenge[14] = 0x80;
    assert_eq!(decode(zeros, &challenge, &mut list[..16]).number, 0);
    assert_eq!(list[15], 1 << 6);
}

#[test]
fn every_grinding_bit() {
    // At τ 3, k 5, w 113 the bits from 15 on are grinding bits.
    let shape = Shape::new(3, 5, 113, 512);
    for bit in 0..128 {
        let challenge = (1u128 << bit).to_le_bytes();
        let expected = if bit < 15 { 0 } else { 4 };
        let mut indices = [9; 3];
        let number = decode(shape, &challenge, &mut indices).number;
        assert_eq!(number, expected, "bit {bit}");
        assert_eq!(plan(shape, &challenge, &mut [0; 512]).number, expected);
        if expected == 4 {
            assert_eq!(indices, [9; 3]);
        }
    }
    // At 192 and at 256 with w 127 the bits from 65 and from 129 on.
    for (shape, _) in &SHAPES[2..4] {
        let shape = Shape { t: 512, ..*shape };
        for bit in 0..shape.level {
            let mut challenge = vec![0; shape.level / 8];
            challenge[bit / 8] = 1 << (bit % 8);
            let expected = if bit < shape.level - 127 { 0 } else { 4 };
            let number = decode(shape, &challenge, &mut [9; 32]).number;
            assert_eq!(number, expected, "level {} bit {bit}", shape.level);
        }
    }
    // Without grinding bits every challenge is an allowed one.
    let challenge = [0xff; 16];
    assert_eq!(
        plan(Shape::new(32, 4, 0, 512), &challenge, &mut [0; 512]).number,
        0
    );
}

#[test]
fn every_byte_of_the_unused_slots() {
    let call = &CALLS[4];
    let (lent, _) = lent_with(call, &[]);
    let used = 48 * 2 + 16 * 2;
    let done = Answer {
        number: 0,
        count: NEEDED_00,
    };
    let refused = Answer {
        number: 6,
        count: NEEDED_00,
    };
    assert_eq!(lent.read[3].len(), used + 32);
    for n in 0..used + 32 {
        for bit in [0x01, 0x80] {
            let mut other = lent.clone();
            other.read[3][n] ^= bit;
            let answer = if n < used { done } else { refused };
            expect(call, &other, answer, &format!("byte {n} of the opening"));
        }
    }
    // At the other levels the last two slots.
    for shape in SHAPES[2..].iter() {
        let (lent, count) = lent_for(*shape, call, &[]);
        let (long, width) = (lent.read[3].len(), shape.0.level / 8);
        for n in long - 2 * width - 1..long {
            let mut other = lent.clone();
            other.read[3][n] ^= 0x10;
            let number = if n < long - 2 * width { 0 } else { 6 };
            let what = format!("byte {n} of the opening");
            expect(call, &other, Answer { number, count }, &what);
        }
    }
}
