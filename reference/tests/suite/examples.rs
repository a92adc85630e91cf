//! The examples P1 to P10 of document 01, and planning by its definitions.

use reference::bavc::{node_count, pos_in_tree};
use reference::calls::{decode, plan, Answer};
use reference::shape::{
    Shape, DEFAULT, FAEST_128S, FAEST_192F, FAEST_192S, FAEST_256F, FAEST_256S, FAEST_EM_128F,
    FAEST_EM_128S, FAEST_EM_192F, FAEST_EM_192S, FAEST_EM_256F, FAEST_EM_256S,
};

use crate::support::{allowed, first_byte, indices, noise, revealed};

/// A place of the list that was not written.
const UNTOUCHED: u32 = 0xdead_beef;

/// Plans with a patterned list and gives the answer and the written numbers;
/// nothing after them, and nothing at all with a refusal, may change.
fn planned(shape: Shape, challenge: &[u8]) -> (Answer, Vec<usize>) {
    let mut nodes = vec![UNTOUCHED; shape.resolve().unwrap().t];
    let answer = plan(shape, challenge, &mut nodes);
    let written = match answer.number {
        0 => answer.count as usize,
        _ => 0,
    };
    assert!(nodes[written..].iter().all(|&place| place == UNTOUCHED));
    let numbers = nodes[..written].iter().map(|&node| node as usize).collect();
    (answer, numbers)
}

#[test]
fn p1_to_p9() {
    let table: [(Shape, u8, u32, u32, &[usize]); 9] = [
        (Shape::new(1, 1, 127, 1), 0x00, 0, 1, &[2]),
        (Shape::new(1, 1, 127, 1), 0x01, 0, 1, &[1]),
        (Shape::new(2, 2, 124, 4), 0x00, 0, 2, &[4, 2]),
        (Shape::new(2, 2, 124, 4), 0x0c, 0, 4, &[13, 8, 5, 4]),
        (Shape::new(2, 2, 124, 4), 0x01, 0, 3, &[10, 7, 2]),
        (Shape::new(3, 1, 125, 2), 0x00, 0, 2, &[8, 4]),
        (Shape::new(3, 1, 125, 2), 0x07, 0, 2, &[7, 2]),
        (Shape::new(2, 2, 124, 3), 0x0c, 5, 4, &[]),
        (Shape::new(2, 2, 124, 4), 0x10, 4, 0, &[]),
    ];
    for (n, (shape, byte, number, count, nodes)) in table.into_iter().enumerate() {
        let (answer, written) = planned(shape, &first_byte(byte));
        assert_eq!(answer, Answer { number, count }, "P{}", n + 1);
        assert_eq!(written, nodes, "P{}", n + 1);
    }
}

#[test]
fn p10() {
    assert_eq!(FAEST_128S, Shape::new(11, 11, 7, 102));
    assert_eq!(FAEST_128S.leaves(), 22_528);
    assert_eq!(pos_in_tree(&FAEST_128S, 10, 2_047), 45_054);
    assert_eq!(FAEST_128S.tree_bytes(), 16 * 45_055);
    assert_eq!(FAEST_128S.opening_bytes(), 2_160);
}

#[test]
fn the_default() {
    assert_eq!(Shape::new(0, 0, 0, 0).resolve(), Some(DEFAULT));
    assert_eq!(DEFAULT, Shape::new(16, 7, 8, 110));
    assert_eq!(DEFAULT.leaves(), 3_072);
    assert_eq!(pos_in_tree(&DEFAULT, 7, 255), 6_142);
    assert_eq!(DEFAULT.opening_bytes(), 2_528);
}

#[test]
fn indices_are_bits_least_first() {
    // Byte 0 is 0b1011_0110, byte 1 is 0b0000_0001: in threes from the least
    // bit on 6, 6, 6, 0, 0.
    let mut list = [9; 5];
    let mut challenge = first_byte(0b1011_0110);
    challenge[1] = 0b0000_0001;
    let answer = decode(Shape::new(5, 3, 113, 1), &challenge, &mut list);
    assert_eq!((answer.number, answer.count), (0, 0));
    assert_eq!(list, [6, 6, 6, 0, 0]);
}

/// Table 3.2 and 5.1 of document 000: τ_1, L and the bytes of an opening.
#[test]
fn the_other_sets() {
    for (shape, tau_1, leaves, opening) in [
        (FAEST_192S, 4, 40_960, 5_040),
        (FAEST_192F, 16, 5_120, 5_640),
        (FAEST_256S, 8, 61_440, 9_952),
        (FAEST_256F, 24, 7_168, 10_944),
        (FAEST_EM_128S, 0, 22_528, 2_000),
        (FAEST_EM_128F, 8, 3_072, 2_304),
        (FAEST_EM_192S, 8, 49_152, 4_656),
        (FAEST_EM_192F, 16, 5_120, 5_376),
        (FAEST_EM_256S, 8, 61_440, 8_384),
        (FAEST_EM_256F, 24, 7_168, 9_536),
    ] {
        assert_eq!(shape.resolve(), Some(shape));
        assert_eq!((shape.tau_1(), shape.leaves()), (tau_1, leaves));
        assert_eq!(shape.opening_bytes(), opening);
        assert_eq!(shape.tree_bytes(), shape.level / 8 * (2 * leaves - 1));
        // The last vector that has the most entries has the last leaf.
        let i = if tau_1 == 0 { shape.tau } else { tau_1 } - 1;
        let last = shape.entries(i) - 1;
        assert_eq!(pos_in_tree(&shape, i, last), 2 * leaves - 2);
    }
}

/// Shapes with leaves on one level and on two, with and without grinding.
const SHAPES: [Shape; 20] = [
    Shape::new(1, 1, 127, 512),
    Shape::new(1, 12, 116, 512),
    Shape::new(2, 1, 126, 512),
    Shape::new(3, 1, 125, 512),
    Shape::new(3, 7, 107, 512),
    Shape::new(8, 4, 96, 512),
    Shape::new(13, 2, 102, 512),
    Shape::new(16, 8, 0, 512),
    Shape::new(25, 5, 3, 512),
    Shape::new(31, 4, 4, 512),
    Shape::new(32, 4, 0, 512),
    Shape::new(11, 11, 7, 512),
    Shape::at_level(32, 2, 127, 512, 192),
    Shape::at_level(32, 6, 0, 512, 192),
    Shape::at_level(24, 7, 8, 512, 192),
    Shape::at_level(6, 11, 125, 512, 192),
    Shape::at_level(32, 4, 127, 512, 256),
    Shape::at_level(32, 8, 0, 512, 256),
    Shape::at_level(22, 11, 6, 512, 256),
    Shape::at_level(21, 12, 4, 512, 256),
];

#[test]
fn plan_and_decode_by_the_definitions() {
    for shape in SHAPES {
        for seed in 0..8 {
            let bytes = match seed {
                0 => vec![0; shape.level / 8],
                1 => vec![0xff; shape.level / 8],
                _ => noise(seed, shape.level / 8),
            };
            let challenge = allowed(&shape, &bytes);
            let mut list = vec![UNTOUCHED; shape.tau];
            assert_eq!(decode(shape, &challenge, &mut list).number, 0);
            let hidden = indices(&shape, &challenge);
            assert!(list.iter().map(|&index| index as usize).eq(hidden.clone()));

            let expected = revealed(&shape, &challenge);
            let (answer, written) = planned(shape, &challenge);
            assert_eq!(answer, Answer::done(expected.len()), "{shape:?}");
            assert_eq!(written, expected, "{shape:?}");
            assert_eq!(node_count(&shape, &hidden), expected.len());
            // The plan does not depend on the leaf kind.
            let other = Shape { kind: 1, ..shape };
            assert_eq!(planned(other, &challenge), (answer, expected));
        }
    }
}

#[test]
fn revealed_nodes_stand_for_the_other_leaves() {
    // Beneath the revealed nodes lie all leaves but the hidden ones, each once.
    let shape = Shape::new(7, 5, 93, 512);
    let first_leaf = shape.leaves() - 1;
    for seed in 0..20 {
        let challenge = allowed(&shape, &noise(100 + seed, 16));
        let mut times = vec![0; 2 * shape.leaves() - 1];
        let (_, mut pending) = planned(shape, &challenge);
        while let Some(node) = pending.pop() {
            if node >= first_leaf {
                times[node] += 1;
            } else {
                pending.extend([2 * node + 1, 2 * node + 2]);
            }
        }
        for (i, hidden) in indices(&shape, &challenge).into_iter().enumerate() {
            for j in 0..32 {
                let leaf = first_leaf + 7 * j + i;
                assert_eq!(times[leaf], u32::from(j != hidden), "leaf {leaf}");
            }
        }
    }
}
