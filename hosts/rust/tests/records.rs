//! Records through the archives beside the second implementation, byte by byte: written, and checked as they are. Those that are changed are checked by `../c/fuzz_records.c`.

use rachnoel::{number, Shape};
use reference::named;
use reference::record::{self, Record};

const SHAPES: [(Shape, usize); 18] = [
    (Shape::new(1, 1, 127, 1, 128), 8),
    (Shape::new(2, 2, 124, 4, 128), 8),
    (Shape::new(2, 1, 125, 300, 128), 16),
    (Shape::new(3, 1, 123, 6, 128), 65_536),
    (Shape::new(32, 4, 0, 512, 128), 65_536),
    (Shape::new(16, 7, 8, 110, 128), 1_680),
    (rachnoel::FAEST_128S.shape, 1_680),
    (rachnoel::DEFAULT.shape, 24),
    (Shape::new(32, 2, 127, 70, 192), 16),
    (Shape::new(32, 4, 127, 512, 256), 65_536),
    (rachnoel::FAEST_192F.shape, 3_088),
    (rachnoel::FAEST_256F.shape, 3_888),
    (rachnoel::FAEST_192S.shape, 3_088),
    (rachnoel::FAEST_256S.shape, 8),
    (Shape::new(2, 2, 124, 4, 128).even_mansour(), 8),
    (rachnoel::FAEST_EM_128S.shape, 1_360),
    (rachnoel::FAEST_EM_192F.shape, 2_320),
    (rachnoel::FAEST_EM_256F.shape, 3_472),
];

fn reference_shape(s: Shape) -> reference::shape::Shape {
    reference::shape::Shape::of_kind(s.tau, s.k, s.w, s.t, s.level, s.kind)
}

#[test]
fn written_and_checked() {
    for (shape, row_bits) in SHAPES {
        let n = shape.lengths(row_bits / 8).unwrap();
        let [root, iv, challenge] = [(3u8, n.node as u8), (5, 16), (0, n.node as u8)].map(|(step, n)| (0..n).map(|i| step * i).collect::<Vec<u8>>());
        let [mut commitment, mut tree, mut coms, mut u, mut v, mut corrections, mut opening] =
            [n.commitment, n.tree, n.leaf_commitments, n.u, n.matrix, n.corrections, n.opening].map(|n| vec![0u8; n]);
        let mut count = [0xa5; 4];
        let made = rachnoel::flat::commit(
            shape, row_bits, &root, &iv, &mut commitment, &mut tree, &mut coms, &mut u, &mut v, &mut corrections, &mut count,
        );
        let opened = rachnoel::flat::open(shape, &challenge, &tree, &coms, &mut opening, &mut count);
        assert_eq!((made, opened), (0, 0), "{shape:?}");

        let mut length = [0xa5; 4];
        assert_eq!(rachnoel::flat::record_length(shape, row_bits, &mut length), 0);
        let mut bytes = vec![0xa5; number(length) as usize];
        assert!(bytes.len() <= rachnoel::RECORD_MOST);
        let wrote = rachnoel::flat::write_record(shape, row_bits, &iv, &challenge, &corrections, &opening, &commitment, &mut bytes);
        let mut theirs = vec![0x5a; bytes.len()];
        let fields = Record {
            shape: reference_shape(shape),
            row_bits,
            iv: &iv,
            challenge: &challenge,
            corrections: &corrections,
            opening: &opening,
            commitment: &commitment,
        };
        assert_eq!((wrote, record::write_record(&fields, &mut theirs).number), (0, 0));
        assert_eq!(bytes, theirs);
        assert_eq!(record::read(&bytes), Ok(fields));

        let mut lengths = [0xa5; 12];
        assert_eq!(rachnoel::flat::work_lengths(&bytes, &mut lengths), 0);
        let asked: Vec<usize> = lengths.chunks_exact(4).map(|four| number(four.try_into().unwrap()) as usize).collect();
        assert_eq!(asked, record::work_lengths(&bytes).unwrap());
        let [mut tree, mut coms, mut q] = [asked[0], asked[1], asked[2]].map(|n| vec![0xa5; n]);
        let [mut their_tree, mut their_coms, mut their_q] = [asked[0], asked[1], asked[2]].map(|n| vec![0x5a; n]);
        for (byte, right) in [(0, 0), (1, 11)] {
            *bytes.last_mut().unwrap() ^= byte;
            let checked = rachnoel::flat::check_record(&bytes, &mut tree, &mut coms, &mut q, &mut count);
            let answer = record::check_record(&bytes, &mut their_tree, &mut their_coms, &mut their_q);
            assert_eq!((checked, answer.number, number(count)), (right, right as u32, answer.count), "{shape:?}");
            assert_eq!((&tree, &coms, &q), (&their_tree, &their_coms, &their_q));
            for buffer in [&mut tree, &mut coms, &mut q, &mut their_tree, &mut their_coms, &mut their_q] {
                buffer.fill(0x3c);
            }
            let mut count = [0x3c; 4];
            let checked = rachnoel::flat::check_named(&bytes, &mut tree, &mut coms, &mut q, &mut count);
            let answer = named::check_named(&bytes, &mut their_tree, &mut their_coms, &mut their_q);
            let counted = if checked == 13 { 0x3c3c_3c3c } else { answer.count };
            assert_eq!((checked as u32, number(count)), (answer.number, counted), "{shape:?}");
            assert_eq!((&tree, &coms, &q), (&their_tree, &their_coms, &their_q));
        }
    }
}

/// Each refusal of the writer and of the lengths, in their order.
#[test]
fn refusals() {
    let shape = Shape::new(2, 2, 124, 4, 128);
    let none = Shape { t: 513, ..shape };
    for (s, row_bits, long, right) in [(none, 7, 3, 1), (shape, 7, 3, 2), (shape, 8, 3, 3), (shape, 8, 5, 3), (shape, 8, 0, 3), (shape, 8, 4, 0)] {
        let mut length = vec![0xa5; long];
        assert_eq!(rachnoel::flat::record_length(s, row_bits, &mut length), right);
        assert_eq!(length.iter().all(|byte| *byte == 0xa5), right != 0);
    }
    let long = 260;
    let fields = [16, 16, 1, 160, 32];
    for (s, row_bits, wrong, right) in [(none, 7, 0, 1), (shape, 12, 0, 2), (shape, 8, 0, 3), (shape, 8, 1, 3), (shape, 8, 2, 3), (shape, 8, 3, 3), (shape, 8, 4, 3), (shape, 8, 5, 3), (shape, 8, 9, 0)] {
        let parts: Vec<Vec<u8>> = fields.iter().enumerate().map(|(i, n)| vec![7; n + usize::from(i == wrong)]).collect();
        let mut bytes = vec![0xa5; long - usize::from(wrong == 5)];
        let number = rachnoel::flat::write_record(s, row_bits, &parts[0], &parts[1], &parts[2], &parts[3], &parts[4], &mut bytes);
        assert_eq!((number, bytes.iter().all(|byte| *byte == 0xa5)), (right, right != 0));
    }
    // the last byte of the front is the level's: 20 for 16 is another level
    let front = [2, 0, 0, 0, 10, 2, 2, 124, 0, 4, 0, 0, 0, 8, 16];
    for (n, change, long, right) in
        [(0, 0, 11, 9), (15, 0, 11, 9), (14, 15, 11, 10), (15, 5, 11, 1), (15, 14, 11, 1), (15, 13, 11, 2), (15, 15, 11, 3), (15, 15, 13, 3), (15, 15, 12, 0)]
    {
        let mut record = front[..n].to_vec();
        if let Some(byte) = record.get_mut(change) {
            *byte ^= 0x24;
        }
        let mut lengths = vec![0xa5; long];
        assert_eq!(rachnoel::flat::work_lengths(&record, &mut lengths), right, "{n} {change}");
        assert_eq!(lengths.iter().all(|byte| *byte == 0xa5), right != 0);
    }
}
