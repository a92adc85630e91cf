//! The opening report. What a line must say is worked out by the check of the
//! record alone and by document 01's definition of the revealed nodes.

use reference::record::{check_record, read_first, version_1, work_lengths, write_record, Record};
use reference::report::report;
use reference::shape::Shape;

use crate::support::{allowed, first_byte, noise, revealed};

/// A record of zeros of this shape, with rows of 8 bits and this challenge, in the
/// version that is written, or in version 1.
fn record_of(shape: Shape, challenge: &[u8], first: bool) -> Vec<u8> {
    let meant = shape.resolve().unwrap();
    let (corrections, opening) = (vec![0; meant.tau - 1], vec![0; meant.opening_bytes()]);
    let record = Record {
        shape,
        row_bits: 8,
        iv: &[0; 16],
        challenge,
        corrections: &corrections,
        opening: &opening,
        commitment: &vec![0; meant.level / 4],
    };
    if first {
        return version_1(&record);
    }
    let mut bytes = vec![0; reference::record::record_bytes(&meant, 1)];
    assert_eq!(write_record(&record, &mut bytes).number, 0);
    bytes
}

/// One vector of two entries, T 2: one node, one unused slot.
fn small(first: bool) -> Vec<u8> {
    record_of(Shape::new(1, 1, 127, 2), &[0; 16], first)
}

fn text_of(parts: &[&[u8]]) -> String {
    String::from_utf8(report(&parts.concat())).unwrap()
}

fn with(bytes: &[u8], at: usize, value: u8) -> Vec<u8> {
    let mut changed = bytes.to_vec();
    changed[at] = value;
    changed
}

#[test]
fn no_record() {
    assert_eq!(text_of(&[]), "total 0 0\n");
    assert_eq!(text_of(&[&[0]]), "1 refused 9\ntotal 0 0\n");
    assert_eq!(text_of(&[&[1]]), "1 refused 10\ntotal 0 0\n");
    assert_eq!(text_of(&[b"\n"]), "1 refused 9\ntotal 0 0\n");
}

/// The smallest records of each version; the default, and T of the shape that it
/// stands for.
#[test]
fn versions() {
    let two = small(false);
    let three = record_of(Shape::of_kind(1, 1, 127, 1, 128, 1), &[0; 16], false);
    assert_eq!([two[0], three[0]], [2, 3]);
    assert_eq!([small(true).len(), two.len(), three.len()], [178, 179, 148]);
    assert_eq!(
        text_of(&[&small(true), &two, &three, &two]),
        "1 1 1\n2 1 1\n3 1 0\n4 1 1\ntotal 4 3\n"
    );
    let zeros = record_of(Shape::new(0, 0, 0, 0), &[0; 16], false);
    let written = record_of(Shape::new(16, 7, 8, 110), &[0; 16], true);
    let text = text_of(&[&zeros, &written]);
    let lines: Vec<&str> = text.lines().collect();
    assert_eq!(lines[0][2..], lines[1][2..]);
    let nodes = revealed(&Shape::new(16, 7, 8, 110), &[0; 16]).len();
    assert_eq!(lines[0], format!("1 {nodes} {}", 110 - nodes));
}

/// 4, 5 and 6 go on, are not counted, and come in this order.
#[test]
fn refused_openings() {
    let one = small(true);
    let nodes = record_of(Shape::new(2, 2, 124, 3), &first_byte(12), false);
    let (grinding, slot) = (with(&one, 53, 128), with(&one, 141, 1));
    assert_eq!(
        text_of(&[&grinding, &nodes, &slot, &one]),
        "1 refused 4\n2 refused 5\n3 refused 6\n4 1 1\ntotal 1 1\n"
    );
    let both = with(&slot, 53, 128);
    let grinding_too = with(&nodes, 41, 1);
    assert_eq!(
        text_of(&[&both, &grinding_too]),
        "1 refused 4\n2 refused 4\ntotal 0 0\n"
    );
    // a used slot may hold anything
    assert_eq!(text_of(&[&with(&one, 125, 255)]), "1 1 1\ntotal 1 1\n");
}

/// 9, 10, 1 and 2 stop: what stands behind is not read.
#[test]
fn stops() {
    let one = small(true);
    let two = small(false);
    for (bad, number) in [
        (with(&one, 0, 0), 9),
        (with(&one, 0, 4), 9),
        (with(&one, 0, 2), 10),
        (with(&one, 4, 10), 10),
        (with(&one, 17, 15), 10),
        (with(&one, 61, 79), 10),
        (with(&one, 5, 0), 1),
        (with(&one, 6, 2), 1),
        (with(&two, 14, 17), 1),
        (with(&one, 13, 9), 2),
        (with(&one, 13, 0), 2),
    ] {
        let stopped = format!("1 1 1\n2 refused {number}\ntotal 1 1\n");
        assert_eq!(text_of(&[&one, &bad, &one]), stopped);
        assert_eq!(text_of(&[&one, &bad]), stopped);
        let alone = format!("1 refused {number}\ntotal 0 0\n");
        assert_eq!(text_of(&[&bad, &one]), alone);
    }
    for cut in 1..one.len() {
        assert_eq!(
            text_of(&[&two, &one[..cut]]),
            "1 1 1\n2 refused 10\ntotal 1 1\n"
        );
    }
}

#[test]
fn lengths() {
    let exact = {
        let opening = vec![0; 96 + 16 * 2];
        version_1(&Record {
            shape: Shape::new(2, 1, 126, 2),
            row_bits: 240,
            iv: &[0; 16],
            challenge: &[0; 16],
            corrections: &[0; 30],
            opening: &opening,
            commitment: &[0; 32],
        })
    };
    assert_eq!(exact.len(), 256);
    let all = exact.repeat(256);
    let text = text_of(&[&all]);
    assert_eq!(text.lines().count(), 257);
    let line = text.lines().next().unwrap().to_string();
    let numbers: Vec<usize> = line.split(' ').map(|word| word.parse().unwrap()).collect();
    assert!(text.ends_with(&format!(
        "total {} {}\n",
        256 * numbers[1],
        256 * numbers[2]
    )));
    assert_eq!(text_of(&[&all, &[1]]), "refused 7\n");
    assert_eq!(text_of(&[&[0; 65537]]), "refused 7\n");
    assert_eq!(text_of(&[&[0; 65536]]), "1 refused 9\ntotal 0 0\n");
    assert!(text_of(&[&all[..65535]]).contains("\n256 refused 10\ntotal "));
}

/// Each line against the check of its record alone, with buffers of the right
/// lengths, where 11 is as good as 0; and against the definition of the nodes.
#[test]
fn lines_by_the_check() {
    let shapes = [
        Shape::new(2, 2, 124, 3),
        Shape::new(3, 1, 125, 2),
        Shape::new(2, 1, 125, 2),
        Shape::of_kind(2, 2, 124, 3, 128, 1),
        Shape::at_level(8, 8, 127, 30, 192),
    ];
    let mut parts: Vec<Vec<u8>> = Vec::new();
    for (i, shape) in shapes.iter().cycle().take(40).enumerate() {
        let bytes = noise(i as u64, shape.level / 8);
        let challenge = if i % 7 == 3 {
            bytes
        } else {
            allowed(shape, &bytes)
        };
        let mut record = record_of(*shape, &challenge, false);
        if i % 3 == 1 {
            let last = record.len() - shape.level / 4 - 5;
            record[last] = 1;
        }
        parts.push(record);
    }
    let mut expected = String::new();
    let (mut nodes, mut slots) = (0, 0);
    for (i, part) in parts.iter().enumerate() {
        let place = i + 1;
        let [tree, coms, q] = work_lengths(part).unwrap();
        let (mut tree, mut coms, mut q) = (vec![0; tree], vec![0; coms], vec![0; q]);
        let number = check_record(part, &mut tree, &mut coms, &mut q).number;
        if number != 0 && number != 11 {
            expected += &format!("{place} refused {number}\n");
            continue;
        }
        let (record, behind) = read_first(part).unwrap();
        assert!(behind.is_empty());
        let count = revealed(&record.shape, record.challenge).len();
        expected += &format!("{place} {count} {}\n", record.shape.t - count);
        nodes += count;
        slots += record.shape.t - count;
    }
    expected += &format!("total {nodes} {slots}\n");
    assert!(expected.contains("refused 4") && expected.contains("refused 5"));
    assert!(expected.contains("refused 6") && nodes > 0);
    let parts: Vec<&[u8]> = parts.iter().map(Vec::as_slice).collect();
    assert_eq!(text_of(&parts), expected);
}
