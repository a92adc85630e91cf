//! All challenges of a small shape.

use reference::enumeration::list_challenges;
use reference::shape::Shape;

use crate::support::{allowed, hex, indices, revealed};

fn listed(line: &str) -> String {
    String::from_utf8(list_challenges(line.as_bytes())).unwrap()
}

#[test]
fn the_smallest() {
    let zeros = "0".repeat(30);
    let expected = format!("00{zeros} 1\n01{zeros} 1\n2 2\n");
    assert_eq!(listed("1 1 127 1\n"), expected);
    assert_eq!(listed("1 1 127 1"), expected);
    assert_eq!(listed("00001 001 127 512"), expected);
}

/// The counts of document 01's shape 2, 2, 124; P3, P5 and P4 are the lines 0, 1
/// and 12.
#[test]
fn counts_of_two_vectors() {
    let text = listed("2 2 124 3");
    let mut lines: Vec<&str> = text.lines().collect();
    assert_eq!(lines.pop(), Some("8 52"));
    let counts: String = lines.iter().map(|line| &line[33..]).collect();
    assert_eq!(counts, "2344324444234432");
    assert!(listed("2 2 124 4").ends_with("\n16 52\n"));
    assert!(listed("2 2 124 1").ends_with("\n0 52\n"));
}

/// Each line against document 01's definitions: the challenge is one with clear
/// grinding bits, the count is that of its revealed nodes, each challenge comes
/// once, and of two neighbours the later has the larger index in the last vector
/// in which they differ.
#[test]
fn lines_by_the_definitions() {
    for (tau, k, w, t) in [
        (1, 1, 127, 1),
        (3, 1, 125, 2),
        (2, 2, 124, 3),
        (2, 2, 123, 4),
        (3, 2, 121, 4),
        (4, 1, 121, 5),
        (1, 9, 119, 9),
    ] {
        let shape = Shape::new(tau, k, w, t);
        let text = listed(&format!("{tau} {k} {w} {t}\n"));
        let lines: Vec<&str> = text.lines().collect();
        let (last, lines) = lines.split_last().unwrap();
        assert_eq!(lines.len(), 1 << (128 - w));
        let (mut within, mut total) = (0, 0);
        let mut before: Option<Vec<usize>> = None;
        for line in lines {
            let (digits, count) = line.split_once(' ').unwrap();
            let challenge = hex(digits);
            assert_eq!(allowed(&shape, &challenge), challenge);
            let count: usize = count.parse().unwrap();
            assert_eq!(count, revealed(&shape, &challenge).len(), "{line}");
            within += usize::from(count <= t);
            total += count;
            let mut now = indices(&shape, &challenge);
            now.reverse();
            assert!(before.is_none_or(|before| before < now), "{line}");
            before = Some(now);
        }
        assert_eq!(*last, format!("{within} {total}"));
    }
}

#[test]
fn refusals() {
    for (line, number) in [
        ("0 0 0 0", 12),
        ("11 11 7 102", 12),
        ("16 1 111 3", 12),
        ("17 1 111 3", 12),
        ("2 2 122 4", 1),
        ("0 0 0 1", 1),
        ("99999 99999 99999 99999\n", 1),
        ("1 13 115 4", 1),
        ("2 2 124 0", 1),
        ("2 2 124 513", 1),
        ("", 7),
        ("\n", 7),
        ("2 2 124", 7),
        ("2 2 124 ", 7),
        ("2 2 124 4 ", 7),
        ("2 2 124 4 \n", 7),
        ("2 2 124 4\n\n", 7),
        ("2 2 124 4\r\n", 7),
        ("2  2 124 4", 7),
        (" 2 2 124 4", 7),
        ("2\t2 124 4", 7),
        ("2 2 124 000004", 7),
        ("2 2 124 4 0", 7),
        ("2 2 124 4 0c000000000000000000000000000000", 7),
        ("+2 2 124 4", 7),
        ("2 2 124 x", 7),
    ] {
        assert_eq!(listed(line), format!("refused {number}\n"), "{line:?}");
    }
}
