//! The listing program.

use reference::listing::list;
use reference::shape::DEFAULT;

use crate::support::revealed;

const ZEROS: &str = "00000000000000000000000000000000";

fn listed(line: &str) -> String {
    String::from_utf8(list(line.as_bytes())).unwrap()
}

#[test]
fn the_example() {
    let line = "2 2 124 4 0c000000000000000000000000000000";
    assert_eq!(listed(line), "nodes 4\n13\n8\n5\n4\n");
    assert_eq!(listed(&format!("{line}\n")), "nodes 4\n13\n8\n5\n4\n");
}

#[test]
fn other_examples() {
    for (line, expected) in [
        ("1 1 127 1 00", "nodes 1\n2\n"),
        ("1 1 127 1 01", "nodes 1\n1\n"),
        ("2 2 124 4 00", "nodes 2\n4\n2\n"),
        ("2 2 124 4 01", "nodes 3\n10\n7\n2\n"),
        ("3 1 125 2 07", "nodes 2\n7\n2\n"),
        ("2 2 124 3 0c", "refused 5\n"),
        ("2 2 124 4 10", "refused 4\n"),
        ("2 2 124 3 1c", "refused 4\n"),
        ("2 2 122 4 10", "refused 1\n"),
        ("00002 00002 00124 00004 01", "nodes 3\n10\n7\n2\n"),
        ("99999 99999 99999 99999 00", "refused 1\n"),
        ("33 3 29 102 00", "refused 1\n"),
        ("0 0 0 1 00", "refused 1\n"),
    ] {
        assert_eq!(
            listed(&format!("{line}{}", &ZEROS[2..])),
            expected,
            "{line}"
        );
    }
}

#[test]
fn four_zeros_are_the_default() {
    let nodes = revealed(&DEFAULT, &[0; 16]);
    let mut expected = format!("nodes {}\n", nodes.len());
    nodes
        .iter()
        .for_each(|node| expected += &format!("{node}\n"));
    for numbers in ["0 0 0 0", "0 00 000 00000", "16 7 8 110"] {
        assert_eq!(listed(&format!("{numbers} {ZEROS}\n")), expected);
    }
}

#[test]
fn lines_that_cannot_be_read() {
    let good = format!("2 2 124 4 {ZEROS}");
    assert_eq!(listed(&good), "nodes 2\n4\n2\n");
    for line in [
        String::new(),
        "\n".into(),
        " ".into(),
        format!("{good}\n\n"),
        format!("{good}\r\n"),
        format!("{good}\r"),
        format!("{good} "),
        format!("{good} \n"),
        format!("{good}\nx"),
        format!("{good}\n{good}\n"),
        format!("{good}0"),
        format!("{good}\0"),
        format!(" {good}"),
        format!("\n{good}"),
        good[..good.len() - 1].into(),
        good[..good.len() - 2].into(),
        format!("{}\n", &good[..good.len() - 1]),
        format!("2 2 124 4 {}0A", &ZEROS[2..]),
        format!("2 2 124 4 {}0g", &ZEROS[2..]),
        format!("2 2 124 4 {}0 ", &ZEROS[2..]),
        format!("2 2 124 4 {}é", &ZEROS[2..]),
        format!("2  2 124 4 {ZEROS}"),
        format!("2 2 124 4  {ZEROS}"),
        format!("2\t2 124 4 {ZEROS}"),
        format!("2 2 124 {ZEROS}"),
        format!("2 2 124 4 5 {ZEROS}"),
        format!("2 2 124 4{ZEROS}"),
        format!("2 2 124 4\n{ZEROS}"),
        format!("000002 2 124 4 {ZEROS}"),
        format!("100000 2 124 4 {ZEROS}"),
        format!("2 2 124 000004 {ZEROS}"),
        format!("+2 2 124 4 {ZEROS}"),
        format!("-2 2 124 4 {ZEROS}"),
        format!("2.0 2 124 4 {ZEROS}"),
        format!("a 2 124 4 {ZEROS}"),
        format!("٢ 2 124 4 {ZEROS}"),
        format!("0x2 2 124 4 {ZEROS}"),
        // 7 is tested before 1.
        format!("99 99 99 999 {}0A", &ZEROS[2..]),
        "99 99 99 999 ".into(),
        "99 99 99 999".into(),
    ] {
        assert_eq!(listed(&line), "refused 7\n", "{line:?}");
    }
    let mut bytes = good.into_bytes();
    *bytes.last_mut().unwrap() = 0xff;
    assert_eq!(list(&bytes), b"refused 7\n");
}

#[test]
fn lowercase_digits_and_byte_order() {
    // 0xab = 0b1010_1011 in byte 15: at τ 16, k 8, w 0 the index of vector 15
    // is 171, leaf 16 × 256 - 1 + 16 × 171 + 15.
    let line = format!("16 8 0 512 {}ab", &ZEROS[2..]);
    let output = listed(&line);
    let hidden = 16 * 256 - 1 + 16 * 171 + 15;
    let sibling = if hidden % 2 == 1 {
        hidden + 1
    } else {
        hidden - 1
    };
    assert!(output.lines().any(|node| node == sibling.to_string()));
    assert!(!output.lines().any(|node| node == hidden.to_string()));
    let swapped = listed(&format!("16 8 0 512 ab{}", &ZEROS[2..]));
    assert_ne!(swapped, output);
}
