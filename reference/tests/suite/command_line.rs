//! The program itself.

use std::io::Write;
use std::process::{Command, Stdio};

use crate::support::hex;

/// Runs the program and gives its exit status and standard output.
fn program(args: &str, input: &str) -> (i32, String) {
    program_on(args, input.as_bytes())
}

/// The same with any bytes as its input.
fn program_on(args: &str, input: &[u8]) -> (i32, String) {
    let mut child = Command::new(env!("CARGO_BIN_EXE_reference"))
        .args(args.split_whitespace())
        .stdin(Stdio::piped())
        .stdout(Stdio::piped())
        .stderr(Stdio::null())
        .spawn()
        .unwrap();
    // A command that reads no input may have ended already.
    let _ = child.stdin.take().unwrap().write_all(input);
    let output = child.wait_with_output().unwrap();
    let text = String::from_utf8(output.stdout).unwrap();
    (output.status.code().unwrap(), text)
}

const ROOT: &str = "000102030405060708090a0b0c0d0e0f";
const CHALLENGE_ZERO: &str = "00000000000000000000000000000000";
const CHALLENGE_0C: &str = "0c000000000000000000000000000000";
const CHALLENGE_10: &str = "10000000000000000000000000000000";

#[test]
fn list_and_plan() {
    let nodes = "nodes 4\n13\n8\n5\n4\n";
    let line = format!("2 2 124 4 {CHALLENGE_0C}\n");
    assert_eq!(program("list", &line), (0, nodes.into()));
    assert_eq!(program("list", ""), (0, "refused 7\n".into()));
    let last = "2 2 124 3\n";
    assert!(program("list_challenges", last).1.ends_with("\n8 52\n"));
    assert_eq!(program("list_challenges", ""), (0, "refused 7\n".into()));
    assert_eq!(
        program(&format!("plan 2 2 124 4 128 0 {CHALLENGE_0C}"), ""),
        (0, "number 0\ncount 4\nnodes 4 13 8 5 4\n".into())
    );
    assert_eq!(
        program(&format!("decode 2 2 124 4 128 0 {CHALLENGE_0C}"), ""),
        (0, "number 0\ncount 0\nindices 2 0 3\n".into())
    );
}

#[test]
fn roundtrip() {
    let expected = "number 0\ncount 4\ncommitments agree\ncolumns 128 of 128\n";
    let args = format!("roundtrip 2 2 124 4 128 0 200 {ROOT} {ROOT} {CHALLENGE_0C}");
    assert_eq!(program(&args, ""), (0, expected.into()));
}

/// The command answers this number and count, and with another number than 0 it
/// prints nothing else.
fn answered(command: &str, (number, count): (u32, u32)) {
    let (status, text) = program(command, "");
    let head = format!("number {number}\ncount {count}\n");
    assert_eq!(status, 0, "{command}");
    assert!(text.starts_with(&head), "{command}: {text}");
    assert!(number == 0 || text == head, "{command}: {text}");
}

#[test]
fn stretches() {
    // The whole row is the stretch 0, b.
    let tail = format!("{ROOT} {ROOT} {CHALLENGE_0C}");
    for command in ["open", "reconstruct", "roundtrip"] {
        let whole = program(&format!("{command} 2 2 124 4 128 0 200 {tail}"), "");
        let stretch = format!("{command}_stretch 2 2 124 4 128 0 200 0 25 {tail}");
        assert_eq!(program(&stretch, ""), whole, "{command}");
        assert_eq!(whole.0, 0);
    }
    // u, which is printed in full, and the corrections.
    let lines = |args: String| {
        let (status, text) = program(&args, "");
        assert_eq!(status, 0);
        let words = |line: &str| line.split(' ').map(String::from).collect();
        text.lines().map(words).collect::<Vec<Vec<String>>>()
    };
    let whole = lines(format!("commit 2 2 124 4 128 0 200 {ROOT} {ROOT}"));
    let part = lines(format!(
        "commit_stretch 2 2 124 4 128 0 200 13 5 {ROOT} {ROOT}"
    ));
    assert_eq!(part[..5], whole[..5]);
    for line in [5, 7] {
        assert_eq!(whole[line][1], "25");
        assert_eq!(part[line][1], "5");
        assert_eq!(part[line][2], whole[line][2][26..36]);
    }
    assert_eq!(part[6][1], "640");
    // A refused stretch, with each of the numbers in its turn.
    // Open is not concerned with rows, and gives its own number.
    for (shape, bits, challenge, number, opened) in [
        ("2 2 124 4 128 0", 200, CHALLENGE_0C, 8, (0, 4)),
        ("2 2 124 4 128 0", 200, CHALLENGE_10, 8, (4, 0)),
        ("2 2 124 4 128 0", 200, &ROOT[2..], 8, (3, 0)),
        ("2 2 124 4 128 0", 201, CHALLENGE_0C, 2, (0, 4)),
        ("2 2 122 4 128 0", 200, CHALLENGE_0C, 1, (1, 0)),
    ] {
        let huge = usize::MAX;
        for stretch in ["0 0", "1 25", &format!("{huge} 1"), &format!("1 {huge}")] {
            let args = format!("{shape} {bits} {stretch} {ROOT} {ROOT} {challenge}");
            answered(&format!("open_stretch {args}"), opened);
            for command in ["reconstruct", "roundtrip"] {
                answered(&format!("{command}_stretch {args}"), (number, 0));
            }
        }
    }
}

#[test]
fn refusals() {
    let refused = |number: u32, count: u32| (0, format!("number {number}\ncount {count}\n"));
    let short = &ROOT[2..];
    // The answers of open and of reconstruct, each its own, also behind a commit
    // that is refused, and that of the round trip, the first that is not 0.
    for (rest, answers) in [
        (
            format!("2 2 122 4 128 0 200 {ROOT} {ROOT} {CHALLENGE_0C}"),
            [(1, 0), (1, 0), (1, 0)],
        ),
        (
            format!("2 2 124 4 128 0 201 {ROOT} {ROOT} {CHALLENGE_0C}"),
            [(0, 4), (2, 0), (2, 0)],
        ),
        (
            format!("2 2 124 4 128 0 200 {ROOT} {short} {CHALLENGE_0C}"),
            [(0, 4), (3, 0), (3, 0)],
        ),
        (
            format!("2 2 124 4 128 0 200 {short} {ROOT} {CHALLENGE_0C}"),
            [(0, 4), (0, 4), (3, 0)],
        ),
        (
            format!("2 2 124 4 128 0 200 {ROOT} {ROOT} {short}"),
            [(3, 0), (3, 0), (3, 0)],
        ),
        (
            format!("2 2 124 4 128 0 200 {ROOT} {ROOT} {CHALLENGE_10}"),
            [(4, 0), (4, 0), (4, 0)],
        ),
        (
            format!("2 2 124 3 128 0 200 {ROOT} {ROOT} {CHALLENGE_0C}"),
            [(5, 4), (5, 4), (5, 4)],
        ),
    ] {
        for (command, answer) in ["open", "reconstruct", "roundtrip"].iter().zip(answers) {
            answered(&format!("{command} {rest}"), answer);
        }
    }
    let huge = format!("commit 2 2 124 4 128 0 {} {ROOT} {ROOT}", usize::MAX);
    assert_eq!(program(&huge, ""), refused(2, 0));
    let huge = format!("commit {0} 2 130 4 128 0 {0} {ROOT} {ROOT}", usize::MAX);
    assert_eq!(program(&huge, ""), refused(1, 0));
    let plan = format!("plan 2 2 124 3 128 0 {CHALLENGE_0C}");
    assert_eq!(program(&plan, ""), refused(5, 4));
}

#[test]
fn a_flipped_byte_of_the_opening() {
    let args = format!("reconstruct 2 2 124 4 128 0 200 {ROOT} {ROOT} {CHALLENGE_ZERO}");
    let (_, straight) = program(&args, "");
    // Two nodes are revealed: bytes 96 to 127 are used, the slots behind them are not.
    for at in [0, 95, 96, 127] {
        let (status, flipped) = program(&format!("{args} {at}"), "");
        assert_eq!((status, &flipped[..17]), (0, "number 0\ncount 2\n"));
        assert_ne!(flipped.lines().nth(2), straight.lines().nth(2), "{at}");
    }
    for at in [128, 159] {
        let refused = (0, "number 6\ncount 2\n".into());
        assert_eq!(program(&format!("{args} {at}"), ""), refused, "{at}");
    }
    assert_eq!(program(&format!("{args} 160"), ""), (0, straight));
}

#[test]
fn probes() {
    for (args, number, count, outputs) in [
        ("commit 2 2 124 4 128 0 16 8 0", 0, 0, "written"),
        ("commit 2 2 124 4 128 0 16 7 1", 3, 0, "kept"),
        ("commit 2 2 122 4 128 0 12 7 1", 1, 0, "kept"),
        ("open 2 2 124 4 128 0 12 4 0", 0, 4, "written"),
        ("open 2 2 124 4 128 0 12 3 0", 3, 0, "kept"),
        ("open 2 2 124 3 128 0 12 4 0", 5, 4, "kept"),
        ("reconstruct 2 2 124 4 128 0 16 0 8 0 160", 0, 2, "written"),
        ("reconstruct 2 2 124 4 128 0 16 0 8 0 128", 6, 2, "kept"),
        ("reconstruct 2 2 124 4 128 0 16 16 8 0 128", 4, 0, "kept"),
        ("reconstruct 2 2 124 4 128 0 16 16 7 0 128", 3, 0, "kept"),
        ("commit_stretch 2 2 124 4 128 0 24 1 2 8 0", 0, 0, "written"),
        ("commit_stretch 2 2 124 4 128 0 24 1 2 5 1", 3, 0, "kept"),
        ("commit_stretch 2 2 124 4 128 0 24 2 2 5 1", 8, 0, "kept"),
        ("commit_stretch 2 2 124 4 128 0 12 2 2 5 1", 2, 0, "kept"),
        (
            "reconstruct_stretch 2 2 124 4 128 0 24 1 2 0 8 0 160",
            0,
            2,
            "written",
        ),
        (
            "reconstruct_stretch 2 2 124 4 128 0 24 1 2 0 8 0 128",
            6,
            2,
            "kept",
        ),
        (
            "reconstruct_stretch 2 2 124 4 128 0 24 1 2 16 2 1 128",
            3,
            0,
            "kept",
        ),
        (
            "reconstruct_stretch 2 2 124 4 128 0 24 3 0 16 2 1 128",
            8,
            0,
            "kept",
        ),
        (
            "reconstruct_stretch 2 2 122 4 128 0 24 3 0 16 2 1 128",
            1,
            0,
            "kept",
        ),
        ("decode 2 2 124 3 128 0 12 2 0", 0, 0, "written"),
        ("decode 2 2 124 4 128 0 16 2 0", 4, 0, "kept"),
        ("decode 2 2 124 4 128 0 16 1 0", 3, 0, "kept"),
        ("decode 2 2 124 4 128 0 16 0 1", 3, 0, "kept"),
        ("decode 2 2 122 4 128 0 16 1 0", 1, 0, "kept"),
        ("plan 2 2 124 4 128 0 12 2 0", 0, 4, "written"),
        ("plan 2 2 124 3 128 0 12 2 0", 5, 4, "kept"),
        ("plan 2 2 124 3 128 0 28 2 0", 4, 0, "kept"),
        ("plan 2 2 124 3 128 0 28 1 1", 3, 0, "kept"),
    ] {
        let expected = format!("number {number}\ncount {count}\noutputs {outputs}\n");
        assert_eq!(
            program(&format!("probe_{args}"), ""),
            (0, expected),
            "{args}"
        );
    }
}

#[test]
fn version_1() {
    let tail = format!("{ROOT} {ROOT} {CHALLENGE_0C}");
    let head = "number 0\ncount 0\n";
    let expected = format!("{head}commitments agree\ncolumns 128 of 128\n");
    let round = format!("v1_roundtrip 32 4 0 1 128 0 200 {tail}");
    assert_eq!(program(&round, ""), (0, expected));
    // The lines of each command: names and lengths.
    let lines = |args: &str| -> Vec<String> {
        let (status, text) = program(args, "");
        assert!(status == 0 && text.starts_with(head), "{args}");
        let first = |line: &str| line.split(' ').take(2).collect::<Vec<_>>().join(" ");
        text.lines().skip(2).map(first).collect()
    };
    let of_vectors = ["commitment 32", "trees 15872", "leaf_commitments 16384"];
    let commit = format!("v1_commit 32 4 0 1 128 0 200 {ROOT} {ROOT}");
    let of_rows = ["u 25", "v 3200", "corrections 775"];
    assert_eq!(lines(&commit), [of_vectors, of_rows].concat());
    let open = format!("v1_open 32 4 0 1 128 0 200 {tail}");
    assert_eq!(lines(&open), ["opening 3072"]);
    let reconstruct = format!("v1_reconstruct 32 4 0 1 128 0 200 {tail}");
    assert_eq!(lines(&reconstruct), [&of_vectors[..], &["q 3200"]].concat());
    // A flipped byte is not refused, and there is no byte 3072.
    let (_, straight) = program(&reconstruct, "");
    for at in [0, 95, 96, 3071] {
        let (status, flipped) = program(&format!("{reconstruct} {at}"), "");
        assert!(status == 0 && flipped.starts_with(head));
        assert_ne!(flipped.lines().nth(2), straight.lines().nth(2), "{at}");
    }
    let beyond = format!("{reconstruct} 3072");
    assert_eq!(program(&beyond, ""), (0, straight));
}

#[test]
fn refusals_of_version_1() {
    let short = &ROOT[2..];
    // The answers of commit, open and reconstruct, each its own, and of the round trip.
    for (shape, bits, root, iv, challenge, numbers) in [
        ("0 0 0 0 128 0", 200, ROOT, ROOT, ROOT, [1, 1, 1, 1]),
        ("32 4 0 2 128 0", 201, short, ROOT, ROOT, [1, 1, 1, 1]),
        ("32 4 0 1 128 1", 200, ROOT, ROOT, short, [1, 1, 1, 1]),
        ("32 4 0 1 128 0", 201, short, ROOT, short, [2, 3, 2, 2]),
        ("32 4 0 1 128 0", 0, ROOT, ROOT, ROOT, [2, 0, 2, 2]),
        ("32 4 0 1 128 0", 200, short, ROOT, ROOT, [3, 0, 0, 3]),
        ("32 4 0 1 128 0", 200, ROOT, short, ROOT, [3, 0, 3, 3]),
        ("32 4 0 1 128 0", 200, ROOT, ROOT, short, [0, 3, 3, 3]),
    ] {
        let args = format!("{shape} {bits} {root} {iv}");
        answered(&format!("v1_commit {args}"), (numbers[0], 0));
        let commands = ["v1_open", "v1_reconstruct", "v1_roundtrip"];
        for (command, number) in commands.iter().zip(&numbers[1..]) {
            answered(&format!("{command} {args} {challenge}"), (*number, 0));
        }
    }
}

#[test]
fn probes_of_version_1() {
    for (args, number, outputs) in [
        ("commit 32 4 0 1 128 0 16 8 0", 0, "written"),
        ("commit 32 4 0 1 128 0 16 7 1", 3, "kept"),
        ("commit 32 4 0 1 128 0 16 0 0", 3, "kept"),
        ("commit 32 4 0 1 128 0 12 7 1", 2, "kept"),
        ("commit 32 4 0 2 128 0 12 7 1", 1, "kept"),
        ("open 32 4 0 1 128 0 12 4 0", 0, "written"),
        ("open 32 4 0 1 128 0 12 3 0", 3, "kept"),
        ("open 32 4 0 1 128 1 12 3 0", 1, "kept"),
        ("reconstruct 32 4 0 1 128 0 16 255 8 0 0", 0, "written"),
        ("reconstruct 32 4 0 1 128 0 16 255 4 0 0", 3, "kept"),
        ("reconstruct 32 4 0 1 128 0 12 255 4 0 0", 2, "kept"),
        ("reconstruct 32 4 1 1 128 0 12 255 4 0 0", 1, "kept"),
        ("commit 31 8 0 1 256 0 8 8 0", 0, "written"),
        ("commit 31 8 0 1 256 0 8 0 1", 3, "kept"),
    ] {
        let expected = format!("number {number}\ncount 0\noutputs {outputs}\n");
        let probe = format!("probe_v1_{args}");
        assert_eq!(program(&probe, ""), (0, expected), "{args}");
    }
}

#[test]
fn cases_by_lines() {
    let shape = "2 2 124 4 128 0";
    let challenge = "0c000000000000000000000000000000";
    let calls = format!("{shape} 8 {ROOT} {ROOT}");
    let commands = [
        format!("commit {calls}"),
        format!("open {calls} {challenge}"),
        format!("reconstruct {calls} {challenge} 0"),
        format!("plan {shape} {challenge}"),
    ];
    let right: String = commands.iter().map(|args| program(args, "").1).collect();
    let good = format!("flipped 2 {calls} {challenge} 0\nplan 2 {shape} {challenge}\n");
    let file = format!("# a comment\n\n{good}");
    assert_eq!(program("cases", &file), (0, right.clone()));
    for wrong in ["plan", "plan 2 2", "calls 3", "Plan 2", "plan  2"] {
        let said = format!("{right}line 5 cannot be read\n");
        assert_eq!(
            program("cases", &format!("{file}{wrong}\n{good}")),
            (1, said)
        );
    }
}

/// The record commands on the smallest shape: the record has `long` bytes, of which
/// the last 32 are the commitment.
fn small_records(version: &str, kind: usize, long: usize) {
    let args = format!("1 1 127 1 128 {kind} 8 {ROOT} {ROOT} {CHALLENGE_ZERO}");
    let (status, text) = program(&format!("record{version} {args}"), "");
    let lines: Vec<&str> = text.lines().collect();
    assert_eq!((status, lines.len()), (0, 6));
    assert_eq!(lines[..2], ["number 0", "count 1"]);
    assert!(lines[2].starts_with(&format!("record {long} ")));
    let (_, text) = program(&format!("prefixes{version} {args}"), "");
    let lines: Vec<&str> = text.lines().collect();
    assert_eq!(lines.len(), long);
    assert_eq!(lines[0], "prefix 0 9/0-");
    assert!(lines[1..].iter().all(|line| line.ends_with(" 10/0-")));
    let (_, text) = program(&format!("flips{version} {args}"), "");
    assert_eq!(text.lines().count(), long);
    let commitment = text.lines().skip(long - 32);
    assert_eq!(
        commitment
            .filter(|line| line.ends_with(&" 11/1+".repeat(8)))
            .count(),
        32
    );
    let (_, text) = program(&format!("pairs{version} {args}"), "");
    let first = |line: &str| String::from(line.split(' ').nth(2).unwrap());
    let firsts: Vec<String> = text.lines().map(first).collect();
    let numbers = "9/0- 10/0- 1/0- 2/0- 10/0- 10/0- 3/0- 3/0- 3/0- 4/0- 11/1+ 11/1+";
    assert_eq!(firsts.join(" "), numbers);
}

#[test]
fn records() {
    small_records("", 0, 163);
    small_records("_version_1", 0, 162);
    small_records("", 1, 148);
    let refused = format!("record 2 2 124 3 128 0 8 {ROOT} {ROOT} {CHALLENGE_0C}");
    assert_eq!(program(&refused, ""), (0, "number 5\ncount 4\n".into()));
}

#[test]
fn kinds() {
    let tail = format!("8 {ROOT} {ROOT} {CHALLENGE_0C}");
    let expected = "number 0\ncount 4\ncommitments agree\ncolumns 128 of 128\n";
    let round = format!("roundtrip 2 2 124 4 128 1 {tail}");
    assert_eq!(program(&round, ""), (0, expected.into()));
    let refused = (0, String::from("number 1\ncount 0\n"));
    for (shape, kind) in [
        ("2 2 124 4", "2"),
        ("2 2 124 4", "18446744073709551615"),
        ("0 0 0 0", "1"),
        ("0 0 0 0", "2"),
    ] {
        for command in ["open", "reconstruct", "roundtrip", "record", "pairs"] {
            let args = format!("{command} {shape} 128 {kind} {tail}");
            assert_eq!(program(&args, ""), refused, "{args}");
        }
        let probe = format!("probe_commit {shape} 128 {kind} 8 9 0");
        let kept = format!("{}outputs kept\n", refused.1);
        assert_eq!(program(&probe, ""), (0, kept));
    }
    // The tree and the plan do not depend on the kind, the other buffers do.
    let lines = |kind: usize| -> Vec<String> {
        let args = format!("commit 2 2 124 4 128 {kind} 8 {ROOT} {ROOT}");
        let (_, text) = program(&args, "");
        text.lines().map(String::from).collect()
    };
    let (ordinary, other) = (lines(0), lines(1));
    for n in 0..8 {
        assert_eq!(ordinary[n] == other[n], [0, 1, 3].contains(&n), "line {n}");
    }
    assert!(ordinary[4].starts_with("leaf_commitments 384 "));
    assert!(other[4].starts_with("leaf_commitments 256 "));
}

#[test]
fn levels() {
    // 32 vectors at 192 and 256, with roots and challenges of 24 and 32 bytes.
    for (shape, n) in [
        ("32 2 127 512 192 0", 24),
        ("32 4 127 512 256 0", 32),
        ("32 2 127 512 192 1", 24),
        ("32 4 127 512 256 1", 32),
    ] {
        let node = "5a".repeat(n);
        let challenge = format!("3c{}", "00".repeat(n - 1));
        let tail = format!("{node} {ROOT} {challenge}");
        let (status, text) = program(&format!("roundtrip {shape} 8 {tail}"), "");
        let level = 8 * n;
        let columns = format!("commitments agree\ncolumns {level} of {level}\n");
        assert!(status == 0 && text.ends_with(&columns), "{text}");
        let (_, text) = program(&format!("record {shape} 8 {tail}"), "");
        assert!(text.starts_with("number 0\n"), "{text}");
        let (_, text) = program(&format!("pairs {shape} 8 {tail}"), "");
        let first = |line: &str| String::from(line.split(' ').nth(2).unwrap());
        let numbers: Vec<String> = text
            .lines()
            .map(|line| String::from(first(line).split('/').next().unwrap()))
            .collect();
        assert_eq!(numbers.join(" "), "9 10 1 2 10 10 3 3 3 4 6 11");
        // A node of another level, and a record of version 1.
        let other = format!("{ROOT} {ROOT} {challenge}");
        let refused = (0, "number 3\ncount 0\n".into());
        assert_eq!(
            program(&format!("roundtrip {shape} 8 {other}"), ""),
            refused
        );
        let older = format!("record_version_1 {shape} 8 {tail}");
        assert_eq!(program(&older, ""), (2, String::new()));
        for (probe, outputs) in [
            (
                format!("probe_commit {shape} 8 8 0"),
                "0\ncount 0\noutputs written",
            ),
            (
                format!("probe_commit {shape} 8 0 1"),
                "3\ncount 0\noutputs kept",
            ),
            (
                format!("probe_decode {shape} 0 0 0"),
                "3\ncount 0\noutputs kept",
            ),
            (
                format!("probe_decode {shape} 0 9 0"),
                "0\ncount 0\noutputs written",
            ),
        ] {
            let expected = format!("number {outputs}\n");
            assert_eq!(program(&probe, ""), (0, expected), "{probe}");
        }
    }
    for level in ["0", "127", "160", "384", "18446744073709551615"] {
        // The third adds up to 160, the fourth to 384.
        for shape in ["2 2 124 4", "0 0 0 0", "4 9 124 36", "32 12 0 512"] {
            let refused = (0, "number 1\ncount 0\n".into());
            let args = format!("{shape} {level} 0 8 {ROOT} {ROOT} {CHALLENGE_0C}");
            for command in ["open", "reconstruct", "roundtrip", "record", "pairs"] {
                assert_eq!(program(&format!("{command} {args}"), ""), refused, "{args}");
            }
            let probe = format!("probe_open {shape} {level} 0 0 9 0");
            let kept = (0, "number 1\ncount 0\noutputs kept\n".into());
            assert_eq!(program(&probe, ""), kept, "{probe}");
        }
    }
}

#[test]
fn a_record_on_standard_input() {
    assert_eq!(program("check", ""), (0, "number 9\ncount 0\n".into()));
    for (version, number) in [(0, 9), (1, 10), (2, 10), (3, 10), (4, 9), (255, 9)] {
        assert_eq!(
            program_on("check", &[version]),
            (0, format!("number {number}\ncount 0\n"))
        );
    }
    // A record of zeros: its commitment is another.
    let [zeros, opening] = [16, 64].map(|n| "00".repeat(n));
    let rest =
        format!("{zeros} 00000010 {zeros} 00000000 00000040 {opening} 00000020 {zeros}{zeros}");
    let texts = [
        "01 00000009 01 01 7f 0001 00000008 00000010",
        "02 0000000a 01 01 7f 0001 00000008 10 00000010",
    ]
    .map(|head| {
        let (status, text) = program_on("check", &hex(&format!("{head} {rest}")));
        let lines: Vec<&str> = text.lines().collect();
        assert_eq!((status, lines.len()), (0, 5));
        assert_eq!(lines[..2], ["number 11", "count 1"]);
        text
    });
    assert_eq!(texts[0], texts[1]);
    // Level bytes that are none, and one to which the numbers do not add up.
    for byte in ["00", "0f", "11", "17", "18", "19", "20", "21", "ff"] {
        let head = format!("02 0000000a 01 01 7f 0001 00000008 {byte} 00000010");
        let refused = (0, "number 1\ncount 0\n".into());
        assert_eq!(
            program_on("check", &hex(&format!("{head} {rest}"))),
            refused
        );
    }
}

#[test]
fn arguments_that_cannot_be_read() {
    for args in [
        String::new(),
        "unknown 1 1 127 1 128 0 00".into(),
        "list more".into(),
        "plan 1 1 127 1 128 0".into(),
        format!("plan 1 1 127 x 128 0 {ROOT}"),
        format!("plan 1 1 127 1 128 0 {ROOT} {ROOT}"),
        format!("plan 1 1 127 1 {ROOT}"),
        format!("plan 1 1 127 1 x 0 {ROOT}"),
        format!("plan 1 1 127 1 128 x {ROOT}"),
        format!("plan 1 1 127 1 128 {ROOT}"),
        format!("record_version_1 1 1 127 1 128 1 8 {ROOT} {ROOT} {CHALLENGE_ZERO}"),
        format!("commit_version_1 1 1 127 1 128 0 8 {ROOT} {ROOT}"),
        format!("record_version_1_stretch 1 1 127 1 128 0 8 0 1 {ROOT} {ROOT} {ROOT}"),
        format!("record_version_2 1 1 127 1 128 0 8 {ROOT} {ROOT} {ROOT}"),
        format!("plan 1 1 127 1 128 0 {}", &ROOT[1..]),
        "plan 1 1 127 1 128 0 zz".into(),
        format!("commit 1 1 127 1 128 0 8 {ROOT}"),
        format!("open 1 1 127 1 128 0 8 {ROOT} {ROOT}"),
        format!("open 1 1 127 1 128 0 8 {ROOT} {ROOT} {ROOT} 0"),
        format!("reconstruct 1 1 127 1 128 0 8 {ROOT} {ROOT} {ROOT} x"),
        format!("reconstruct 1 1 127 1 128 0 8 {ROOT} {ROOT} {ROOT} 0 0"),
        "probe_commit 1 1 127 1 128 0 8 0".into(),
        "probe_open 1 1 127 1 128 0 256 0 0".into(),
        "probe_reconstruct 1 1 127 1 128 0 8 0 0 0".into(),
        format!("commit_stretch 1 1 127 1 128 0 8 0 {ROOT} {ROOT}"),
        format!("commit_stretch 1 1 127 1 128 0 8 0 x {ROOT} {ROOT}"),
        format!("commit_stretch 1 1 127 1 128 0 8 0 18446744073709551616 {ROOT} {ROOT}"),
        format!("commit 1 1 127 1 128 0 8 0 1 {ROOT} {ROOT}"),
        format!("plan_stretch 1 1 127 1 128 0 8 0 1 {ROOT}"),
        "list_stretch".into(),
        "list_challenges more".into(),
        "list_challenges_stretch".into(),
        "probe_open_stretch 1 1 127 1 128 0 8 0 1 0 0 0".into(),
        format!("record 1 1 127 1 128 0 8 {ROOT} {ROOT}"),
        format!("pairs 1 1 127 1 128 0 8 {ROOT} {ROOT} {ROOT} 0"),
        "check more".into(),
        format!("v1_commit 32 4 0 1 128 0 8 {ROOT}"),
        format!("v1_commit 32 4 0 1 128 0 8 {ROOT} {ROOT} {ROOT}"),
        format!("v1_open 32 4 0 1 128 0 8 {ROOT} {ROOT}"),
        format!("v1_open 32 4 0 1 128 0 8 {ROOT} {ROOT} {ROOT} 0"),
        format!("v1_reconstruct 32 4 0 1 128 0 8 {ROOT} {ROOT} {ROOT} x"),
        format!("v1_roundtrip 32 4 0 1 128 8 {ROOT} {ROOT} {ROOT}"),
        format!("v1_commit_stretch 32 4 0 1 128 0 8 0 1 {ROOT} {ROOT}"),
        format!("v1_decode 32 4 0 1 128 0 {ROOT}"),
        "probe_v1_commit 32 4 0 1 128 0 8 0".into(),
        "probe_v1_open 32 4 0 1 128 0 256 0 0".into(),
        "probe_v1_reconstruct 32 4 0 1 128 0 8 0 0 0".into(),
        "probe_v1_reconstruct 32 4 0 1 128 0 8 0 0 0 0 0".into(),
        "cases more".into(),
        "check --named more".into(),
    ] {
        assert_eq!(program(&args, ""), (2, String::new()), "{args}");
    }
}
