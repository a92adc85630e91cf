//! Whole commands compared with `tests/known_answers.txt`, which is derived by
//! `tests/derive.py` with other AES, SHAKE and field arithmetic and from the
//! definitions instead of the figures.

use reference::cli::run;

/// Of all known answers those whose place modulo 2 is this one: two tests, which
/// can be run at the same time.
fn compare(half: usize) -> usize {
    let text = include_str!("../known_answers.txt");
    let mut compared = 0;
    for entry in text.split("$ ").skip(1).skip(half).step_by(2) {
        let (command, expected) = entry.split_once('\n').unwrap();
        let args: Vec<String> = command.split(' ').map(String::from).collect();
        let (output, well) = run(&args, &mut std::io::empty()).unwrap();
        assert!(well);
        assert_eq!(String::from_utf8(output).unwrap(), expected, "{command}");
        compared += 1;
    }
    compared
}

// 40 shapes with the five calls, the two of a stretch and a record each; for 16 of them
// a record of version 1, for the others a round trip; four commits and round trips of
// large shapes; 57 shapes that are refused by eight commands each. Of version 1: 18
// cases with a commit, for two challenges open, reconstruct and the round trip, and an
// opening that is changed; two commits and round trips of large shapes; 43 shapes that
// are refused by four commands each.
const ALL: usize = 40 * 8 + 40 + 8 + 57 * 8 + 18 * 8 + 4 + 43 * 4;

#[test]
fn every_first_known_answer() {
    assert_eq!(compare(0), ALL.div_ceil(2));
}

#[test]
fn every_second_known_answer() {
    assert_eq!(compare(1), ALL / 2);
}
