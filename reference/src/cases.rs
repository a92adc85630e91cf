//! `cases`: a file of cases, one a line, as crates/vectors*/stdin have them. Each
//! line stands for commands of this program, whose output is printed. README.md
//! has the forms.

use std::io::Read;

use crate::cli::{run, Arguments, Outcome};

/// How many words each form has behind its name.
const FORMS: [(&str, usize); 17] = [
    ("calls", 11),
    ("flipped", 12),
    ("stretch", 13),
    ("decode", 8),
    ("plan", 8),
    ("record", 11),
    ("named", 11),
    ("prefixes", 11),
    ("flips", 11),
    ("pairs", 11),
    ("probe_commit", 10),
    ("probe_open", 10),
    ("probe_reconstruct", 12),
    ("probe_commit_stretch", 12),
    ("probe_reconstruct_stretch", 14),
    ("probe_decode", 10),
    ("probe_plan", 10),
];

/// A command and its arguments.
fn command(name: &str, arguments: &[&str]) -> Vec<String> {
    let words = std::iter::once(&name).chain(arguments);
    words.map(|word| word.to_string()).collect()
}

/// Commit, open and reconstruct. The challenge stands at the place `at`; behind it
/// the byte of the opening that is flipped before reconstruct, or nothing.
fn three_calls(names: [&str; 3], arguments: &[&str], at: usize) -> Vec<Vec<String>> {
    vec![
        command(names[0], &arguments[..at]),
        command(names[1], &arguments[..=at]),
        command(names[2], arguments),
    ]
}

/// The commands of a case; nothing where there is no such form.
fn commands(form: &str, words: &[&str]) -> Option<Vec<Vec<String>>> {
    let (_, count) = FORMS.iter().find(|(name, _)| *name == form)?;
    if words.len() != *count {
        return None;
    }
    let (version, rest) = (words[0].parse::<usize>().ok()?, &words[1..]);
    match (form, version) {
        ("calls" | "flipped", 2) => Some(three_calls(["commit", "open", "reconstruct"], rest, 9)),
        ("calls" | "flipped", 1) => {
            let names = ["v1_commit", "v1_open", "v1_reconstruct"];
            Some(three_calls(names, rest, 9))
        }
        ("stretch", 2) => {
            let names = ["commit_stretch", "open_stretch", "reconstruct_stretch"];
            Some(three_calls(names, rest, 11))
        }
        ("probe_commit" | "probe_open" | "probe_reconstruct", 1) => {
            let name = form.replacen("probe_", "probe_v1_", 1);
            Some(vec![command(&name, rest)])
        }
        ("record" | "named" | "prefixes" | "flips" | "pairs", 1) => {
            Some(vec![command(&format!("{form}_version_1"), rest)])
        }
        // a record of Even-Mansour leaves has version 3, any other version 2
        ("record" | "named" | "prefixes" | "flips" | "pairs", 2 | 3) => {
            let kind = rest[5].parse::<usize>().ok()?;
            let written = if kind == 1 { 3 } else { 2 };
            (version == written).then(|| vec![command(form, rest)])
        }
        ("decode" | "plan", 2) => Some(vec![command(form, rest)]),
        (_, 2) if form.starts_with("probe_") => Some(vec![command(form, rest)]),
        _ => None,
    }
}

/// Whether a word has small letters, digits and underscores alone, and is no longer
/// than 32 bytes in hexadecimal.
fn is_word(word: &&str) -> bool {
    let fits = |byte: u8| byte.is_ascii_lowercase() || byte.is_ascii_digit() || byte == b'_';
    word.len() <= 64 && word.bytes().all(fits)
}

/// What a line prints; nothing where it cannot be read.
fn line_output(line: &str) -> Option<Vec<u8>> {
    if !line.split(' ').all(|word| is_word(&word)) {
        return None;
    }
    let (form, rest) = line.split_once(' ')?;
    let words: Vec<&str> = rest.split(' ').collect();
    let mut text = Vec::new();
    for command in commands(form, &words)? {
        text.extend(run(&command, &mut std::io::empty())?.0);
    }
    Some(text)
}

/// The cases on standard input. A line that cannot be read ends the run.
pub fn cases_command(rest: Arguments, input: &mut impl Read) -> Option<Outcome> {
    rest.end()?;
    let mut file = String::new();
    input.read_to_string(&mut file).ok()?;
    let mut text = Vec::new();
    for (place, line) in file.split('\n').enumerate() {
        if line.is_empty() || line.starts_with('#') {
            continue;
        }
        let Some(output) = line_output(line) else {
            text.extend(format!("line {} cannot be read\n", place + 1).into_bytes());
            return Some((text, false));
        };
        text.extend(output);
    }
    Some((text, true))
}
