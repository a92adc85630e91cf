//! The commands on records: what was committed and opened is written as a
//! record, and the record, or what is made of it, is checked.

use std::io::Read;

use crate::calls::Answer;
use crate::cli::{answer_lines, buffer_line, to_hex, Arguments, Outcome, Rows, Run, PATTERN};
use crate::named::check_named;
use crate::record::{check_record, record_bytes, version_1, work_lengths, write_record, Record};
use crate::shape::{row_bytes, Shape};

/// The work buffers of the check, with a pattern in each byte.
#[derive(Clone)]
struct Work {
    tree: Vec<u8>,
    leaf_commitments: Vec<u8>,
    q: Vec<u8>,
}

impl Work {
    fn new(lengths: [usize; 3]) -> Work {
        Work::filled(lengths, PATTERN)
    }

    fn filled([tree, leaf_commitments, q]: [usize; 3], fill: u8) -> Work {
        Work {
            tree: vec![fill; tree],
            leaf_commitments: vec![fill; leaf_commitments],
            q: vec![fill; q],
        }
    }

    fn check(&mut self, record: &[u8]) -> Answer {
        let (tree, coms) = (&mut self.tree, &mut self.leaf_commitments);
        check_record(record, tree, coms, &mut self.q)
    }

    fn check_named(&mut self, record: &[u8]) -> Answer {
        let (tree, coms) = (&mut self.tree, &mut self.leaf_commitments);
        check_named(record, tree, coms, &mut self.q)
    }

    fn bytes(&self) -> impl Iterator<Item = &u8> {
        let bytes = self.tree.iter().chain(&self.leaf_commitments);
        bytes.chain(&self.q)
    }

    fn kept(&self) -> bool {
        self.bytes().all(|byte| *byte == PATTERN)
    }

    fn lines(&self) -> String {
        buffer_line("tree", &self.tree)
            + &buffer_line("leaf_commitments", &self.leaf_commitments)
            + &buffer_line("q", &self.q)
    }
}

/// The check of a record in a few characters: its number, a slash, its count,
/// and a plus where a byte of a work buffer was written, otherwise a minus.
fn verdict(record: &[u8], mut work: Work) -> String {
    let answer = work.check(record);
    let sign = if work.kept() { '-' } else { '+' };
    format!(" {}/{}{sign}", answer.number, answer.count)
}

/// How many edits there are.
const EDITS: usize = 12;

/// Places in a record: of the last byte of the IV's length, of the last byte of
/// challenge and opening, and of the first of the commitment.
#[derive(Clone, Copy)]
struct Places {
    iv_length: usize,
    challenge: usize,
    opening: usize,
    commitment: usize,
}

impl Places {
    /// Behind the version byte each field stands behind the four bytes of its
    /// length: the head, the IV of 16 bytes, the challenge; at the end the
    /// commitment.
    fn of(bytes: &[u8], record: &Record) -> Places {
        let behind_head = 1 + 4 + usize::from(bytes[4]);
        let commitment = bytes.len() - record.commitment.len();
        Places {
            iv_length: behind_head + 3,
            challenge: behind_head + 4 + 16 + 4 + record.challenge.len() - 1,
            opening: commitment - 4 - 1,
            commitment,
        }
    }
}

/// One of the edits of `pairs`, each of which the check must refuse: of a byte of
/// the record, or of the length of what is lent.
fn edit(number: usize, at: Places, record: &mut Vec<u8>, work: &mut Work) {
    match number {
        // version, the first field's length, τ, the row length, the IV's length
        0 => record[0] ^= 4,
        1 => record[4] ^= 1,
        2 => record[5] ^= 0x20,
        3 => record[13] ^= 4,
        4 => record[at.iv_length] ^= 1,
        // a byte left over
        5 => record.push(0),
        // the work buffers
        6 => work.tree.truncate(work.tree.len() - 1),
        7 => work.leaf_commitments.push(PATTERN),
        8 => work.q.truncate(work.q.len() - 1),
        // the last byte of challenge and opening, the first of the commitment
        9 => record[at.challenge] ^= 0x80,
        10 => record[at.opening] ^= 1,
        _ => record[at.commitment] ^= 1,
    }
}

/// Every prefix of the record.
fn prefixes(record: &[u8], work: &Work) -> String {
    let line = |n| format!("prefix {n}{}\n", verdict(&record[..n], work.clone()));
    (0..record.len()).map(line).collect()
}

/// Every bit of the record flipped, a line for each byte.
fn flips(record: &[u8], work: &Work) -> String {
    let flipped = |n: usize, bit: u8| {
        let mut other = record.to_vec();
        other[n] ^= 1 << bit;
        verdict(&other, work.clone())
    };
    let line = |n| {
        let verdicts: String = (0..8).map(|bit| flipped(n, bit)).collect();
        format!("byte {n}{verdicts}\n")
    };
    (0..record.len()).map(line).collect()
}

/// Every edit, and every two of them.
fn pairs(record: &[u8], at: Places, work: &Work) -> String {
    let edited = |first: usize, second: usize| {
        let (mut record, mut work) = (record.to_vec(), work.clone());
        edit(first, at, &mut record, &mut work);
        if first != second {
            edit(second, at, &mut record, &mut work);
        }
        verdict(&record, work)
    };
    let line = |first| {
        let verdicts: String = (first..EDITS).map(|second| edited(first, second)).collect();
        format!("edit {first}{verdicts}\n")
    };
    (0..EDITS).map(line).collect()
}

/// `record`, `named`, `prefixes`, `flips` and `pairs`. The last three check what is
/// made of the record also where the opening was refused; it is zeros then. With
/// `of_version_1` the record is one of version 1, which there is at level 128 and of
/// kind 0 only.
pub fn record_command(command: &str, of_version_1: bool, mut rest: Arguments) -> Option<Outcome> {
    let (shape, row_bits) = (rest.shape()?, rest.number()?);
    if of_version_1 && (shape.level, shape.kind) != (128, 0) {
        return None;
    }
    let (root, iv, challenge) = (rest.bytes()?, rest.bytes()?, rest.bytes()?);
    rest.end()?;

    let rows = Rows::whole(row_bits);
    let mut run = Run::new(shape, rows, 0);
    run.commit(shape, rows, &root, &iv);
    run.open(shape, &challenge);
    let stops = |answer: &Answer| matches!(command, "record" | "named") || answer.number != 5;
    if let Some(answer) = run.refused().filter(stops) {
        return Some((answer_lines(answer).into_bytes(), true));
    }
    let record = Record {
        shape,
        row_bits,
        iv: &iv,
        challenge: &challenge,
        corrections: &run.corrections,
        opening: &run.opening,
        commitment: &run.commitment,
    };
    let mut bytes = vec![PATTERN; exact_length(shape, row_bits)];
    let answer = write_record(&record, &mut bytes);
    if answer.number != 0 {
        return Some((answer_lines(answer).into_bytes(), true));
    }
    if of_version_1 {
        bytes = version_1(&record);
    }
    let mut work = Work::new(work_lengths(&bytes).ok()?);
    let text = match command {
        "named" => answer_lines(work.check_named(&bytes)),
        "prefixes" => prefixes(&bytes, &work),
        "flips" => flips(&bytes, &work),
        "pairs" => pairs(&bytes, Places::of(&bytes, &record), &work),
        _ => {
            let answer = work.check(&bytes);
            answer_lines(answer) + &buffer_line("record", &bytes) + &work.lines()
        }
    };
    Some((text.into_bytes(), true))
}

/// The length of a record, 0 where there is none.
fn exact_length(shape: Shape, row_bits: usize) -> usize {
    let meant = shape.resolve().zip(row_bytes(row_bits));
    meant.map_or(0, |(meant, b)| record_bytes(&meant, b))
}

/// `check`: the record on standard input, with work buffers of the lengths that
/// it asks for; with `--named` for named sets alone.
pub fn check_command(mut rest: Arguments, input: &mut impl Read) -> Option<Outcome> {
    let named = rest.flag("--named");
    rest.end()?;
    let mut record = Vec::new();
    input.read_to_end(&mut record).ok()?;
    let mut work = Work::new(work_lengths(&record).unwrap_or_default());
    let answer = if named {
        work.check_named(&record)
    } else {
        work.check(&record)
    };
    let mut text = answer_lines(answer);
    if matches!(answer.number, 0 | 11) {
        text += &work.lines();
    }
    Some((text.into_bytes(), true))
}

/// One of the checks of `checks`, from the front of the input: 1 for named sets
/// alone, otherwise 0, the fill of the buffers, the lengths of the work buffers and
/// of the count slice, the length of the record, four bytes each, the greatest
/// first, and the record. Gives the line to print: the number, the count slice, and
/// FNV-1a of the work buffers.
fn one_of_many(input: &mut &[u8]) -> Option<String> {
    let (head, rest) = input.split_at_checked(22)?;
    let number =
        |n: usize| u32::from_be_bytes(head[2 + 4 * n..6 + 4 * n].try_into().unwrap()) as usize;
    let (record, rest) = rest.split_at_checked(number(4))?;
    *input = rest;
    let call = if head[0] == 1 {
        check_named
    } else {
        check_record
    };
    let mut work = Work::filled([number(0), number(1), number(2)], head[1]);
    let mut count = vec![head[1]; number(3)];
    // A count slice of another length is refused as a work buffer is.
    let tree = if count.len() == 4 {
        &mut work.tree[..]
    } else {
        &mut []
    };
    let answer = call(record, tree, &mut work.leaf_commitments, &mut work.q);
    if matches!(answer.number, 0 | 5 | 6 | 11) {
        count.copy_from_slice(&answer.count.to_le_bytes());
    }
    let step = |sum: u64, byte: &u8| (sum ^ u64::from(*byte)).wrapping_mul(0x0100_0000_01b3);
    let digest = work.bytes().fold(0xcbf2_9ce4_8422_2325, step);
    Some(format!(
        "{} {} {digest:016x}\n",
        answer.number,
        to_hex(&count)
    ))
}

/// `checks`: many checks, one after another.
pub fn checks_command(rest: Arguments, input: &mut impl Read) -> Option<Outcome> {
    rest.end()?;
    let mut bytes = Vec::new();
    input.read_to_end(&mut bytes).ok()?;
    let (mut rest, mut text) = (&bytes[..], String::new());
    while !rest.is_empty() {
        text += &one_of_many(&mut rest)?;
    }
    Some((text.into_bytes(), true))
}
