//! The commands of version 1 (document 02, E12): each makes its calls with buffers
//! of the exact lengths and prints the answer and what was written, and a probe
//! makes one call with one buffer of another length.

use crate::calls::Answer;
use crate::cli::{
    answer_lines, buffer_line, probe_lines, probed_length, Arguments, Outcome, PATTERN,
};
use crate::shape::{challenge_bit, row_bytes, Shape};
use crate::v1;

/// What commit and what reconstruct write, in the order of the call.
const BY_COMMIT: [&str; 6] = [
    "commitment",
    "trees",
    "leaf_commitments",
    "u",
    "v",
    "corrections",
];
const BY_RECONSTRUCT: [&str; 4] = ["commitment", "trees", "leaf_commitments", "q"];

/// The places of u, V and the corrections in what commit writes, and of Q in what
/// reconstruct writes.
const U: usize = 3;
const V: usize = 4;
const CORRECTIONS: usize = 5;
const Q: usize = 3;

/// The place of the opening among the buffers of reconstruct.
const OPENING: usize = 3;

/// Shape and row length in bits of a call.
#[derive(Clone, Copy)]
struct Numbers {
    shape: Shape,
    row_bits: usize,
}

impl Numbers {
    /// The exact lengths of the buffers of commit, or where the shape is refused an
    /// IV and a node of level 128 and nothing else. A refused row has no bytes.
    fn commit_lengths(self) -> [usize; 8] {
        let b = row_bytes(self.row_bits).unwrap_or(0);
        let none = [16, 16, 0, 0, 0, 0, 0, 0];
        v1::meant(self.shape).map_or(none, |meant| v1::commit_lengths(&meant, b))
    }

    /// The same of open.
    fn open_lengths(self) -> [usize; 4] {
        v1::meant(self.shape).map_or([16, 0, 0, 0], |meant| v1::open_lengths(&meant))
    }

    /// The same of reconstruct.
    fn reconstruct_lengths(self) -> [usize; 8] {
        let b = row_bytes(self.row_bits).unwrap_or(0);
        let none = [16, 16, 0, 0, 0, 0, 0, 0];
        v1::meant(self.shape).map_or(none, |meant| v1::reconstruct_lengths(&meant, b))
    }

    /// Commit on root and IV, and the six buffers that it writes.
    fn commit(self, root: &[u8], iv: &[u8], written: &mut [Vec<u8>]) -> Answer {
        let [com, trees, coms, u, v, c] = written else {
            panic!("commit writes six buffers")
        };
        v1::commit(
            self.shape,
            self.row_bits,
            root,
            iv,
            com,
            trees,
            coms,
            u,
            v,
            c,
        )
    }

    /// Reconstruct on IV, challenge, corrections and opening, and the four buffers
    /// that it writes.
    fn reconstruct(self, read: [&[u8]; 4], written: &mut [Vec<u8>]) -> Answer {
        let [com, trees, coms, q] = written else {
            panic!("reconstruct writes four buffers")
        };
        let [iv, challenge, c, opening] = read;
        v1::reconstruct(
            self.shape,
            self.row_bits,
            iv,
            challenge,
            c,
            opening,
            com,
            trees,
            coms,
            q,
        )
    }
}

/// Buffers of these lengths with the pattern in each byte.
fn patterns(lengths: &[usize]) -> Vec<Vec<u8>> {
    lengths
        .iter()
        .map(|length| vec![PATTERN; *length])
        .collect()
}

/// How many columns j have Q = V, or Q = V xor u where challenge bit j is 1.
fn columns_obeying(made: &[Vec<u8>], q: &[u8], challenge: &[u8]) -> usize {
    let (u, v, b) = (&made[U], &made[V], made[U].len());
    let obeys = |j: &usize| {
        let bit = u8::from(challenge_bit(challenge, *j));
        (0..b).all(|n| q[j * b + n] == v[j * b + n] ^ (bit * u[n]))
    };
    (0..8 * challenge.len()).filter(obeys).count()
}

/// The answer and a line for each buffer; of a refusal the answer alone.
fn written_lines(answer: Answer, names: &[&str], buffers: &[Vec<u8>]) -> Outcome {
    let mut text = answer_lines(answer);
    if answer.number == 0 {
        let lines = names.iter().zip(buffers);
        text.extend(lines.map(|(name, bytes)| buffer_line(name, bytes)));
    }
    (text.into_bytes(), true)
}

/// The commands of whole calls. Each call is made, also behind one that is refused;
/// a round trip is refused by any of its calls, the others by their own.
pub fn bytes_command(command: &str, mut rest: Arguments) -> Option<Outcome> {
    let (shape, row_bits) = (rest.shape()?, rest.number()?);
    let numbers = Numbers { shape, row_bits };
    let (root, iv) = (rest.bytes()?, rest.bytes()?);
    let mut made = patterns(&numbers.commit_lengths()[2..]);
    if command == "v1_commit" {
        rest.end()?;
        let answer = numbers.commit(&root, &iv, &mut made);
        return Some(written_lines(answer, &BY_COMMIT, &made));
    }
    let challenge = rest.bytes()?;
    let flip = match command {
        "v1_reconstruct" => rest.optional_number()?,
        _ => None,
    };
    rest.end()?;

    let committed = numbers.commit(&root, &iv, &mut made);
    let mut openings = patterns(&numbers.open_lengths()[3..]);
    let opened = v1::open(shape, &challenge, &made[1], &made[2], &mut openings[0]);
    if command == "v1_open" {
        return Some(written_lines(opened, &["opening"], &openings));
    }
    if let Some(byte) = flip.and_then(|at| openings[0].get_mut(at)) {
        *byte ^= 1;
    }
    let mut again = patterns(&numbers.reconstruct_lengths()[4..]);
    let read: [&[u8]; 4] = [&iv, &challenge, &made[CORRECTIONS], &openings[0]];
    let answer = numbers.reconstruct(read, &mut again);
    if command == "v1_reconstruct" {
        return Some(written_lines(answer, &BY_RECONSTRUCT, &again));
    }
    let answers = [committed, opened, answer];
    Some(round_trip_lines(answers, &made, &again, &challenge))
}

/// What a round trip prints: its first refusal, or whether the commitments agree and
/// how many columns obey.
fn round_trip_lines(
    answers: [Answer; 3],
    made: &[Vec<u8>],
    again: &[Vec<u8>],
    challenge: &[u8],
) -> Outcome {
    if let Some(refused) = answers.into_iter().find(|answer| answer.number != 0) {
        return (answer_lines(refused).into_bytes(), true);
    }
    let agree = made[0] == again[0];
    let columns = columns_obeying(made, &again[Q], challenge);
    let word = if agree { "agree" } else { "differ" };
    let all = 8 * challenge.len();
    let head = answer_lines(answers[2]);
    let text = format!("{head}commitments {word}\ncolumns {columns} of {all}\n");
    (text.into_bytes(), agree && columns == all)
}

/// The buffers of a probe: those that are read with zeros, those that are written,
/// from the place `first_written` on, with the pattern. The one numbered WHICH is
/// a byte shorter than the exact length, or longer where MORE is not 0.
fn probed(lengths: &[usize], first_written: usize, which: usize, more: usize) -> Vec<Vec<u8>> {
    let buffer = |(place, exact): (usize, &usize)| {
        let content = if place < first_written { 0 } else { PATTERN };
        vec![content; probed_length(*exact, place == which, more)]
    };
    lengths.iter().enumerate().map(buffer).collect()
}

/// `probe_v1_commit`, `probe_v1_open` and `probe_v1_reconstruct`: one call on zeros.
pub fn probe_command(command: &str, mut rest: Arguments) -> Option<Outcome> {
    let shape = rest.shape()?;
    let row_bits = match command {
        "probe_v1_open" => 8,
        _ => rest.number()?,
    };
    let numbers = Numbers { shape, row_bits };
    let first_byte = match command {
        "probe_v1_commit" => 0,
        _ => u8::try_from(rest.number()?).ok()?,
    };
    let (which, more) = (rest.number()?, rest.number()?);
    let set = match command {
        "probe_v1_reconstruct" => rest.number()?,
        _ => usize::MAX,
    };
    rest.end()?;

    let (lengths, first_written, challenge): (Vec<usize>, usize, usize) = match command {
        "probe_v1_commit" => (numbers.commit_lengths().into(), 2, 0),
        "probe_v1_open" => (numbers.open_lengths().into(), 3, 0),
        _ => (numbers.reconstruct_lengths().into(), 4, 1),
    };
    let mut buffers = probed(&lengths, first_written, which, more);
    buffers[challenge][0] = first_byte;
    if let Some(byte) = buffers
        .get_mut(OPENING)
        .and_then(|opening| opening.get_mut(set))
    {
        *byte = 1;
    }
    let (read, written) = buffers.split_at_mut(first_written);
    let answer = match command {
        "probe_v1_commit" => numbers.commit(&read[0], &read[1], written),
        "probe_v1_open" => v1::open(shape, &read[0], &read[1], &read[2], &mut written[0]),
        _ => {
            let read: [&[u8]; 4] = [&read[0], &read[1], &read[2], &read[3]];
            numbers.reconstruct(read, written)
        }
    };
    let kept = written.concat().iter().all(|byte| *byte == PATTERN);
    Some((probe_lines(answer, kept).into_bytes(), true))
}
