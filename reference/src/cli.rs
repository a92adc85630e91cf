//! The command line: each command makes its calls with buffers of the exact
//! lengths and prints the answer and what was written.

use std::io::Read;

use crate::calls::{
    commit, commit_stretch, decode, open, plan, reconstruct, reconstruct_stretch, Answer,
};
use crate::cases::cases_command;
use crate::enumeration::list_challenges;
use crate::listing::list;
use crate::record_commands::{check_command, checks_command, record_command};
use crate::report::report;
use crate::shake::shake128;
use crate::shape::{row_bytes, Shape};
use crate::stretch::Stretch;
use crate::v1_commands;

pub const USAGE: &str = "\
usage: reference decode      TAU K W T LEVEL KIND CHALLENGE
       reference plan        TAU K W T LEVEL KIND CHALLENGE
       reference commit      TAU K W T LEVEL KIND ROWBITS ROOT IV
       reference open        TAU K W T LEVEL KIND ROWBITS ROOT IV CHALLENGE
       reference reconstruct TAU K W T LEVEL KIND ROWBITS ROOT IV CHALLENGE [FLIP]
       reference roundtrip   TAU K W T LEVEL KIND ROWBITS ROOT IV CHALLENGE
       reference record      TAU K W T LEVEL KIND ROWBITS ROOT IV CHALLENGE
       reference named       TAU K W T LEVEL KIND ROWBITS ROOT IV CHALLENGE
       reference prefixes    TAU K W T LEVEL KIND ROWBITS ROOT IV CHALLENGE
       reference flips       TAU K W T LEVEL KIND ROWBITS ROOT IV CHALLENGE
       reference pairs       TAU K W T LEVEL KIND ROWBITS ROOT IV CHALLENGE
       reference probe_commit      TAU K W T LEVEL KIND ROWBITS WHICH MORE
       reference probe_open        TAU K W T LEVEL KIND BYTE WHICH MORE
       reference probe_reconstruct TAU K W T LEVEL KIND ROWBITS BYTE WHICH MORE SET
       reference probe_decode      TAU K W T LEVEL KIND BYTE WHICH MORE
       reference probe_plan        TAU K W T LEVEL KIND BYTE WHICH MORE
       reference v1_commit      TAU K W T LEVEL KIND ROWBITS ROOT IV
       reference v1_open        TAU K W T LEVEL KIND ROWBITS ROOT IV CHALLENGE
       reference v1_reconstruct TAU K W T LEVEL KIND ROWBITS ROOT IV CHALLENGE [FLIP]
       reference v1_roundtrip   TAU K W T LEVEL KIND ROWBITS ROOT IV CHALLENGE
       reference probe_v1_commit      TAU K W T LEVEL KIND ROWBITS WHICH MORE
       reference probe_v1_open        TAU K W T LEVEL KIND BYTE WHICH MORE
       reference probe_v1_reconstruct TAU K W T LEVEL KIND ROWBITS BYTE WHICH MORE SET
       reference list        (its line on standard input)
       reference list_challenges (its line on standard input)
       reference report      (records on standard input)
       reference cases       (cases on standard input, one a line)
       reference check       [--named] (a record on standard input)
       reference checks      (records and buffers on standard input)
Each with ROWBITS but those on records and of v1 is also there for a stretch of the
rows: _stretch behind its name, FIRST WIDTH behind ROWBITS. Each on records that has
ROWBITS is also there with a record of version 1, at level 128 and of kind 0:
_version_1 behind its name.
Numbers are decimal; ROOT, IV and CHALLENGE are hexadecimal, byte 0 first.
";

/// The bytes in hexadecimal.
pub fn to_hex(bytes: &[u8]) -> String {
    bytes.iter().map(|byte| format!("{byte:02x}")).collect()
}

/// The bytes of a hexadecimal argument of any even length.
pub fn from_hex(digits: &str) -> Option<Vec<u8>> {
    let values: Option<Vec<u32>> = digits.chars().map(|digit| digit.to_digit(16)).collect();
    let values = values.filter(|values| values.len() % 2 == 0)?;
    let pairs = values.chunks_exact(2);
    Some(pairs.map(|pair| (16 * pair[0] + pair[1]) as u8).collect())
}

/// The lines `number` and `count`.
pub fn answer_lines(answer: Answer) -> String {
    format!("number {}\ncount {}\n", answer.number, answer.count)
}

/// The line of an output buffer: name, length in bytes, and the bytes, or where
/// there are more than 64 their SHAKE128 digest of 32 bytes.
pub fn buffer_line(name: &str, bytes: &[u8]) -> String {
    let content = match bytes.len() {
        0 => String::new(),
        1..=64 => format!(" {}", to_hex(bytes)),
        _ => format!(" shake128 {}", to_hex(&shake128(bytes, 32))),
    };
    format!("{name} {}{content}\n", bytes.len())
}

/// The line of a list of numbers: name, how many were written, and these.
fn list_line(name: &str, numbers: &[u32]) -> String {
    let content: String = numbers.iter().map(|number| format!(" {number}")).collect();
    format!("{name} {}{content}\n", numbers.len())
}

/// The row length of a call in bits, and the stretch where it is a call of one.
#[derive(Clone, Copy)]
pub struct Rows {
    bits: usize,
    stretch: Option<Stretch>,
}

impl Rows {
    pub fn whole(bits: usize) -> Rows {
        Rows {
            bits,
            stretch: None,
        }
    }

    /// The bytes of a row that a call writes; of a refused stretch at most a row.
    fn width(self) -> usize {
        let b = row_bytes(self.bits).unwrap_or(0);
        self.stretch.map_or(b, |stretch| stretch.width.min(b))
    }
}

/// Commit, or its form for a stretch.
#[allow(clippy::too_many_arguments)]
fn call_commit(
    shape: Shape,
    rows: Rows,
    root: &[u8],
    iv: &[u8],
    com: &mut [u8],
    tree: &mut [u8],
    coms: &mut [u8],
    u: &mut [u8],
    v: &mut [u8],
    c: &mut [u8],
) -> Answer {
    match rows.stretch {
        None => commit(shape, rows.bits, root, iv, com, tree, coms, u, v, c),
        Some(stretch) => commit_stretch(
            shape, rows.bits, stretch, root, iv, com, tree, coms, u, v, c,
        ),
    }
}

/// Reconstruct, or its form for a stretch.
#[allow(clippy::too_many_arguments)]
fn call_reconstruct(
    shape: Shape,
    rows: Rows,
    iv: &[u8],
    challenge: &[u8],
    c: &[u8],
    opening: &[u8],
    com: &mut [u8],
    tree: &mut [u8],
    coms: &mut [u8],
    q: &mut [u8],
) -> Answer {
    match rows.stretch {
        None => reconstruct(
            shape, rows.bits, iv, challenge, c, opening, com, tree, coms, q,
        ),
        Some(stretch) => reconstruct_stretch(
            shape, rows.bits, stretch, iv, challenge, c, opening, com, tree, coms, q,
        ),
    }
}

/// The buffers of commit, open and reconstruct, and the answers of these calls
/// made one after another, also behind one that is refused.
pub struct Run {
    pub answers: Vec<Answer>,
    pub commitment: Vec<u8>,
    tree: Vec<u8>,
    leaf_commitments: Vec<u8>,
    u: Vec<u8>,
    v: Vec<u8>,
    pub corrections: Vec<u8>,
    pub opening: Vec<u8>,
    again_commitment: Vec<u8>,
    again_tree: Vec<u8>,
    again_leaf_commitments: Vec<u8>,
    q: Vec<u8>,
}

impl Run {
    /// Buffers of the exact lengths with `fill` in each byte; empty ones where
    /// there is no exact length.
    pub fn new(shape: Shape, rows: Rows, fill: u8) -> Run {
        let shape = shape.resolve();
        let bytes = |length: fn(&Shape) -> usize| vec![fill; shape.as_ref().map_or(0, length)];
        let b = rows.width();
        Run {
            answers: Vec::new(),
            commitment: bytes(Shape::commitment_bytes),
            tree: bytes(Shape::tree_bytes),
            leaf_commitments: bytes(Shape::leaf_commitments_bytes),
            u: vec![fill; b],
            v: vec![fill; shape.map_or(0, |shape| shape.matrix_bytes(b))],
            corrections: vec![fill; shape.map_or(0, |shape| shape.corrections_bytes(b))],
            opening: bytes(Shape::opening_bytes),
            again_commitment: bytes(Shape::commitment_bytes),
            again_tree: bytes(Shape::tree_bytes),
            again_leaf_commitments: bytes(Shape::leaf_commitments_bytes),
            q: vec![fill; shape.map_or(0, |shape| shape.matrix_bytes(b))],
        }
    }

    /// The first answer that is not 0.
    pub fn refused(&self) -> Option<Answer> {
        self.answers
            .iter()
            .copied()
            .find(|answer| answer.number != 0)
    }

    pub fn commit(&mut self, shape: Shape, rows: Rows, root: &[u8], iv: &[u8]) {
        self.answers.push(call_commit(
            shape,
            rows,
            root,
            iv,
            &mut self.commitment,
            &mut self.tree,
            &mut self.leaf_commitments,
            &mut self.u,
            &mut self.v,
            &mut self.corrections,
        ));
    }

    pub fn open(&mut self, shape: Shape, challenge: &[u8]) {
        let (tree, coms) = (&self.tree, &self.leaf_commitments);
        let answer = open(shape, challenge, tree, coms, &mut self.opening);
        self.answers.push(answer);
    }

    fn reconstruct(&mut self, shape: Shape, rows: Rows, iv: &[u8], challenge: &[u8]) {
        self.answers.push(call_reconstruct(
            shape,
            rows,
            iv,
            challenge,
            &self.corrections,
            &self.opening,
            &mut self.again_commitment,
            &mut self.again_tree,
            &mut self.again_leaf_commitments,
            &mut self.q,
        ));
    }

    /// How many columns j have Q = V, or Q = V xor u where challenge bit j is 1.
    fn columns_obeying(&self, challenge: &[u8]) -> usize {
        let b = self.u.len();
        let obeys = |j: &usize| {
            let bit = challenge[j / 8] >> (j % 8) & 1;
            (0..b).all(|n| self.q[j * b + n] == self.v[j * b + n] ^ (bit * self.u[n]))
        };
        (0..8 * challenge.len()).filter(obeys).count()
    }
}

/// The arguments after the command, taken from the front.
pub struct Arguments<'a>(std::slice::Iter<'a, String>);

impl Arguments<'_> {
    pub fn number(&mut self) -> Option<usize> {
        self.0.next()?.parse().ok()
    }

    /// The number that may stand at the end: nothing where it cannot be read.
    pub fn optional_number(&mut self) -> Option<Option<usize>> {
        match self.0.as_slice() {
            [] => Some(None),
            _ => Some(Some(self.number()?)),
        }
    }

    pub fn bytes(&mut self) -> Option<Vec<u8>> {
        from_hex(self.0.next()?)
    }

    pub fn shape(&mut self) -> Option<Shape> {
        Some(Shape {
            tau: self.number()?,
            k: self.number()?,
            w: self.number()?,
            t: self.number()?,
            level: self.number()?,
            kind: self.number()?,
        })
    }

    fn rows(&mut self, of_stretch: bool) -> Option<Rows> {
        let bits = self.number()?;
        let stretch = match of_stretch {
            true => Some(Stretch::new(self.number()?, self.number()?)),
            false => None,
        };
        Some(Rows { bits, stretch })
    }

    /// Whether this word stands next; then it is taken.
    pub fn flag(&mut self, word: &str) -> bool {
        let found = self.0.as_slice().first().is_some_and(|next| next == word);
        if found {
            self.0.next();
        }
        found
    }

    pub fn end(mut self) -> Option<()> {
        self.0.next().is_none().then_some(())
    }
}

/// The text to print, and whether all is well: only a round trip that does not
/// come out as it must is not.
pub type Outcome = (Vec<u8>, bool);

/// `list`, `list_challenges` and `report`, with what they read from the input.
fn list_command(command: &str, rest: Arguments, input: &mut impl Read) -> Option<Outcome> {
    rest.end()?;
    let mut bytes = Vec::new();
    input.read_to_end(&mut bytes).ok()?;
    let text = match command {
        "list" => list(&bytes),
        "list_challenges" => list_challenges(&bytes),
        _ => report(&bytes),
    };
    Some((text, true))
}

/// `decode` and `plan`.
fn numbers_command(command: &str, mut rest: Arguments) -> Option<Outcome> {
    let (shape, challenge) = (rest.shape()?, rest.bytes()?);
    rest.end()?;
    let meant = shape.resolve();
    let (answer, line) = if command == "decode" {
        let mut indices = vec![0; meant.map_or(0, |meant| meant.tau)];
        let answer = decode(shape, &challenge, &mut indices);
        (answer, list_line("indices", &indices))
    } else {
        let mut nodes = vec![0; meant.map_or(0, |meant| meant.t)];
        let answer = plan(shape, &challenge, &mut nodes);
        nodes.truncate(answer.count as usize);
        (answer, list_line("nodes", &nodes))
    };
    let mut text = answer_lines(answer);
    if answer.number == 0 {
        text += &line;
    }
    Some((text.into_bytes(), true))
}

/// `commit`, `open`, `reconstruct` and `roundtrip`, of whole rows or a stretch.
fn bytes_command(command: &str, of_stretch: bool, mut rest: Arguments) -> Option<Outcome> {
    let (shape, rows) = (rest.shape()?, rest.rows(of_stretch)?);
    let (root, iv) = (rest.bytes()?, rest.bytes()?);
    let challenge = match command {
        "commit" => Vec::new(),
        _ => rest.bytes()?,
    };
    let flip = match command {
        "reconstruct" => rest.optional_number()?,
        _ => None,
    };
    rest.end()?;

    let mut run = Run::new(shape, rows, PATTERN);
    run.commit(shape, rows, &root, &iv);
    if command != "commit" {
        run.open(shape, &challenge);
    }
    if let Some(byte) = flip.and_then(|at| run.opening.get_mut(at)) {
        *byte ^= 1;
    }
    if command == "reconstruct" || command == "roundtrip" {
        run.reconstruct(shape, rows, &iv, &challenge);
    }

    // a round trip is refused by any of its calls, the others by their own
    let last = *run.answers.last()?;
    let answer = match command {
        "roundtrip" => run.refused().unwrap_or(last),
        _ => last,
    };
    let text = answer_lines(answer);
    if answer.number != 0 {
        return Some((text.into_bytes(), true));
    }
    let buffers: &[(&str, &[u8])] = match command {
        "commit" => &[
            ("commitment", &run.commitment),
            ("tree", &run.tree),
            ("leaf_commitments", &run.leaf_commitments),
            ("u", &run.u),
            ("v", &run.v),
            ("corrections", &run.corrections),
        ],
        "open" => &[("opening", &run.opening)],
        "reconstruct" => &[
            ("commitment", &run.again_commitment),
            ("tree", &run.again_tree),
            ("leaf_commitments", &run.again_leaf_commitments),
            ("q", &run.q),
        ],
        _ => {
            let agree = run.commitment == run.again_commitment;
            let columns = run.columns_obeying(&challenge);
            let word = if agree { "agree" } else { "differ" };
            let all = 8 * challenge.len();
            let text = format!("{text}commitments {word}\ncolumns {columns} of {all}\n");
            return Some((text.into_bytes(), agree && columns == all));
        }
    };
    let lines = buffers.iter().map(|(name, bytes)| buffer_line(name, bytes));
    Some((
        lines.fold(text, |text, line| text + &line).into_bytes(),
        true,
    ))
}

/// The byte that a probe fills the outputs with.
pub const PATTERN: u8 = 0xa5;

/// The length of a buffer of a probe: the exact one, or where it is the one that
/// is changed one less, or more where MORE is not 0.
pub fn probed_length(exact: usize, changed: bool, more: usize) -> usize {
    match (changed, more) {
        (false, _) => exact,
        (true, 0) => exact.saturating_sub(1),
        (true, _) => exact + 1,
    }
}

/// The bytes of a root and of a challenge in a probe: 16 where there is no shape.
fn probed_node_bytes(shape: Shape) -> usize {
    shape.resolve().map_or(16, |meant| meant.node_bytes())
}

/// What a probe prints: the answer, and whether the outputs are as they were.
pub fn probe_lines(answer: Answer, kept: bool) -> String {
    let word = if kept { "kept" } else { "written" };
    format!("{}outputs {word}\n", answer_lines(answer))
}

/// `probe_decode` and `probe_plan`: one call, on a challenge and a list of which
/// the one numbered WHICH is too short or too long, with the pattern in each byte
/// of the list.
fn probe_numbers_command(command: &str, mut rest: Arguments) -> Option<Outcome> {
    let shape = rest.shape()?;
    let first_byte = u8::try_from(rest.number()?).ok()?;
    let (which, more) = (rest.number()?, rest.number()?);
    rest.end()?;

    let exact = probed_node_bytes(shape);
    let mut challenge = vec![0; probed_length(exact, which == 0, more)];
    challenge[0] = first_byte;
    let meant = shape.resolve();
    let (call, exact): (fn(Shape, &[u8], &mut [u32]) -> Answer, usize) = match command {
        "probe_decode" => (decode, meant.map_or(0, |meant| meant.tau)),
        _ => (plan, meant.map_or(0, |meant| meant.t)),
    };
    let pattern = u32::from_le_bytes([PATTERN; 4]);
    let mut list = vec![pattern; probed_length(exact, which == 1, more)];
    let answer = call(shape, &challenge, &mut list);
    let kept = list.iter().all(|number| *number == pattern);
    Some((probe_lines(answer, kept).into_bytes(), true))
}

/// `probe_commit`, `probe_open` and `probe_reconstruct`: one call, on buffers of
/// which the one numbered WHICH, in the order of the call, is a byte shorter than
/// the exact length, or longer where MORE is not 0.
fn probe_command(command: &str, of_stretch: bool, mut rest: Arguments) -> Option<Outcome> {
    let shape = rest.shape()?;
    let rows = match command {
        "probe_open" => Rows {
            bits: 8,
            stretch: None,
        },
        _ => rest.rows(of_stretch)?,
    };
    let first_byte = match command {
        "probe_commit" => 0,
        _ => u8::try_from(rest.number()?).ok()?,
    };
    let (which, more) = (rest.number()?, rest.number()?);
    let set = match command {
        "probe_reconstruct" => rest.optional_number()??,
        _ => usize::MAX,
    };
    rest.end()?;

    let exact = Run::new(shape, rows, PATTERN);
    let buffer = |place: usize, exact: usize, content: u8| {
        vec![content; probed_length(exact, place == which, more)]
    };
    let challenge = |place: usize| {
        let mut challenge = buffer(place, probed_node_bytes(shape), 0);
        challenge[0] = first_byte;
        challenge
    };
    let mut outputs;
    let answer = match command {
        "probe_commit" => {
            let root = buffer(0, probed_node_bytes(shape), 0);
            let iv = buffer(1, 16, 0);
            outputs = vec![
                buffer(2, exact.commitment.len(), PATTERN),
                buffer(3, exact.tree.len(), PATTERN),
                buffer(4, exact.leaf_commitments.len(), PATTERN),
                buffer(5, exact.u.len(), PATTERN),
                buffer(6, exact.v.len(), PATTERN),
                buffer(7, exact.corrections.len(), PATTERN),
            ];
            let [commitment, tree, leaf_commitments, u, v, corrections] = &mut outputs[..] else {
                return None;
            };
            call_commit(
                shape,
                rows,
                &root,
                &iv,
                commitment,
                tree,
                leaf_commitments,
                u,
                v,
                corrections,
            )
        }
        "probe_open" => {
            let tree = buffer(1, exact.tree.len(), 0);
            let leaf_commitments = buffer(2, exact.leaf_commitments.len(), 0);
            outputs = vec![buffer(3, exact.opening.len(), PATTERN)];
            open(
                shape,
                &challenge(0),
                &tree,
                &leaf_commitments,
                &mut outputs[0],
            )
        }
        _ => {
            let iv = buffer(0, 16, 0);
            let corrections = buffer(2, exact.corrections.len(), 0);
            let mut opening = buffer(3, exact.opening.len(), 0);
            if let Some(byte) = opening.get_mut(set) {
                *byte = 1;
            }
            outputs = vec![
                buffer(4, exact.commitment.len(), PATTERN),
                buffer(5, exact.tree.len(), PATTERN),
                buffer(6, exact.leaf_commitments.len(), PATTERN),
                buffer(7, exact.q.len(), PATTERN),
            ];
            let [commitment, tree, leaf_commitments, q] = &mut outputs[..] else {
                return None;
            };
            call_reconstruct(
                shape,
                rows,
                &iv,
                &challenge(1),
                &corrections,
                &opening,
                commitment,
                tree,
                leaf_commitments,
                q,
            )
        }
    };
    let kept = outputs.concat().iter().all(|byte| *byte == PATTERN);
    Some((probe_lines(answer, kept).into_bytes(), true))
}

/// Carries out a command; nothing where the arguments cannot be read.
pub fn run(args: &[String], input: &mut impl Read) -> Option<Outcome> {
    let (name, rest) = args.split_first()?;
    let rest = Arguments(rest.iter());
    if let Some(command) = name.strip_suffix("_version_1") {
        return match command {
            "record" | "named" | "prefixes" | "flips" | "pairs" => {
                record_command(command, true, rest)
            }
            _ => None,
        };
    }
    let (command, of_stretch) = match name.strip_suffix("_stretch") {
        Some(command) => (command, true),
        None => (name.as_str(), false),
    };
    match command {
        "commit" | "open" | "reconstruct" | "roundtrip" => bytes_command(command, of_stretch, rest),
        "probe_commit" | "probe_reconstruct" => probe_command(command, of_stretch, rest),
        _ if of_stretch => None,
        "list" | "list_challenges" | "report" => list_command(command, rest, input),
        "cases" => cases_command(rest, input),
        "check" => check_command(rest, input),
        "checks" => checks_command(rest, input),
        "record" | "named" | "prefixes" | "flips" | "pairs" => record_command(command, false, rest),
        "decode" | "plan" => numbers_command(command, rest),
        "probe_open" => probe_command(command, false, rest),
        "probe_decode" | "probe_plan" => probe_numbers_command(command, rest),
        "v1_commit" | "v1_open" | "v1_reconstruct" | "v1_roundtrip" => {
            v1_commands::bytes_command(command, rest)
        }
        "probe_v1_commit" | "probe_v1_open" | "probe_v1_reconstruct" => {
            v1_commands::probe_command(command, rest)
        }
        _ => None,
    }
}
