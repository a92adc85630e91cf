//! A host of both halves, to copy from: commits, draws challenges until open answers 0, reconstructs and compares; then does the same by stretches of the rows. It prints
//! what ../c/round_trip.c prints. The challenges come from a fixed sequence; a signer takes its own.

use rachnoel::{Commit, Open, Reconstruct, Refusal, Set, IV};

const STRETCH: usize = 64;

fn draw(state: &mut u64, n: usize) -> Vec<u8> {
    let byte = |_| {
        *state = state.wrapping_add(0x9e37_79b9_7f4a_7c15);
        let z = (*state ^ *state >> 30).wrapping_mul(0xbf58_476d_1ce4_e5b9);
        let z = (z ^ z >> 27).wrapping_mul(0x94d0_49bb_1331_11eb);
        (z ^ z >> 31) as u8
    };
    (0..n).map(byte).collect()
}

/// How many of the columns of q are that of v, xored with u where the bit of the challenge is 1.
fn agreeing(challenge: &[u8], u: &[u8], v: &[u8], q: &[u8]) -> usize {
    let columns = v.chunks(u.len()).zip(q.chunks(u.len()));
    let agrees = |(c, (v, q)): &(usize, (&[u8], &[u8]))| {
        let mask = if challenge[c / 8] >> (c % 8) & 1 == 1 { 0xff } else { 0 };
        (0..u.len()).all(|p| q[p] == v[p] ^ u[p] & mask)
    };
    columns.enumerate().filter(agrees).count()
}

/// The stretch of strings of a row each that are laid one after another.
fn cut(whole: &[u8], row: usize, first: usize, width: usize) -> Vec<u8> {
    whole.chunks(row).flat_map(|row| &row[first..first + width]).copied().collect()
}

/// The number of an answer, as it is printed.
fn number<T>(answer: &Result<T, Refusal>) -> usize {
    answer.as_ref().map_or_else(|refusal| refusal.number(), |_| 0)
}

/// What the signing half writes.
struct Signed {
    commitment: Vec<u8>,
    tree: Vec<u8>,
    leaf_commitments: Vec<u8>,
    u: Vec<u8>,
    v: Vec<u8>,
    corrections: Vec<u8>,
}

impl Signed {
    fn of(set: Set, row: usize) -> Signed {
        let n = set.shape.lengths(row).expect("a shape");
        let [commitment, tree, leaf_commitments, u, v, corrections] = [n.commitment, n.tree, n.leaf_commitments, n.u, n.matrix, n.corrections].map(|n| vec![0; n]);
        Signed { commitment, tree, leaf_commitments, u, v, corrections }
    }

    fn call<'a>(&'a mut self, set: Set, root: &'a [u8], iv: &'a [u8; IV]) -> Commit<'a> {
        let Signed { commitment, tree, leaf_commitments, u, v, corrections } = self;
        Commit { shape: set.shape, row_bits: set.row_bits, root, iv, commitment, tree, leaf_commitments, u, v, corrections }
    }
}

/// What the checking half writes.
struct Checked {
    commitment: Vec<u8>,
    tree: Vec<u8>,
    leaf_commitments: Vec<u8>,
    q: Vec<u8>,
}

impl Checked {
    fn of(set: Set, row: usize) -> Checked {
        let n = set.shape.lengths(row).expect("a shape");
        let [commitment, tree, leaf_commitments, q] = [n.commitment, n.tree, n.leaf_commitments, n.matrix].map(|n| vec![0; n]);
        Checked { commitment, tree, leaf_commitments, q }
    }

    fn call<'a>(&'a mut self, set: Set, iv: &'a [u8; IV], challenge: &'a [u8], corrections: &'a [u8], opening: &'a [u8]) -> Reconstruct<'a> {
        let Checked { commitment, tree, leaf_commitments, q } = self;
        Reconstruct { shape: set.shape, row_bits: set.row_bits, iv, challenge, corrections, opening, commitment, tree, leaf_commitments, q }
    }
}

fn run(name: &str, set: Set) -> bool {
    let (shape, row) = (set.shape, set.row_bits / 8);
    let n = shape.lengths(row).expect("a shape");
    let root: Vec<u8> = (0..n.node as u8).collect();
    let iv: [u8; IV] = std::array::from_fn(|i| 16 + i as u8);

    // the signer commits
    let mut signed = Signed::of(set, row);
    let committed = signed.call(set, &root, &iv).run();
    print!("{name}: commit {}", number(&committed));

    // it draws challenges until one has its last w bits clear and needs at most t nodes
    let mut opening = vec![0; n.opening];
    let (mut state, mut grinding, mut nodes) = (1, 0, 0);
    let (challenge, opened) = loop {
        let challenge = draw(&mut state, n.node);
        match (Open { shape, challenge: &challenge, tree: &signed.tree, leaf_commitments: &signed.leaf_commitments, opening: &mut opening }).run() {
            Ok(count) => break (challenge, count),
            Err(Refusal::Grinding) => grinding += 1,
            Err(Refusal::Nodes(_)) => nodes += 1,
            Err(refusal) => panic!("open: {refusal}"),
        }
    };
    print!(", open 0 with {} nodes after {grinding} refusals with 4 and {nodes} with 5", opened.0);

    // the checker has iv, challenge, corrections, opening and commitment
    let mut checked = Checked::of(set, row);
    let answer = checked.call(set, &iv, &challenge, &signed.corrections, &opening).run();
    let equal = signed.commitment == checked.commitment;
    let agree = agreeing(&challenge, &signed.u, &signed.v, &checked.q);
    print!(", reconstruct {} with {} nodes", number(&answer), answer.map_or(0, |count| count.0));
    println!(", commitments {}, {agree} columns agree", if equal { "equal" } else { "differ" });

    // the same with no more than STRETCH bytes of a row at a time
    let (mut pieces, mut as_whole) = (0, 0);
    for first in (0..row).step_by(STRETCH) {
        let width = STRETCH.min(row - first);
        let (mut part, mut again) = (Signed::of(set, width), Checked::of(set, width));
        let mut same = part.call(set, &root, &iv).stretch(first, width).is_ok();
        same &= part.commitment == signed.commitment && part.tree == signed.tree && part.leaf_commitments == signed.leaf_commitments;
        same &= [(&part.u, &signed.u), (&part.v, &signed.v), (&part.corrections, &signed.corrections)].iter().all(|(part, whole)| **part == cut(whole, row, first, width));
        same &= again.call(set, &iv, &challenge, &part.corrections, &opening).stretch(first, width).is_ok();
        same &= again.commitment == signed.commitment && again.q == cut(&checked.q, row, first, width);
        same &= agreeing(&challenge, &part.u, &part.v, &again.q) == shape.level;
        pieces += 1;
        as_whole += usize::from(same);
    }
    println!("{name}: {pieces} stretches, {as_whole} as in the whole");
    committed.is_ok() && answer.is_ok() && equal && agree == shape.level && as_whole == pieces
}

fn main() {
    let mut right = run("FAEST-128f", rachnoel::DEFAULT);
    for set in rachnoel::SETS.into_iter().filter(|set| *set != rachnoel::FAEST_128F) {
        right &= run(set.name, set);
    }
    if !right {
        std::process::exit(1);
    }
}
