//! The archives beside the second implementation, byte by byte: shapes, challenges, stretches and lengths from a fixed sequence, wrong ones among them. Every buffer that a
//! call may write is filled with 0xa5 before.

use rachnoel::Shape;
use reference::calls::{self, Answer};
use reference::shape::row_bytes;

// ---- a fixed sequence

struct Dice(u64);

impl Dice {
    fn next(&mut self) -> u64 {
        self.0 = self.0.wrapping_add(0x9e37_79b9_7f4a_7c15);
        let z = (self.0 ^ self.0 >> 30).wrapping_mul(0xbf58_476d_1ce4_e5b9);
        let z = (z ^ z >> 27).wrapping_mul(0x94d0_49bb_1331_11eb);
        z ^ z >> 31
    }

    fn below(&mut self, n: usize) -> usize {
        self.next() as usize % n
    }

    /// One time in n.
    fn one_in(&mut self, n: usize) -> bool {
        self.below(n) == 0
    }

    fn bytes(&mut self, n: usize) -> Vec<u8> {
        (0..n).map(|_| self.next() as u8).collect()
    }

    /// A length: the right one, or one time in thirty another.
    fn length(&mut self, right: usize) -> usize {
        match self.below(90) {
            0 => right + 1 + self.below(8),
            1 => right.saturating_sub(1 + self.below(8)),
            2 => 0,
            _ => right,
        }
    }

    /// A shape of small depth, mostly allowed, half of them with two depths.
    fn shape(&mut self) -> Shape {
        if self.one_in(5) {
            return self.wide_shape();
        }
        let kind = usize::from(self.one_in(3));
        let k = 1 + self.below(6);
        let tau = 1 + self.below((128 / k).min(32));
        let left = 128 - tau * k;
        let deeper = if self.one_in(2) { 0 } else { self.below(tau.min(left + 1)) };
        let w = (left - deeper).min(127);
        let t = if self.one_in(4) { 1 + self.below(tau * k) } else { tau * k + 1 + self.below(8) };
        match self.below(60) {
            0 => Shape::new(tau, k, w + 1, t, 128),
            5 => Shape { kind: 2 + self.below(300), ..Shape::new(tau, k, w, t, 128) },
            6 => Shape { kind: 1, ..rachnoel::DEFAULT.shape },
            1 => Shape::new(tau, k, w, 512 * self.below(3), 128),
            2 => rachnoel::DEFAULT.shape,
            3 => Shape::new(tau, k, w, t, 64 * self.below(8)),
            4 => Shape { level: 64 * self.below(5), ..rachnoel::DEFAULT.shape },
            _ => Shape { kind, ..Shape::new(tau, k, w, t, 128) },
        }
    }

    /// A shape at level 192 or 256 with few leaves: the vectors share the bits that at most 127 grinding bits leave.
    fn wide_shape(&mut self) -> Shape {
        let level = if self.one_in(2) { 192 } else { 256 };
        let bits = level - 127 + self.below(10);
        let tau = 27 + self.below(6);
        let k = bits / tau;
        let t = if self.one_in(4) { 1 + self.below(tau * k) } else { tau * k + 1 + self.below(8) };
        let kind = usize::from(self.one_in(3));
        Shape { kind, ..Shape::new(tau, k, level - bits, t, level) }
    }

    /// A challenge whose grinding bits are mostly clear.
    fn challenge(&mut self, shape: Shape) -> Vec<u8> {
        let mut challenge = self.bytes(node(shape));
        let w = if shape == rachnoel::DEFAULT.shape { 8 } else { shape.w };
        let bits = 8 * challenge.len();
        if !self.one_in(12) {
            for n in bits - w.min(bits)..bits {
                challenge[n / 8] &= !(1 << (n % 8));
            }
        }
        let n = self.length(challenge.len());
        challenge.resize(n, 0);
        challenge
    }

    fn row_bits(&mut self) -> usize {
        if self.one_in(20) {
            self.below(70000)
        } else {
            8 + 8 * self.below(40)
        }
    }

    /// A stretch of a row of b bytes, mostly one within it.
    fn stretch(&mut self, b: usize) -> (usize, usize) {
        match self.below(20) {
            0 => (self.below(b + 1), 0),
            1 => (self.below(b + 2), b),
            2 => (usize::MAX - self.below(2), 1 + self.below(3)),
            _ => {
                let first = self.below(b.max(1));
                (first, 1 + self.below((b - first.min(b)).max(1)))
            }
        }
    }
}

// ---- what is compared

fn theirs(s: Shape) -> reference::shape::Shape {
    reference::shape::Shape::of_kind(s.tau, s.k, s.w, s.t, s.level, s.kind)
}

/// The bytes of a root and of a challenge; of what is no shape any number will do.
fn node(shape: Shape) -> usize {
    shape.lengths(1).map_or(16, |n| n.node)
}

fn fresh(n: usize) -> Vec<u8> {
    vec![0xa5; n]
}

/// What the count slice must hold.
fn counted(answer: Answer, n: usize) -> Vec<u8> {
    match answer.number {
        0 | 5 | 6 => answer.count.to_le_bytes().to_vec(),
        _ => fresh(n),
    }
}

/// The second implementation has no count slice: where that has another length, an input of another length is lent in its place, which is refused in the same turn.
fn spoiled(right: &[u8], count: usize) -> Vec<u8> {
    if count == 4 { right.to_vec() } else { right.iter().copied().chain([0; 17]).collect() }
}

/// The stretch of strings of b bytes that are laid one after another.
fn cut(whole: &[u8], b: usize, first: usize, width: usize) -> Vec<u8> {
    whole.chunks(b).flat_map(|row| &row[first..first + width]).copied().collect()
}

/// How often each number was answered.
#[derive(Debug, Default)]
struct Seen([usize; 9]);

impl Seen {
    fn all(&self, numbers: &[usize], least: usize) {
        assert!(numbers.iter().all(|&n| self.0[n] >= least), "{self:?}");
        assert!((0..9).all(|n| numbers.contains(&n) || self.0[n] == 0), "{self:?}");
    }
}

// ---- lengths, decode and plan

#[test]
fn lengths() {
    let mut shapes = 0;
    for tau in 0..35 {
        for k in 0..15 {
            for w in 0..131 {
                for (t, (level, kind)) in [0, 1, 110, 512, 513].into_iter().flat_map(|t| [(128, 0), (192, 0), (256, 0), (0, 0), (160, 0), (128, 1), (256, 1), (128, 2)].map(|of| (t, of))) {
                    let shape = Shape { kind, ..Shape::new(tau, k, w, t, level) };
                    let ours = shape.lengths(7);
                    let theirs = theirs(shape).resolve();
                    assert_eq!(ours.is_some(), theirs.is_some(), "{shape:?}");
                    let mut proved = fresh(44);
                    let number = rachnoel::flat::lengths(shape, 56, &mut proved);
                    assert_eq!((number, number != 0), (usize::from(ours.is_none()), proved == fresh(44)), "{shape:?}");
                    let (Some(n), Some(s)) = (ours, theirs) else { continue };
                    assert_eq!((n.node, n.commitment), (s.node_bytes(), s.commitment_bytes()));
                    assert_eq!((n.tree, n.leaf_commitments, n.opening), (s.tree_bytes(), s.leaf_commitments_bytes(), s.opening_bytes()));
                    assert_eq!((n.indices, n.nodes, n.u, n.matrix, n.corrections), (4 * s.tau, 4 * s.t, 7, 7 * s.level, 7 * s.tau - 7));
                    let all = [n.node, n.commitment, n.indices, n.nodes, n.tree, n.leaf_commitments, n.u, n.matrix, n.corrections, n.opening];
                    assert_eq!(proved[4..], all.iter().flat_map(|&n| (n as u32).to_le_bytes()).collect::<Vec<_>>(), "{shape:?}");
                    shapes += 1;
                }
            }
        }
    }
    assert!(shapes > 1000);
}

/// A list call: the numbers that the slice's bytes are, or a list of another length where they are none.
fn list_call(
    ours: fn(Shape, &[u8], &mut [u8], &mut [u8]) -> usize,
    call: fn(reference::shape::Shape, &[u8], &mut [u32]) -> Answer,
    room: fn(reference::shape::Shape) -> usize,
    seed: u64,
) -> Seen {
    let mut dice = Dice(seed);
    let mut seen = Seen::default();
    for _ in 0..4000 {
        let shape = dice.shape();
        let challenge = dice.challenge(shape);
        let bytes = dice.length(4 * room(theirs(shape).resolve().unwrap_or(theirs(shape))));
        let n = dice.length(4);
        let (mut list, mut count) = (fresh(bytes), fresh(n));
        let whole = bytes.is_multiple_of(4);
        let mut words = vec![0xa5a5_a5a5; if whole { bytes / 4 } else { 1 << 16 }];
        let answer = call(theirs(shape), &spoiled(&challenge, n), &mut words);
        let number = ours(shape, &challenge, &mut list, &mut count);
        assert_eq!((number, &count), (answer.number as usize, &counted(answer, n)), "{shape:?} {challenge:?} {bytes} {n}");
        let expected = if whole { words.iter().flat_map(|x| x.to_le_bytes()).collect() } else { fresh(bytes) };
        assert_eq!(list, expected, "{shape:?}");
        seen.0[number] += 1;
    }
    seen
}

#[test]
fn decode_and_plan() {
    list_call(rachnoel::flat::decode, calls::decode, |s| s.tau, 1).all(&[0, 1, 3, 4], 20);
    list_call(rachnoel::flat::plan, calls::plan, |s| s.t, 2).all(&[0, 1, 3, 4, 5], 20);
}

// ---- the halves

/// commit, open and reconstruct, one after another; what open and reconstruct are lent is what the call before wrote, or noise.
#[test]
fn halves() {
    let mut dice = Dice(3);
    let mut seen = [Seen::default(), Seen::default(), Seen::default()];
    for _ in 0..1200 {
        let shape = dice.shape();
        let challenge = dice.challenge(shape);
        let bits = dice.row_bits();
        let m = shape.lengths((bits / 8).min(8192)).unwrap_or(Shape::new(2, 2, 124, 4, 128).lengths((bits / 8).min(8192)).unwrap());
        let root = { let n = dice.length(m.node); dice.bytes(n) };
        let iv = { let n = dice.length(16); dice.bytes(n) };

        let n = dice.length(4);
        let lens = [m.commitment, m.tree, m.leaf_commitments, m.u, m.matrix, m.corrections].map(|right| dice.length(right));
        let (mut x, mut y, mut count) = (lens.map(fresh), lens.map(fresh), fresh(n));
        let [a0, a1, a2, a3, a4, a5] = &mut x;
        let number = rachnoel::flat::commit(shape, bits, &root, &iv, a0, a1, a2, a3, a4, a5, &mut count);
        let [a0, a1, a2, a3, a4, a5] = &mut y;
        let answer = calls::commit(theirs(shape), bits, &spoiled(&root, n), &iv, a0, a1, a2, a3, a4, a5);
        assert_eq!((number, &count), (answer.number as usize, &counted(answer, n)), "commit {shape:?} {bits} {lens:?} {n}");
        assert!(x == y, "commit {shape:?} {bits}");
        seen[0].0[number] += 1;

        let n = dice.length(4);
        let opening_len = dice.length(m.opening);
        let (mut opening, mut expected, mut count) = (fresh(opening_len), fresh(opening_len), fresh(n));
        let number = rachnoel::flat::open(shape, &challenge, &x[1], &x[2], &mut opening, &mut count);
        let answer = calls::open(theirs(shape), &spoiled(&challenge, n), &x[1], &x[2], &mut expected);
        assert_eq!((number, &count), (answer.number as usize, &counted(answer, n)), "open {shape:?} {opening_len} {n}");
        assert_eq!(opening, expected, "open {shape:?}");
        seen[1].0[number] += 1;

        let n = dice.length(4);
        if dice.one_in(10) {
            opening = dice.bytes(opening_len);
        }
        let lens = [m.commitment, m.tree, m.leaf_commitments, m.matrix].map(|right| dice.length(right));
        let (mut y, mut z, mut count) = (lens.map(fresh), lens.map(fresh), fresh(n));
        let [a0, a1, a2, a3] = &mut y;
        let number = rachnoel::flat::reconstruct(shape, bits, &iv, &challenge, &x[5], &opening, a0, a1, a2, a3, &mut count);
        let [a0, a1, a2, a3] = &mut z;
        let answer = calls::reconstruct(theirs(shape), bits, &spoiled(&iv, n), &challenge, &x[5], &opening, a0, a1, a2, a3);
        assert_eq!((number, &count), (answer.number as usize, &counted(answer, n)), "reconstruct {shape:?} {bits} {lens:?} {n}");
        assert!(y == z, "reconstruct {shape:?} {bits}");
        seen[2].0[number] += 1;
    }
    seen[0].all(&[0, 1, 2, 3], 10);
    seen[1].all(&[0, 1, 3, 4, 5], 10);
    seen[2].all(&[0, 1, 2, 3, 4, 5, 6], 10);
}

/// Whether a stretch is refused, and before that the shape and the row length.
fn stretch_refusal(shape: Shape, bits: usize, first: usize, width: usize) -> Option<u32> {
    if theirs(shape).resolve().is_none() {
        return Some(1);
    }
    let Some(b) = row_bytes(bits) else { return Some(2) };
    (width == 0 || first.checked_add(width).is_none_or(|end| end > b)).then_some(8)
}

/// The two stretch forms: the second implementation makes the whole rows, of which the stretch is cut out here.
#[test]
fn stretches() {
    let mut dice = Dice(4);
    let mut seen = [Seen::default(), Seen::default()];
    for _ in 0..900 {
        let shape = dice.shape();
        let challenge = dice.challenge(shape);
        let bits = dice.row_bits();
        let b = (bits / 8).min(8192);
        let (first, width) = dice.stretch(b);
        let refusal = stretch_refusal(shape, bits, first, width);
        let some = Shape::new(2, 2, 124, 4, 128);
        let whole = shape.lengths(b).unwrap_or(some.lengths(b).unwrap());
        let m = shape.lengths(width).unwrap_or(some.lengths(width).unwrap());
        let (root, iv) = (dice.bytes(m.node), dice.bytes(16));

        // commit: whole rows by the second implementation, with inputs that it refuses where a length is wrong
        let n = dice.length(4);
        let rights = [m.commitment, m.tree, m.leaf_commitments, m.u, m.matrix, m.corrections];
        let lens = rights.map(|right| dice.length(right));
        let (mut x, mut count) = (lens.map(fresh), fresh(n));
        let [a0, a1, a2, a3, a4, a5] = &mut x;
        let number = rachnoel::flat::commit_stretch(shape, bits, first, width, &root, &iv, a0, a1, a2, a3, a4, a5, &mut count);
        let mut y = [whole.commitment, whole.tree, whole.leaf_commitments, whole.u, whole.matrix, whole.corrections].map(fresh);
        let mut answer = Answer { number: refusal.unwrap_or(0), count: 0 };
        if refusal.is_none() {
            let [a0, a1, a2, a3, a4, a5] = &mut y;
            let made = calls::commit(theirs(shape), bits, &root, &iv, a0, a1, a2, a3, a4, a5);
            answer = if lens == rights && n == 4 { made } else { Answer { number: 3, count: 0 } };
        }
        assert_eq!((number, &count), (answer.number as usize, &counted(answer, n)), "commit_stretch {shape:?} {bits} {first} {width} {lens:?} {n}");
        let [a0, a1, a2, a3, a4, a5] = &y;
        let expected = match number {
            0 => [a0.clone(), a1.clone(), a2.clone(), cut(a3, b, first, width), cut(a4, b, first, width), cut(a5, b, first, width)],
            _ => lens.map(fresh),
        };
        assert!(x == expected, "commit_stretch {shape:?} {bits} {first} {width}");
        seen[0].0[number] += 1;

        // reconstruct: corrections and opening of that commit, or noise
        let mut opening = fresh(whole.opening);
        let opened = calls::open(theirs(shape), &challenge, &y[1], &y[2], &mut opening);
        if opened.number != 0 || dice.one_in(10) {
            opening = dice.bytes(whole.opening);
        }
        if dice.one_in(5) {
            y[5] = dice.bytes(whole.corrections);
        }
        let cut_corrections = if refusal.is_none() { cut(&y[5], b, first, width) } else { fresh(m.corrections.min(1 << 16)) };
        let n = dice.length(4);
        let rights = [m.commitment, m.tree, m.leaf_commitments, m.matrix];
        let lens = rights.map(|right| dice.length(right));
        let (mut x, mut count) = (lens.map(fresh), fresh(n));
        let [a0, a1, a2, a3] = &mut x;
        let number = rachnoel::flat::reconstruct_stretch(shape, bits, first, width, &iv, &challenge, &cut_corrections, &opening, a0, a1, a2, a3, &mut count);
        let mut z = [whole.commitment, whole.tree, whole.leaf_commitments, whole.matrix].map(fresh);
        let mut answer = Answer { number: refusal.unwrap_or(0), count: 0 };
        if refusal.is_none() {
            let [a0, a1, a2, a3] = &mut z;
            let iv = spoiled(&iv, if lens == rights { n } else { 0 });
            answer = calls::reconstruct(theirs(shape), bits, &iv, &challenge, &y[5], &opening, a0, a1, a2, a3);
        }
        assert_eq!((number, &count), (answer.number as usize, &counted(answer, n)), "reconstruct_stretch {shape:?} {bits} {first} {width} {lens:?} {n}");
        let [a0, a1, a2, a3] = &z;
        let expected = match number {
            0 => [a0.clone(), a1.clone(), a2.clone(), cut(a3, b, first, width)],
            _ => lens.map(fresh),
        };
        assert!(x == expected, "reconstruct_stretch {shape:?} {bits} {first} {width}");
        seen[1].0[number] += 1;
    }
    seen[0].all(&[0, 1, 2, 3, 8], 10);
    seen[1].all(&[0, 1, 2, 3, 4, 5, 6, 8], 10);
}

/// The sets of document 000 at their row lengths, FAEST-128f as four zeros.
#[test]
fn all_sets() {
    let mut dice = Dice(5);
    let sets = [
        (rachnoel::DEFAULT.shape, 1680),
        (rachnoel::FAEST_128S.shape, 1680),
        (rachnoel::FAEST_192S.shape, 3088),
        (rachnoel::FAEST_192F.shape, 3088),
        (rachnoel::FAEST_256S.shape, 3888),
        (rachnoel::FAEST_256F.shape, 3888),
        (rachnoel::FAEST_EM_128S.shape, 1360),
        (rachnoel::FAEST_EM_128F.shape, 1360),
        (rachnoel::FAEST_EM_192S.shape, 2320),
        (rachnoel::FAEST_EM_192F.shape, 2320),
        (rachnoel::FAEST_EM_256S.shape, 3472),
        (rachnoel::FAEST_EM_256F.shape, 3472),
    ];
    for (shape, bits) in sets {
        let m = shape.lengths((bits / 8).min(8192)).unwrap();
        let (root, iv) = (dice.bytes(m.node), dice.bytes(16));
        let lens = [m.commitment, m.tree, m.leaf_commitments, m.u, m.matrix, m.corrections];
        let (mut x, mut y, mut count) = (lens.map(fresh), lens.map(fresh), fresh(4));
        let [a0, a1, a2, a3, a4, a5] = &mut x;
        assert_eq!(rachnoel::flat::commit(shape, bits, &root, &iv, a0, a1, a2, a3, a4, a5, &mut count), 0);
        let [a0, a1, a2, a3, a4, a5] = &mut y;
        assert_eq!(calls::commit(theirs(shape), bits, &root, &iv, a0, a1, a2, a3, a4, a5).number, 0);
        assert!(x == y, "commit {shape:?}");
        let mut opening = fresh(m.opening);
        let challenge = loop {
            let mut challenge = dice.bytes(m.node);
            let last = if shape.tau == 16 && shape.level == 192 { 2 } else { 1 };
            challenge[m.node - last..].fill(0);
            if rachnoel::flat::open(shape, &challenge, &x[1], &x[2], &mut opening, &mut count) == 0 {
                break challenge;
            }
        };
        let mut expected = fresh(m.opening);
        assert_eq!(calls::open(theirs(shape), &challenge, &x[1], &x[2], &mut expected).number, 0);
        assert!(opening == expected, "open {shape:?}");
        let lens = [m.commitment, m.tree, m.leaf_commitments, m.matrix];
        let (mut y, mut z) = (lens.map(fresh), lens.map(fresh));
        let [a0, a1, a2, a3] = &mut y;
        assert_eq!(rachnoel::flat::reconstruct(shape, bits, &iv, &challenge, &x[5], &opening, a0, a1, a2, a3, &mut count), 0);
        let [a0, a1, a2, a3] = &mut z;
        assert_eq!(calls::reconstruct(theirs(shape), bits, &iv, &challenge, &x[5], &opening, a0, a1, a2, a3).number, 0);
        assert!(y == z, "reconstruct {shape:?}");
    }
}
