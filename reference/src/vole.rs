//! From seeds to rows and matrices: document 000, sections 5.4 and 5.5.

use crate::bavc::{self, Bottom, Vectors};
use crate::prg::prg;
use crate::shape::{decode_all_chall, Shape};
use crate::{Block, Node};

/// A string of ℓ̂ bits: a row, a column, u or a correction.
pub type Row = Vec<u8>;

/// The sum of two strings of the same length.
fn xor(a: &[u8], b: &[u8]) -> Row {
    a.iter().zip(b).map(|(x, y)| x ^ y).collect()
}

/// Figure 5.6: ConvertToVOLE, giving u and the columns v_0 to v_(d-1) for 2^d
/// seeds. An absent seed (⊥) gives a row of zeros.
pub fn convert_to_vole(
    seeds: &[Option<Node>],
    iv: &Block,
    twk: u32,
    row_bits: usize,
) -> (Row, Vec<Row>) {
    let zeros = vec![0; row_bits / 8];
    let mut r: Vec<Row> = seeds
        .iter()
        .map(|seed| match seed {
            Some(sd) => prg(sd, iv, twk, row_bits),
            None => zeros.clone(),
        })
        .collect();
    let mut v = Vec::new();
    while r.len() > 1 {
        let odd = r.iter().skip(1).step_by(2);
        v.push(odd.fold(zeros.clone(), |sum, row| xor(&sum, row)));
        r = r
            .chunks_exact(2)
            .map(|pair| xor(&pair[0], &pair[1]))
            .collect();
    }
    (r.swap_remove(0), v)
}

/// The tweak i + 2^31 of vector i: section 5.5.2.
fn row_tweak(i: usize) -> u32 {
    i as u32 + (1 << 31)
}

/// What [`vole_commit`] gives. V is its λ columns.
pub struct VoleCommitment {
    pub vectors: Vectors,
    pub corrections: Vec<Row>,
    pub u: Row,
    pub v: Vec<Row>,
}

/// Figure 5.8: FAEST.VOLECommit.
pub fn vole_commit(shape: &Shape, r: &[u8], iv: &Block, row_bits: usize) -> VoleCommitment {
    let vectors = bavc::commit(shape, r, iv);
    let (mut us, mut v) = (Vec::new(), Vec::new());
    for (i, seeds) in vectors.seeds.iter().enumerate() {
        let (u_i, v_i) = convert_to_vole(seeds, iv, row_tweak(i), row_bits);
        us.push(u_i);
        v.extend(v_i);
    }
    v.resize(shape.level, vec![0; row_bits / 8]);
    VoleCommitment {
        vectors,
        corrections: us[1..].iter().map(|u_i| xor(&us[0], u_i)).collect(),
        u: us.swap_remove(0),
        v,
    }
}

/// Figure 5.9: FAEST.VOLEReconstruct, giving the vectors and the λ columns of
/// Q. Correction i is `corrections[i - 1]`.
pub fn vole_reconstruct(
    shape: &Shape,
    challenge: &[u8],
    decom: &[u8],
    corrections: &[Row],
    iv: &Block,
    row_bits: usize,
) -> Result<(Vectors, Vec<Row>), Bottom> {
    let hidden = decode_all_chall(shape, challenge);
    let vectors = bavc::reconstruct(shape, decom, &hidden, iv)?;
    let mut q = Vec::new();
    for (i, (seeds, delta)) in vectors.seeds.iter().zip(&hidden).enumerate() {
        // sd'_(i,j) = sd_(i, j xor Δ_i): the hidden entry comes to place 0.
        let permuted: Vec<_> = (0..seeds.len()).map(|j| seeds[j ^ delta].clone()).collect();
        let (_, q_i) = convert_to_vole(&permuted, iv, row_tweak(i), row_bits);
        for (j, q_ij) in q_i.into_iter().enumerate() {
            let corrected = i > 0 && delta >> j & 1 == 1;
            q.push(match corrected {
                true => xor(&q_ij, &corrections[i - 1]),
                false => q_ij,
            });
        }
    }
    q.resize(shape.level, vec![0; row_bits / 8]);
    Ok((vectors, q))
}
