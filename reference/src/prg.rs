//! The generator and the hash functions: document 000, section 3.3.

use crate::{aes, shake, Block, Digest, LeafCom};

/// The sum of a little-endian word at the given byte of the IV and a number,
/// modulo 2^32; no carry leaves the word.
fn add_to_word(iv: &Block, at: usize, alpha: u32) -> Block {
    let mut result = *iv;
    let word = u32::from_le_bytes([iv[at], iv[at + 1], iv[at + 2], iv[at + 3]]);
    result[at..at + 4].copy_from_slice(&word.wrapping_add(alpha).to_le_bytes());
    result
}

/// Section 3.3: AddToUpperWord, on iv_3.
pub fn add_to_upper_word(iv: &Block, alpha: u32) -> Block {
    add_to_word(iv, 12, alpha)
}

/// Section 3.3: AddToLowerWord, on iv_0.
pub fn add_to_lower_word(iv: &Block, alpha: u32) -> Block {
    add_to_word(iv, 0, alpha)
}

/// Figure 3.6: PRG, with m in bits, a multiple of 8. The seed of λ bits is the key
/// of AES-λ. The figure's count of blocks leaves out the last incomplete one; it is
/// made too and cut.
pub fn prg(sd: &[u8], iv: &Block, twk: u32, m: usize) -> Vec<u8> {
    let keys = aes::key_expansion(sd);
    let iv = add_to_upper_word(iv, twk);
    let mut s = Vec::new();
    for i in 0..m.div_ceil(128) as u32 {
        s.extend(aes::encrypt(&keys, &add_to_lower_word(&iv, i)));
    }
    s.truncate(m / 8);
    s
}

/// Section 3.3: SHAKE128 at level 128, SHAKE256 at the others, of the message with
/// the domain byte after it.
fn hash(level: usize, message: &[u8], domain: u8, length: usize) -> Vec<u8> {
    let shake = match level {
        128 => shake::shake128,
        _ => shake::shake256,
    };
    shake(&[message, &[domain]].concat(), length)
}

/// H0 with 3λτ bits (figure 5.4, line 2): one hash key for each vector.
pub fn h0(level: usize, iv: &Block, tau: usize) -> Vec<LeafCom> {
    let bytes = 3 * level / 8;
    hash(level, iv, 0, bytes * tau)
        .chunks_exact(bytes)
        .map(LeafCom::from)
        .collect()
}

/// H0 with 3λ bits of a leaf of version 1 (document 02, E12): of its key and the IV.
pub fn h0_leaf(level: usize, key: &[u8], iv: &Block) -> Vec<u8> {
    hash(level, &[key, iv].concat(), 0, 3 * level / 8)
}

/// H1 with 2λ bits.
pub fn h1(level: usize, message: &[u8]) -> Digest {
    hash(level, message, 1, 2 * level / 8)
}
