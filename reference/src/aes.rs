//! AES encryption with keys of 128, 192 and 256 bits: FIPS 197, and section 4.1 of
//! document 000.
//!
//! The state is 16 bytes in column-major order: row r of column c is byte
//! r + 4c.

use crate::Block;

/// The round keys from round 0 to the last: 11, 13 or 15.
pub type RoundKeys = Vec<Block>;

/// FIPS 197, section 4.2.1: multiplication by x modulo x^8 + x^4 + x^3 + x + 1.
const fn xtime(a: u8) -> u8 {
    if a & 0x80 == 0 {
        a << 1
    } else {
        (a << 1) ^ 0x1b
    }
}

/// FIPS 197, section 4.2: the product in GF(2^8).
const fn product(mut a: u8, mut b: u8) -> u8 {
    let mut sum = 0;
    while b != 0 {
        if b & 1 == 1 {
            sum ^= a;
        }
        a = xtime(a);
        b >>= 1;
    }
    sum
}

/// The inverse in GF(2^8), with 0 for 0: a^254 = a^2 a^4 a^8 ... a^128.
const fn inverse(a: u8) -> u8 {
    let mut power = a;
    let mut result = 1;
    let mut i = 1;
    while i < 8 {
        power = product(power, power);
        result = product(result, power);
        i += 1;
    }
    result
}

/// Document 000, section 4.1.1: inversion, then the affine step
/// b_i + b_(i+4) + b_(i+5) + b_(i+6) + b_(i+7) + c_i, indices modulo 8.
pub const fn s_box(a: u8) -> u8 {
    let b = inverse(a);
    b ^ b.rotate_right(4) ^ b.rotate_right(5) ^ b.rotate_right(6) ^ b.rotate_right(7) ^ 0b0110_0011
}

/// The values of [`s_box`], computed when this file is compiled.
static S_BOX: [u8; 256] = {
    let mut table = [0; 256];
    let mut a = 0;
    while a < 256 {
        table[a] = s_box(a as u8);
        a += 1;
    }
    table
};

/// FIPS 197, section 5.1.1: SubBytes.
fn sub_bytes(s: Block) -> Block {
    s.map(|byte| S_BOX[byte as usize])
}

/// FIPS 197, section 5.1.2: ShiftRows, row r moves r places to the left.
fn shift_rows(s: Block) -> Block {
    std::array::from_fn(|n| {
        let (r, c) = (n % 4, n / 4);
        s[r + 4 * ((c + r) % 4)]
    })
}

/// FIPS 197, section 5.1.3: MixColumns, s'_r = 2 s_r + 3 s_(r+1) + s_(r+2) + s_(r+3).
fn mix_columns(s: Block) -> Block {
    std::array::from_fn(|n| {
        let (r, c) = (n % 4, n / 4);
        let at = |row: usize| s[row % 4 + 4 * c];
        xtime(at(r)) ^ xtime(at(r + 1)) ^ at(r + 1) ^ at(r + 2) ^ at(r + 3)
    })
}

/// FIPS 197, section 5.1.4: AddRoundKey.
fn add_round_key(s: Block, key: &Block) -> Block {
    std::array::from_fn(|n| s[n] ^ key[n])
}

/// FIPS 197, section 5.2: KeyExpansion for a key of Nk = 4, 6 or 8 words, in
/// Nk + 6 rounds.
pub fn key_expansion(key: &[u8]) -> RoundKeys {
    let nk = key.len() / 4;
    let rounds = nk + 6;
    let mut words = vec![[0u8; 4]; 4 * (rounds + 1)];
    let mut rcon = 1;
    for i in 0..words.len() {
        words[i] = if i < nk {
            [key[4 * i], key[4 * i + 1], key[4 * i + 2], key[4 * i + 3]]
        } else {
            let mut temp = words[i - 1];
            if i % nk == 0 {
                temp.rotate_left(1);
                temp = temp.map(|byte| S_BOX[byte as usize]);
                temp[0] ^= rcon;
                rcon = xtime(rcon);
            } else if nk > 6 && i % nk == 4 {
                temp = temp.map(|byte| S_BOX[byte as usize]);
            }
            std::array::from_fn(|n| words[i - nk][n] ^ temp[n])
        };
    }
    let round_key = |round: usize| std::array::from_fn(|n| words[4 * round + n / 4][n % 4]);
    (0..=rounds).map(round_key).collect()
}

/// FIPS 197, section 5.1: Cipher.
pub fn encrypt(keys: &RoundKeys, input: &Block) -> Block {
    let last = keys.len() - 1;
    let mut s = add_round_key(*input, &keys[0]);
    for key in &keys[1..last] {
        s = add_round_key(mix_columns(shift_rows(sub_bytes(s))), key);
    }
    add_round_key(shift_rows(sub_bytes(s)), &keys[last])
}
