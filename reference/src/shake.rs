//! SHAKE128 and SHAKE256: FIPS 202.

use std::array::from_fn;

/// The rates of SHAKE128 and SHAKE256 in bytes.
const RATE_128: usize = 168;
const RATE_256: usize = 136;

/// The state array of FIPS 202, section 3.1: lane (x, y) is `a[x][y]`, and bit
/// z of a lane is bit z of the number.
type State = [[u64; 5]; 5];

/// FIPS 202, algorithm 1.
fn theta(a: State) -> State {
    let c: [u64; 5] = from_fn(|x| a[x].iter().fold(0, |sum, lane| sum ^ lane));
    let d: [u64; 5] = from_fn(|x| c[(x + 4) % 5] ^ c[(x + 1) % 5].rotate_left(1));
    from_fn(|x| from_fn(|y| a[x][y] ^ d[x]))
}

/// FIPS 202, algorithm 2.
fn rho(a: State) -> State {
    let mut result = a;
    let (mut x, mut y) = (1, 0);
    for t in 0..24 {
        result[x][y] = a[x][y].rotate_left((t + 1) * (t + 2) / 2 % 64);
        (x, y) = (y, (2 * x + 3 * y) % 5);
    }
    result
}

/// FIPS 202, algorithm 3.
fn pi(a: State) -> State {
    from_fn(|x| from_fn(|y| a[(x + 3 * y) % 5][x]))
}

/// FIPS 202, algorithm 4.
fn chi(a: State) -> State {
    from_fn(|x| from_fn(|y| a[x][y] ^ (!a[(x + 1) % 5][y] & a[(x + 2) % 5][y])))
}

/// FIPS 202, algorithm 5; R[i] is bit i of `r`.
const fn rc(t: usize) -> u64 {
    let mut r: u64 = 1;
    let mut i = 0;
    while i < t % 255 {
        r <<= 1;
        if r >> 8 & 1 == 1 {
            r ^= 0b1_0111_0001;
        }
        i += 1;
    }
    r & 1
}

/// The round constants of FIPS 202, algorithm 6, lines 2 and 3.
static RC: [u64; 24] = {
    let mut constants = [0; 24];
    let mut round = 0;
    while round < 24 {
        let mut j = 0;
        while j <= 6 {
            constants[round] |= rc(j + 7 * round) << ((1 << j) - 1);
            j += 1;
        }
        round += 1;
    }
    constants
};

/// FIPS 202, algorithm 6.
fn iota(mut a: State, round: usize) -> State {
    a[0][0] ^= RC[round];
    a
}

/// FIPS 202, algorithm 7 and section 3.4: Keccak-f[1600].
fn keccak_f(mut a: State) -> State {
    for round in 0..24 {
        a = iota(chi(pi(rho(theta(a)))), round);
    }
    a
}

/// FIPS 202, algorithm 8 with section 6.2: SHAKE of the message at this rate, the
/// first `length` bytes. The suffix 1111 and the padding 10*1 begin with byte 0x1f
/// and end with bit 0x80.
fn shake(rate: usize, message: &[u8], length: usize) -> Vec<u8> {
    let mut padded = message.to_vec();
    padded.push(0x1f);
    padded.resize(padded.len().next_multiple_of(rate), 0);
    *padded.last_mut().expect("the padding is not empty") |= 0x80;

    let mut a: State = Default::default();
    for block in padded.chunks_exact(rate) {
        for (n, bytes) in block.chunks_exact(8).enumerate() {
            a[n % 5][n / 5] ^= u64::from_le_bytes(bytes.try_into().expect("eight bytes"));
        }
        a = keccak_f(a);
    }

    let mut output = Vec::new();
    while output.len() < length {
        if !output.is_empty() {
            a = keccak_f(a);
        }
        output.extend((0..rate / 8).flat_map(|n| a[n % 5][n / 5].to_le_bytes()));
    }
    output.truncate(length);
    output
}

pub fn shake128(message: &[u8], length: usize) -> Vec<u8> {
    shake(RATE_128, message, length)
}

pub fn shake256(message: &[u8], length: usize) -> Vec<u8> {
    shake(RATE_256, message, length)
}
