//! The fields of 2^384, 2^576 and 2^768 elements: document 000, section 3.2.

/// An element of the field of 2^(64 N) elements; the coefficient of α^i is bit
/// i % 64 of limb i / 64.
pub type Element<const N: usize> = [u64; N];

/// P_384, P_576 or P_768 without its leading term, by the number of limbs.
const fn reduction(limbs: usize) -> u64 {
    match limbs {
        6 => 1 << 12 | 1 << 3 | 1 << 2 | 1,
        9 => 1 << 13 | 1 << 4 | 1 << 3 | 1,
        12 => 1 << 19 | 1 << 17 | 1 << 4 | 1,
        _ => panic!("no field of this width"),
    }
}

/// Figure 3.4: ToField for one element of up to 64 N bits. Bit i of byte n is
/// the coefficient of α^(8n + i); absent ones are 0.
pub fn to_field<const N: usize>(bytes: &[u8]) -> Element<N> {
    let mut x = [0; N];
    for (n, byte) in bytes.iter().enumerate() {
        x[n / 8] |= u64::from(*byte) << (8 * (n % 8));
    }
    x
}

/// Figure 3.4: ToBits for one element.
pub fn to_bits<const N: usize>(x: &Element<N>) -> Vec<u8> {
    x.iter().flat_map(|limb| limb.to_le_bytes()).collect()
}

/// The sum of two elements.
pub fn add<const N: usize>(x: &Element<N>, y: &Element<N>) -> Element<N> {
    std::array::from_fn(|n| x[n] ^ y[n])
}

/// The product with α modulo the field's polynomial.
fn times_alpha<const N: usize>(x: &Element<N>) -> Element<N> {
    let mut result = std::array::from_fn(|n| match n {
        0 => x[0] << 1,
        _ => x[n] << 1 | x[n - 1] >> 63,
    });
    if x[N - 1] >> 63 == 1 {
        result[0] ^= reduction(N);
    }
    result
}

/// The product of two elements, one coefficient of y after another from the
/// highest down.
pub fn product<const N: usize>(x: &Element<N>, y: &Element<N>) -> Element<N> {
    let mut sum = [0; N];
    for i in (0..64 * N).rev() {
        sum = times_alpha(&sum);
        if y[i / 64] >> (i % 64) & 1 == 1 {
            sum = add(&sum, x);
        }
    }
    sum
}

/// Figure 5.3: FAEST.LeafHash, h = u x_0 + x_1, in the field of 64 N bits.
pub fn leaf_hash<const N: usize>(u: &[u8], x0: &[u8], x1: &[u8]) -> Vec<u8> {
    let (u, x0, x1): (Element<N>, _, _) = (to_field(u), to_field(x0), to_field(x1));
    to_bits(&add(&product(&u, &x0), &x1))
}
