//! AES, SHAKE128, SHAKE256, the fields, the generator and the hashes.

use reference::bavc::{em_leaf_commit, leaf_commit, leaf_hash};
use reference::prg::{h0, h1, prg};
use reference::shake::{shake128, shake256};
use reference::{aes, field, Block};

use crate::support::hex;

fn block(digits: &str) -> Block {
    hex(digits).try_into().unwrap()
}

#[test]
fn aes_of_fips_197_appendix_b() {
    let keys = aes::key_expansion(&block("2b7e151628aed2a6abf7158809cf4f3c"));
    // Appendix A.1: the last round key.
    assert_eq!(keys[10], block("d014f9a8c9ee2589e13f0cc8b6630ca6"));
    let output = aes::encrypt(&keys, &block("3243f6a8885a308d313198a2e0370734"));
    assert_eq!(output, block("3925841d02dc09fbdc118597196a0b32"));
}

#[test]
fn aes_of_fips_197_appendix_c_1() {
    let keys = aes::key_expansion(&block("000102030405060708090a0b0c0d0e0f"));
    let output = aes::encrypt(&keys, &block("00112233445566778899aabbccddeeff"));
    assert_eq!(output, block("69c4e0d86a7b0430d8cdb78070b4c55a"));
}

#[test]
fn aes_of_fips_197_appendix_a() {
    // A.2 and A.3: the last round keys.
    let keys = aes::key_expansion(&hex("8e73b0f7da0e6452c810f32b809079e562f8ead2522c6b7b"));
    assert_eq!(keys[12], block("e98ba06f448c773c8ecc720401002202"));
    let key = "603deb1015ca71be2b73aef0857d77811f352c073b6108d72d9810a30914dff4";
    let keys = aes::key_expansion(&hex(key));
    assert_eq!(keys[14], block("fe4890d1e6188d0b046df344706c631e"));
}

#[test]
fn aes_of_fips_197_appendices_c_2_and_c_3() {
    let key: Vec<u8> = (0..32).collect();
    let text = block("00112233445566778899aabbccddeeff");
    let output = aes::encrypt(&aes::key_expansion(&key[..24]), &text);
    assert_eq!(output, block("dda97ca4864cdfe06eaf70a0ec0d7191"));
    let output = aes::encrypt(&aes::key_expansion(&key), &text);
    assert_eq!(output, block("8ea2b7ca516745bfeafc49904b496089"));
}

#[test]
fn aes_chained_a_thousand_times() {
    // The same loop with AES of the Python package cryptography: the text is
    // encrypted, and goes in front of the key, which keeps its length.
    let expected = [
        (16, "fdf42d6fc7a3aaee56d44e2053f50dbc"),
        (24, "08e4e3538ab7978804658a4d21fa6073"),
        (32, "ad75750abeb8fe691467f92e1debc82f"),
    ];
    for (length, last) in expected {
        let (mut key, mut text) = (vec![0; length], [0; 16]);
        for _ in 0..1000 {
            let next = aes::encrypt(&aes::key_expansion(&key), &text);
            key = [&text[..], &key[..length - 16]].concat();
            text = next;
        }
        assert_eq!(text, block(last), "keys of {length} bytes");
    }
}

#[test]
fn s_box_of_fips_197_figure_7() {
    // Rows 0 and f of the table, and the example {53} -> {ed} of section 5.1.1.
    let row = |r: u8| -> Vec<u8> { (0..16).map(|c| aes::s_box(16 * r + c)).collect() };
    assert_eq!(row(0), hex("637c777bf26b6fc53001672bfed7ab76"));
    assert_eq!(row(15), hex("8ca1890dbfe6426841992d0fb054bb16"));
    assert_eq!(aes::s_box(0x53), 0xed);
}

#[test]
fn shake128_of_nothing() {
    // FIPS 202 example values, message of 0 bits.
    let expected = "7f9c2ba4e88f827d616045507605853ed73b8093f6efbc88eb1a6eacfa66ef26";
    assert_eq!(shake128(b"", 32), hex(expected));
}

#[test]
fn shake128_of_1600_bits() {
    // FIPS 202 example values, message of 1600 bits (200 bytes a3), output of
    // 512 bytes: three blocks and a part. hashlib.shake_128 gives the same.
    let output = shake128(&[0xa3; 200], 512);
    assert_eq!(output.len(), 512);
    assert_eq!(
        output[..32],
        hex("131ab8d2b594946b9c81333f9bb6e0ce75c3b93104fa3469d3917457385da037")
    );
    // Bytes 160 to 191, over the end of the first block of 168.
    assert_eq!(
        output[160..192],
        hex("3f806445bf87f8b009ba9e94f7266122ed7ac24e5e266c42a82fa1bbefb7b8db")
    );
    assert_eq!(
        output[480..],
        hex("44c9fb359fd56ac0a9a75a743cff6862f17d7259ab075216c0699511643b6439")
    );
}

#[test]
fn shake128_of_every_length_up_to_400() {
    // hashlib.shake_128: pattern = bytes(n % 251 for n in range(400)); the
    // digest of all shake_128(pattern[:n]).digest(n) for n from 0 to 400.
    let pattern: Vec<u8> = (0..400).map(|n| (n % 251) as u8).collect();
    let all: Vec<u8> = (0..=400).flat_map(|n| shake128(&pattern[..n], n)).collect();
    let expected = "d7c53b313c2092f1fb0cd0951ed5df2ccec18dc31f8612c5093cb7d772bcd71c";
    assert_eq!(shake128(&all, 32), hex(expected));
}

#[test]
fn shake256_of_nothing() {
    // FIPS 202 example values, message of 0 bits.
    let expected = "46b9dd2b0ba88d13233b3feb743eeb243fcd52ea62b81b82b50c27646ed5762f";
    assert_eq!(shake256(b"", 32), hex(expected));
}

#[test]
fn shake256_of_1600_bits() {
    // FIPS 202 example values, message of 1600 bits (200 bytes a3), output of
    // 512 bytes: three blocks and a part. hashlib.shake_256 gives the same.
    let output = shake256(&[0xa3; 200], 512);
    assert_eq!(output.len(), 512);
    assert_eq!(
        output[..32],
        hex("cd8a920ed141aa0407a22d59288652e9d9f1a7ee0c1e7c1ca699424da84a904d")
    );
    // Bytes 120 to 151, over the end of the first block of 136.
    assert_eq!(
        output[120..152],
        hex("bd6484582a384317d7f47d750b8f5499512bb85a226c4243556e696f6bd072c5")
    );
    assert_eq!(
        output[480..],
        hex("6a1a9d7846436e4dca5728b6f760eef0ca92bf0be5615e96959d767197a0beeb")
    );
}

#[test]
fn shake256_of_every_length_up_to_400() {
    // hashlib.shake_256, as above.
    let pattern: Vec<u8> = (0..400).map(|n| (n % 251) as u8).collect();
    let all: Vec<u8> = (0..=400).flat_map(|n| shake256(&pattern[..n], n)).collect();
    let expected = "e9c3750307c2fb43e51042923e8edab6ef56af8bc97f5001f6924ac8ed1c67ac";
    assert_eq!(shake256(&all, 32), hex(expected));
}

/// Two elements and their product, from Python integers: carryless product,
/// then division by α^384 + α^12 + α^3 + α^2 + 1.
const A: &str = "ea8b8bba98aaeb8c2b3ee2888dea5c9c49fcf6af905d0865\
                 d2477a1e7b423af64e7b38ef65170c0e5ae3c02e7d93db0d";
const B: &str = "a681d3238bdb921adebd7234c533f71fcbe9ec9aa01554c9\
                 e5f72713318bb6d3cb0953acf9ad352bfc46a839a683a856";
const A_TIMES_B: &str = "a1623657d053b56ea004f04e3c754af85848df02826d28f4\
                         0c00ce4640396e728992f777402b2cd094e2da53fb5b3058";

/// The same with longer elements: A and B, each with a half or all of the other
/// behind it, modulo α^576 + α^13 + α^4 + α^3 + 1 and α^768 + α^19 + α^17 + α^4 + 1.
const A_TIMES_B_576: &str = "ac54657fb6604b375a01298258f7cd3c50917cbb2e56add1\
                             e1770969ab4beec181785322920712c359a77ddac941f811\
                             c0564bb43a400668ced5cae350fd7beb179dd5bbbbe87fa0";
const A_TIMES_B_768: &str = "c15ce6d25c3ada3129a3963a04b81440f47751e4ee99f6ea\
                             7fb4db25d98dbe6c0bebd3fdf4d7ad5a543f701242232bdf\
                             f9daf2b28449d3a0896a825ef55c0a15523ebe9bd2895210\
                             67213fbc94ec899f4ee350523bed04551964c95395aeabd8";

fn check_product<const N: usize>(a: &str, b: &str, expected: &str) {
    let (a, b): (field::Element<N>, _) = (field::to_field(&hex(a)), field::to_field(&hex(b)));
    assert_eq!(field::to_bits(&field::product(&a, &b)), hex(expected));
    assert_eq!(field::to_bits(&field::product(&b, &a)), hex(expected));
}

#[test]
fn field_product() {
    check_product::<6>(A, B, A_TIMES_B);
    check_product::<9>(
        &[A, &B[..48]].concat(),
        &[B, &A[48..]].concat(),
        A_TIMES_B_576,
    );
    check_product::<12>(&[A, B].concat(), &[B, A].concat(), A_TIMES_B_768);
}

/// α^(64 N - 1) times α, which has these bits.
fn check_reduction<const N: usize>(bits: &[usize]) {
    let mut top = [0; N];
    top[N - 1] = 1 << 63;
    let mut expected = [0; N];
    for bit in bits {
        expected[0] |= 1 << bit;
    }
    let alpha = field::to_field(&[2]);
    assert_eq!(field::product(&top, &alpha), expected);
    assert_eq!(field::product(&alpha, &top), expected);
}

#[test]
fn field_reduction_by_hand() {
    check_reduction::<6>(&[0, 2, 3, 12]);
    check_reduction::<9>(&[0, 3, 4, 13]);
    check_reduction::<12>(&[0, 4, 17, 19]);
}

/// Squaring as often as the element has bits is the identity modulo an
/// irreducible polynomial of that degree, and for this element no fewer are.
fn check_order<const N: usize>() {
    let a: field::Element<N> = field::to_field(&hex(A));
    let mut power = a;
    for n in 1..=64 * N {
        power = field::product(&power, &power);
        assert_eq!(power == a, n == 64 * N, "after {n} squarings");
    }
}

#[test]
fn fields_have_orders_2_to_their_widths() {
    check_order::<6>();
    check_order::<9>();
    check_order::<12>();
}

/// h = u * x0 + x1 with x0 = α^(λ - 1) + 1, by λ - 1 doublings of u, each of which
/// takes α^(3λ) for these bits.
fn check_leaf_hash(level: usize, bits: &[usize]) {
    let long = 3 * level / 8;
    let uhash: Vec<u8> = hex(A).into_iter().cycle().take(long).collect();
    let x1: Vec<u8> = hex(B).into_iter().cycle().take(long).collect();
    let mut x0 = vec![0; level / 8];
    x0[0] = 0x01;
    x0[level / 8 - 1] = 0x80;
    let mut doubled = uhash.clone();
    for _ in 0..level - 1 {
        let carry = doubled[long - 1] >> 7;
        for n in (1..long).rev() {
            doubled[n] = doubled[n] << 1 | doubled[n - 1] >> 7;
        }
        doubled[0] <<= 1;
        for bit in bits {
            doubled[bit / 8] ^= carry << (bit % 8);
        }
    }
    let expected: Vec<u8> = (0..long).map(|n| uhash[n] ^ doubled[n] ^ x1[n]).collect();
    assert_eq!(leaf_hash(&uhash, &x0, &x1), expected, "level {level}");
}

#[test]
fn leaf_hash_multiplies_then_adds() {
    check_leaf_hash(128, &[0, 2, 3, 12]);
    check_leaf_hash(192, &[0, 3, 4, 13]);
    check_leaf_hash(256, &[0, 4, 17, 19]);
}

#[test]
fn leaves_of_both_kinds() {
    // The generator's output begins alike; an ordinary seed is the first λ bits of
    // it, an Even-Mansour commitment the first 2λ.
    let iv = block("feffffff0102030405060708ffffffff");
    for bytes in [16, 24, 32] {
        let key: Vec<u8> = (1..=bytes as u8).collect();
        let output = prg(&key, &iv, 77, 4 * 8 * bytes);
        let (seed, com) = em_leaf_commit(&key, &iv, 77);
        assert_eq!((seed, &com[..]), (key.clone(), &output[..2 * bytes]));
        let (seed, com) = leaf_commit(&key, &iv, 77, &vec![0; 3 * bytes]);
        assert_eq!((&seed[..], &com[..]), output.split_at(bytes));
    }
}

#[test]
fn generator_with_words_that_wrap() {
    // AES-128-ECB of the Python package cryptography on the counter blocks. The
    // counter word starts at 2^32 - 2, the tweak word at 2^32 - 1; 53 bytes and
    // 1 byte end within a block.
    let key = block("000102030405060708090a0b0c0d0e0f");
    let iv = block("feffffff0102030405060708ffffffff");
    for (tweak, expected) in [
        (0, "59432d8e9b7de23b150fae0fc392c00a"),
        (
            1,
            "1d2e853b1e2dc0f7b4aea651a5297bc9c8284adc47e0d1ffe6b8f8da034d847a\
             790baa73fe258da3ae9794aec434a59a865c16f9029e1bc733511ee1bfe0aac4\
             8294bddd08feabfc8a9c774bcefc9dc1",
        ),
        (
            0x8000_0003,
            "f39ff3badf181ce62d741457491cda3017a0d304d0c96ed611cf2cf41597d5c2\
             e06ba8f4c989210be26d8b64465de3bcc12b3b681c",
        ),
        (0xffff_ffff, "fe"),
    ] {
        let expected = hex(expected);
        assert_eq!(prg(&key, &iv, tweak, 8 * expected.len()), expected);
    }
}

#[test]
fn generator_of_24_and_32_byte_keys() {
    // AES-192-ECB and AES-256-ECB of the Python package cryptography, as above.
    let iv = block("feffffff0102030405060708ffffffff");
    let key: Vec<u8> = (0..32).collect();
    for (length, expected) in [
        (
            24,
            "001a1ae9fa49b2d0aa4df9b33a2bc91b068deae7b6b841379c35f17074373667\
             1359049d8c00ffa3f9ff58e802188e93a1fd78714a",
        ),
        (
            32,
            "6a88d58c9718137d814c4210679f0ce451d41816f2b921569fbfc8878f43a907\
             3c8c2b1c25a1a448c28e4d5577f7eaaf68e45a5c5f",
        ),
    ] {
        assert_eq!(prg(&key[..length], &iv, 1, 8 * 53), hex(expected));
    }
}

#[test]
fn hashes_of_192_and_256_with_their_domain_bytes() {
    // hashlib.shake_256(b"\x11" * 16 + b"\x00"): of its output of three keys the
    // second, and hashlib.shake_256(b"abc\x01").
    let expected = "73dca0c0716deff6aaae02ee45f23d58251c507bf25049f55a97f801d377eb1a\
                    16b76c57e7b63b7c9790252db5ad1d778516df5b07f5d39f0b4e71f4821d4848\
                    1ae3a9ca08d18f0b";
    assert_eq!(h0(192, &[0x11; 16], 3)[1], hex(expected));
    let expected = "5a97f801d377eb1a16b76c57e7b63b7c9790252db5ad1d778516df5b07f5d39f\
                    0b4e71f4821d48481ae3a9ca08d18f0beb9c1ee5e917c26ddebbf3fb6b16eb79\
                    d08f89a92a29784f3b04bba0b22b6623dd7dfa0e42c20c5119b3af8d7c3edc6a";
    assert_eq!(h0(256, &[0x11; 16], 3)[1], hex(expected));
    let expected = "5bbbc1e4046c631801bb3a28a89d8a4791f089f4144ffd35ce83a9bc7c2e2476\
                    800aeb919178f82e89f699d385630c29490e9ebd75cb70db071a08f7fd5e5ac4";
    assert_eq!(h1(192, b"abc"), hex(expected)[..48]);
    assert_eq!(h1(256, b"abc"), hex(expected));
}

#[test]
fn hashes_with_their_domain_bytes() {
    // hashlib.shake_128(b"\x11" * 16 + b"\x00").digest(144) in three keys, and
    // hashlib.shake_128(b"abc\x01").digest(32).
    let keys = h0(128, &[0x11; 16], 3);
    assert_eq!(keys.len(), 3);
    assert_eq!(
        keys.concat(),
        hex(
            "71170c9aefc009ae0a82bb104dd991f7722868288a03d56e7e09f68d16ae4deb\
             0623cb75e888b55b4e2288496ff34accf2f0d283af88c731a9800f1c1f1a7588\
             630e16b8d57e74335d3c77889e6f1c2bc671044b78c861a9c8162b1b5add08b0\
             6418ee36e35dcebd669cf0c4534a67de3100cc78145ac012ec725b702acf36a8\
             0d6e858cb13a65085a803db5cad397cf"
        )
    );
    let expected = "3b988e5af2df3b23c26709fb4bbb3d404174087eabd536e3cfbf0d47450aff39";
    assert_eq!(h1(128, b"abc"), hex(expected));
}
