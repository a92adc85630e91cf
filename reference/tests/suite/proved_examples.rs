//! The examples of the primitives and of a challenge's indices that are proved of
//! the definitions, in the proofs of the crates `standards`, `standards_levels`, `spec`
//! and `field`: the same inputs, derived here.

use reference::shake::{shake128, shake256};
use reference::{aes, bavc, prg, shape, v1};

/// The numbers of a list as a file of `crates` writes it, `1 ∷ 2 ∷ []`, after `mark`.
fn numbers(file: &str, mark: &str) -> Vec<usize> {
    let path = format!("{}/../crates/{file}", env!("CARGO_MANIFEST_DIR"));
    let text = std::fs::read_to_string(path).expect("the file of the proved examples");
    let after = text.split_once(mark).expect(mark).1;
    let list = after.split_once("[]").expect("the end of the list").0;
    list.split('∷')
        .filter_map(|number| number.trim().trim_start_matches('(').parse().ok())
        .collect()
}

fn bytes(file: &str, mark: &str) -> Vec<u8> {
    let byte = |number| u8::try_from(number).expect("a number above 255");
    numbers(file, mark).into_iter().map(byte).collect()
}

fn proved(mark: &str) -> Vec<u8> {
    bytes("standards/proofs/KnownAnswers.antt", mark)
}

fn array<const N: usize>(bytes: Vec<u8>) -> [u8; N] {
    bytes.try_into().expect("a list of another length")
}

#[test]
fn generator_blocks_5_and_511() {
    let (key, iv) = (proved("\nkey ="), array(proved("\niv =")));
    let output = prg::prg(&key, &iv, (1 << 31) + 3, 512 * 128);
    assert_eq!(output[80..96], proved("(2 ^ 31 + 3) 5\n    ≡ "));
    assert_eq!(output[8176..], proved("(2 ^ 31 + 3) 511\n    ≡ "));
}

#[test]
fn two_blocks_of_the_counter_mode() {
    let (key, iv) = (proved("\nctr-key ="), array(proved("\nctr-iv =")));
    let output = v1::prg1(&key, &iv, 2 * 128);
    assert_eq!(output[..16], proved("ctr-iv 0\n    ≡ "));
    assert_eq!(output[16..], proved("ctr-iv 1\n    ≡ "));
}

#[test]
fn aes_of_24_and_32_byte_keys() {
    let listed = |mark: &str| bytes("standards_levels/proofs/Aes.antt", mark);
    let text = array(listed("\nplaintext ="));
    let encrypted = |key: &[u8]| aes::encrypt(&aes::key_expansion(key), &text);
    let (key24, key32) = (listed("\nkey24 ="), listed("\nkey32 ="));
    assert_eq!(
        encrypted(&key24)[..],
        listed("encrypt 6 key24 plaintext\n    ≡ ")
    );
    assert_eq!(
        encrypted(&key32)[..],
        listed("encrypt 8 key32 plaintext\n    ≡ ")
    );
}

#[test]
fn shake128_of_the_empty_message() {
    assert_eq!(shake128(&[], 32), proved("shake 168 [] 32\n    ≡ "));
}

#[test]
fn shake128_around_the_ends_of_blocks() {
    let listed = |mark: &str| bytes("standards/proofs/LongMessages.antt", mark);
    let counting = |n: usize| (0..=255).cycle().take(n).collect::<Vec<u8>>();
    for n in [167, 168, 169, 336] {
        let mark = format!("\n    shake 168 (counting {n}) 32\n    ≡ ");
        assert_eq!(shake128(&counting(n), 32), listed(&mark), "{n} bytes");
    }
    let output = shake128(&counting(167), 344);
    for at in [160, 328] {
        let mark = format!("part (shake 168 (counting 167) 344) {at} 16\n    ≡ ");
        assert_eq!(output[at..at + 16], listed(&mark), "from byte {at} on");
    }
}

#[test]
fn shake256_of_the_empty_message_and_of_300_bytes() {
    let listed = |mark: &str| bytes("standards_levels/proofs/Shake256.antt", mark);
    assert_eq!(shake256(&[], 32), listed("shake 136 [] 32\n    ≡ "));
    let message: Vec<u8> = (0..=255).cycle().take(300).collect();
    let output = shake256(&message, 144);
    assert_eq!(output[..32], listed("shake 136 (counting 300) 32\n    ≡ "));
    let mark = "part (shake 136 (counting 300) 144) 128 16\n    ≡ ";
    assert_eq!(output[128..], listed(mark));
}

#[test]
fn hashes_of_the_iv() {
    let iv: [u8; 16] = array(proved("\niv ="));
    assert_eq!(
        prg::h0(128, &iv, 1)[0][..32],
        proved("h0 faest128s iv 32\n    ≡ ")
    );
    assert_eq!(prg::h1(128, &iv), proved("h1 faest128s iv\n    ≡ "));
}

#[test]
fn leaf_hash() {
    let hashed = bavc::leaf_hash(&proved("\nu ="), &proved("\nx₀ ="), &proved("\nx₁ ="));
    assert_eq!(hashed, proved("u x₀ x₁\n    ≡ number 8\n    "));
}

#[test]
fn leaf_hashes_of_576_and_768_bits() {
    for bits in [576, 768] {
        let listed = |mark: &str| bytes(&format!("field/proofs/KnownAnswers{bits}.antt"), mark);
        let hashed = bavc::leaf_hash(&listed("\nu ="), &listed("\nx₀ ="), &listed("\nx₁ ="));
        assert_eq!(hashed, listed("u x₀ x₁\n    ≡ number 8\n    "));
    }
}

#[test]
fn hidden_indices_of_faest_128s() {
    let file = "spec/proofs/Examples.antt";
    let challenge = bytes(file, "\nvaried =");
    assert_eq!(
        shape::decode_all_chall(&shape::FAEST_128S, &challenge),
        numbers(file, "hidden_indices faest128s varied\n    ≡ ")
    );
}
