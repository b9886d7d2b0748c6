//! The standards' own examples, and the numbers to check by: rules R10.2 to R10.8, R10.12, R10.13.

use reference::cipher::Key;
use reference::field8;
use reference::hash::{length_block, product};
use reference::mode::{first_block, seal_vec, step};
use reference::nist::bytes;
use reference::Block;

/// The block that 32 hex digits spell.
fn block(hex: &str) -> Block {
    bytes(hex).unwrap().try_into().unwrap()
}

/// The example block of FIPS 197, appendix C, enciphered with the key 00 01 02 .. of that length.
fn example(key_len: u8) -> Block {
    let key: Vec<u8> = (0..key_len).collect();
    let plain = block("00112233445566778899aabbccddeeff");
    Key::expand(&key).unwrap().encipher(plain)
}

#[test]
fn fips_197_examples() {
    assert_eq!(example(16), block("69c4e0d86a7b0430d8cdb78070b4c55a"));
    assert_eq!(example(32), block("8ea2b7ca516745bfeafc49904b496089"));
}

#[test]
fn other_key_lengths_expand_to_nothing() {
    for key_len in (0..64).filter(|n| ![16, 32].contains(n)) {
        assert!(Key::expand(&vec![0; key_len]).is_none(), "{key_len}");
    }
}

#[test]
fn substitution() {
    assert_eq!(field8::sbox()[0x00], 0x63);
    assert_eq!(field8::sbox()[0x53], 0xed);
}

#[test]
fn products_of_bytes() {
    assert_eq!(field8::product(0x57, 0x83), 0xc1);
    assert_eq!(field8::product(0x57, 0x13), 0xfe);
}

#[test]
fn the_step_wraps() {
    assert_eq!(
        step(block("aaaaaaaaaaaaaaaaaaaaaaaaffffffff")),
        block("aaaaaaaaaaaaaaaaaaaaaaaa00000000")
    );
}

#[test]
fn the_step_carries() {
    assert_eq!(
        step(block("aaaaaaaaaaaaaaaaaaaaaaaa01feffff")),
        block("aaaaaaaaaaaaaaaaaaaaaaaa01ff0000")
    );
}

#[test]
fn products_of_blocks() {
    let one = block("80000000000000000000000000000000");
    let full = [0xff; 16];
    assert_eq!(product(one, full), full);

    let last = block("00000000000000000000000000000001");
    let a = block("40000000000000000000000000000000");
    assert_eq!(product(last, a), block("e1000000000000000000000000000000"));
}

#[test]
fn lengths_of_20_and_60() {
    assert_eq!(
        length_block(20, 60),
        block("00000000000000a000000000000001e0")
    );
}

#[test]
fn first_block_of_a_mark_and_a_number() {
    let iv = bytes("0a0b0c0d0000000000000102").unwrap();
    assert_eq!(
        first_block([0; 16], &iv),
        block("0a0b0c0d000000000000010200000001")
    );
}

#[test]
fn zeros_sealed() {
    let sealed = |text: &[u8]| seal_vec(&[0; 16], &[0; 12], &[], text, 16);
    assert_eq!(
        sealed(&[]),
        Ok(bytes("58e2fccefa7e3061367f1d57a4e7455a").unwrap())
    );
    let with_tag = "0388dace60b6a392f328c2b971b2fe78ab6e47d42cec13bdf53a67b21257bddf";
    assert_eq!(sealed(&[0; 16]), Ok(bytes(with_tag).unwrap()));
}
