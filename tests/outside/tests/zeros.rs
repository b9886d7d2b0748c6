//! Rule R10.13 (zeros sealed): sixteen zeros under a key of sixteen zeros and an IV of twelve.

use outside::{open, seal};
use reference::nist::bytes;

const TEXT: [u8; 16] = [0; 16];

/// The ciphertext, then the tag.
const SEALED: &str = "0388dace60b6a392f328c2b971b2fe78ab6e47d42cec13bdf53a67b21257bddf";

#[test]
fn sealed() {
    let mut out = [0xa5; 32];
    let result = seal(&[0; 16], &[0; 12], &[], &TEXT, 16, &mut out);
    assert_eq!(result, (0, 32));
    assert_eq!(out, *bytes(SEALED).unwrap());
}

#[test]
fn opened() {
    let mut out = [0xa5; 16];
    let sealed = bytes(SEALED).unwrap();
    let result = open(&[0; 16], &[0; 12], &[], &sealed, 16, &mut out);
    assert_eq!(result, (0, 16));
    assert_eq!(out, TEXT);
}
