//! Galois/Counter Mode (SP 800-38D, section 7): sealing and opening at once, with the refusals of
//! rules R2.1 to R2.8.

use crate::cipher::Key;
use crate::hash::{hash, length_block};
use crate::{xor, Block};
use std::ops::RangeInclusive;

/// The answers, by the numbers of rules R2.0 to R2.8.
pub const DONE: u8 = 0;
pub const KEY_LENGTH: u8 = 1;
pub const IV_LENGTH: u8 = 2;
pub const TAG_LENGTH: u8 = 3;
pub const AD_LENGTH: u8 = 4;
pub const TEXT_LENGTH: u8 = 5;
pub const SEALED_LENGTH: u8 = 6;
pub const OUTPUT_LENGTH: u8 = 7;
pub const TAG_DIFFERS: u8 = 8;

/// The lengths that are accepted, in bytes.
pub const KEY_LENGTHS: [usize; 2] = [16, 32];
pub const IV_LENGTHS: RangeInclusive<usize> = 1..=128;
pub const TAG_LENGTHS: RangeInclusive<usize> = 12..=16;
pub const MAX_AD: usize = 65_536;
pub const MAX_TEXT: usize = 65_536;

/// The answer and the count of bytes written to the front of `out`: ciphertext, then tag.
pub fn seal(
    key: &[u8],
    iv: &[u8],
    ad: &[u8],
    text: &[u8],
    tag_len: usize,
    out: &mut [u8],
) -> (u8, usize) {
    deliver(seal_within(key, iv, ad, text, tag_len, out.len()), out)
}

/// The answer and the count of bytes written to the front of `out`: the text.
pub fn open(
    key: &[u8],
    iv: &[u8],
    ad: &[u8],
    sealed: &[u8],
    tag_len: usize,
    out: &mut [u8],
) -> (u8, usize) {
    deliver(open_within(key, iv, ad, sealed, tag_len, out.len()), out)
}

/// Ciphertext and tag, or the refusal.
pub fn seal_vec(
    key: &[u8],
    iv: &[u8],
    ad: &[u8],
    text: &[u8],
    tag_len: usize,
) -> Result<Vec<u8>, u8> {
    seal_within(key, iv, ad, text, tag_len, usize::MAX)
}

/// The text, or the refusal.
pub fn open_vec(
    key: &[u8],
    iv: &[u8],
    ad: &[u8],
    sealed: &[u8],
    tag_len: usize,
) -> Result<Vec<u8>, u8> {
    open_within(key, iv, ad, sealed, tag_len, usize::MAX)
}

/// Ciphertext and tag, or the first row that refuses when the output has `room` bytes.
fn seal_within(
    key: &[u8],
    iv: &[u8],
    ad: &[u8],
    text: &[u8],
    tag_len: usize,
    room: usize,
) -> Result<Vec<u8>, u8> {
    check_lengths(key, iv, ad, text.len(), tag_len)?;
    if room < text.len() + tag_len {
        return Err(OUTPUT_LENGTH);
    }
    let message = Message::start(key, iv)?;
    let mut sealed = message.crypt(text);
    let tag = message.tag(ad, &sealed);
    sealed.extend_from_slice(&tag[..tag_len]);
    Ok(sealed)
}

/// The text, or the first row that refuses when the output has `room` bytes.
fn open_within(
    key: &[u8],
    iv: &[u8],
    ad: &[u8],
    sealed: &[u8],
    tag_len: usize,
    room: usize,
) -> Result<Vec<u8>, u8> {
    // Bytes too few for a tag hold no text, as far as row 5 asks; row 6 then refuses them.
    let text_len = sealed.len().saturating_sub(tag_len);
    check_lengths(key, iv, ad, text_len, tag_len)?;
    if sealed.len() < tag_len {
        return Err(SEALED_LENGTH);
    }
    if room < text_len {
        return Err(OUTPUT_LENGTH);
    }
    let (ciphertext, tag) = sealed.split_at(text_len);
    let message = Message::start(key, iv)?;
    if message.tag(ad, ciphertext)[..tag_len] != *tag {
        return Err(TAG_DIFFERS);
    }
    Ok(message.crypt(ciphertext))
}

/// Rows 1 to 5, which sealing and opening share: the first that refuses.
fn check_lengths(
    key: &[u8],
    iv: &[u8],
    ad: &[u8],
    text_len: usize,
    tag_len: usize,
) -> Result<(), u8> {
    if !KEY_LENGTHS.contains(&key.len()) {
        return Err(KEY_LENGTH);
    }
    if !IV_LENGTHS.contains(&iv.len()) {
        return Err(IV_LENGTH);
    }
    if !TAG_LENGTHS.contains(&tag_len) {
        return Err(TAG_LENGTH);
    }
    if ad.len() > MAX_AD {
        return Err(AD_LENGTH);
    }
    if text_len > MAX_TEXT {
        return Err(TEXT_LENGTH);
    }
    Ok(())
}

/// The answer and count of a result, whose bytes go to the front of `out`; a refusal writes none.
fn deliver(result: Result<Vec<u8>, u8>, out: &mut [u8]) -> (u8, usize) {
    match result {
        Ok(bytes) => {
            out[..bytes.len()].copy_from_slice(&bytes);
            (DONE, bytes.len())
        }
        Err(refusal) => (refusal, 0),
    }
}

/// What a key and an IV settle before any text is seen.
struct Message {
    key: Key,
    /// H, the hash key.
    h: Block,
    /// J (J0), the first block.
    j: Block,
}

impl Message {
    /// The message that a key and an IV start, if the key has a length that the cipher takes.
    fn start(key: &[u8], iv: &[u8]) -> Result<Message, u8> {
        let key = Key::expand(key).ok_or(KEY_LENGTH)?;
        let h = key.encipher([0; 16]);
        let j = first_block(h, iv);
        Ok(Message { key, h, j })
    }

    /// The text enciphered, or the ciphertext deciphered (GCTR from inc32(J0)).
    fn crypt(&self, text: &[u8]) -> Vec<u8> {
        let mut result = Vec::with_capacity(text.len());
        let mut counter = self.j;
        for piece in text.chunks(16) {
            // Stepped before use: J itself is kept for the tag.
            counter = step(counter);
            let mask = self.key.encipher(counter);
            result.extend(piece.iter().zip(mask).map(|(t, m)| t ^ m));
        }
        result
    }

    /// The whole tag, sixteen bytes, of associated data and ciphertext.
    fn tag(&self, ad: &[u8], ciphertext: &[u8]) -> Block {
        let lengths = length_block(ad.len(), ciphertext.len());
        let hashed = hash(self.h, &[ad, ciphertext, &lengths]);
        xor(hashed, self.key.encipher(self.j))
    }
}

/// The first block J (J0) of an IV under the hash key `h`.
pub fn first_block(h: Block, iv: &[u8]) -> Block {
    if iv.len() != 12 {
        return hash(h, &[iv, &length_block(0, iv.len())]);
    }
    let mut j = [0; 16];
    j[..12].copy_from_slice(iv);
    j[15] = 1;
    j
}

/// The block with one added to its last four bytes, which wrap (inc32).
pub fn step(mut block: Block) -> Block {
    for i in (12..16).rev() {
        block[i] = block[i].wrapping_add(1);
        // Only a byte that came round to zero carries into the one before it.
        if block[i] != 0 {
            break;
        }
    }
    block
}
