//! The block cipher AES with keys of 16 and 32 bytes (FIPS 197, section 5).
//!
//! The state stays the sixteen bytes of the block: byte r + 4c is row r, column c.

use crate::field8::{double, sbox};
use crate::{xor, Block};

/// Four bytes: one column of the state, one word of the key schedule.
type Word = [u8; 4];

/// An expanded key.
#[derive(Clone)]
pub struct Key {
    /// One block for each AddRoundKey: the rounds and one before the first.
    round_keys: Vec<Block>,
    sbox: &'static [u8; 256],
}

impl Key {
    /// The expanded key (KeyExpansion), if there are 16 or 32 bytes.
    pub fn expand(key: &[u8]) -> Option<Key> {
        let rounds = match key.len() {
            16 => 10,
            32 => 14,
            _ => return None,
        };
        let sbox = sbox();
        let words = schedule(key, 4 * (rounds + 1), sbox);
        let round_keys = words
            .chunks_exact(4)
            .map(|four| std::array::from_fn(|i| four[i / 4][i % 4]))
            .collect();
        Some(Key { round_keys, sbox })
    }

    /// The block enciphered (Cipher).
    pub fn encipher(&self, block: Block) -> Block {
        let last = self.round_keys.len() - 1;
        let mut state = xor(block, self.round_keys[0]);
        for &round_key in &self.round_keys[1..last] {
            state = sub_bytes(state, self.sbox);
            state = shift_rows(state);
            state = mix_columns(state);
            state = xor(state, round_key);
        }
        state = sub_bytes(state, self.sbox);
        state = shift_rows(state);
        xor(state, self.round_keys[last])
    }
}

/// The first `count` words of the key schedule.
fn schedule(key: &[u8], count: usize, sbox: &[u8; 256]) -> Vec<Word> {
    let n = key.len() / 4;
    let mut words: Vec<Word> = Vec::with_capacity(count);
    for i in 0..n {
        words.push(std::array::from_fn(|r| key[4 * i + r]));
    }
    let mut round_constant = 0x01;
    for i in n..count {
        let mut t = words[i - 1];
        if i % n == 0 {
            t.rotate_left(1);
            t = sub_bytes(t, sbox);
            t[0] ^= round_constant;
            round_constant = double(round_constant);
        } else if n > 6 && i % n == 4 {
            t = sub_bytes(t, sbox);
        }
        words.push(xor(words[i - n], t));
    }
    words
}

/// Every byte replaced by its S-box entry (SubBytes; SubWord for a word).
fn sub_bytes<const N: usize>(bytes: [u8; N], sbox: &[u8; 256]) -> [u8; N] {
    bytes.map(|b| sbox[b as usize])
}

/// Row r turned left by r places (ShiftRows).
fn shift_rows(state: Block) -> Block {
    std::array::from_fn(|i| {
        let (r, c) = (i % 4, i / 4);
        state[r + 4 * ((c + r) % 4)]
    })
}

/// Every column multiplied by the matrix whose rows are 2 3 1 1, turned (MixColumns).
fn mix_columns(state: Block) -> Block {
    std::array::from_fn(|i| {
        let (r, c) = (i % 4, i / 4);
        let below = |k: usize| state[(r + k) % 4 + 4 * c];
        let two = double(below(0));
        let three = double(below(1)) ^ below(1);
        two ^ three ^ below(2) ^ below(3)
    })
}
