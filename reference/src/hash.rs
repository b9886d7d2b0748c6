//! GHASH and its field, GF(2^128) modulo a^128 + a^7 + a^2 + a + 1 (SP 800-38D, sections 6.3, 6.4).
//!
//! Bit x_i of a block is the coefficient of a^i, and x_0 is the top bit of byte 0, so that times a
//! is a shift to the right.

use crate::{xor, Block};

/// Bit x_i of a block.
fn bit(x: Block, i: usize) -> bool {
    (x[i / 8] >> (7 - i % 8)) & 1 == 1
}

/// The block times a.
pub fn times_a(y: Block) -> Block {
    let mut shifted = [0; 16];
    for i in 0..16 {
        let from_before = if i == 0 { 0 } else { y[i - 1] << 7 };
        shifted[i] = (y[i] >> 1) | from_before;
    }
    if bit(y, 127) {
        shifted[0] ^= 0xe1;
    }
    shifted
}

/// The product of two blocks.
pub fn product(x: Block, y: Block) -> Block {
    let mut sum = [0; 16];
    let mut power = y;
    for i in 0..128 {
        if bit(x, i) {
            sum = xor(sum, power);
        }
        power = times_a(power);
    }
    sum
}

/// Two lengths in bytes, as a block that holds each in bits.
pub fn length_block(first: usize, second: usize) -> Block {
    let mut block = [0; 16];
    block[..8].copy_from_slice(&(8 * first as u64).to_be_bytes());
    block[8..].copy_from_slice(&(8 * second as u64).to_be_bytes());
    block
}

/// The hash (GHASH) under `h` of all parts in turn, each padded with zeros to whole blocks; an
/// empty part gives no block.
pub fn hash(h: Block, parts: &[&[u8]]) -> Block {
    let mut y = [0; 16];
    for piece in parts.iter().flat_map(|part| part.chunks(16)) {
        let mut x = [0; 16];
        x[..piece.len()].copy_from_slice(piece);
        y = product(xor(y, x), h);
    }
    y
}
