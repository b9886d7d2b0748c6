//! AES-GCM a second time, written straight from FIPS 197 and SP 800-38D.
//!
//! It shares no line with the proved crates: a block is sixteen plain bytes, every product goes bit
//! by bit, and the only table is the S-box, computed from its rule. Where both programs agree, a
//! slip would have to be made twice, in two different ways. This one is for reading and comparing;
//! it is neither fast nor of even timing, so no secret should meet it.

pub mod cipher;
pub mod field8;
pub mod hash;
pub mod mode;
pub mod nist;
pub mod records;

/// Sixteen bytes: what the cipher enciphers and the hash multiplies.
pub type Block = [u8; 16];

/// The xor of two arrays, byte by byte.
fn xor<const N: usize>(a: [u8; N], b: [u8; N]) -> [u8; N] {
    std::array::from_fn(|i| a[i] ^ b[i])
}
