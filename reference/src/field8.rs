//! GF(2^8): bytes as polynomials modulo x^8 + x^4 + x^3 + x + 1 (FIPS 197, section 4), and the
//! S-box made of it.

use std::sync::OnceLock;

/// The byte times x (xTimes).
pub fn double(a: u8) -> u8 {
    let fell_out = a >> 7;
    (a << 1) ^ (fell_out * 0x1b)
}

/// The product of two bytes.
pub fn product(a: u8, b: u8) -> u8 {
    let mut sum = 0;
    let mut power = a;
    for i in 0..8 {
        if (b >> i) & 1 == 1 {
            sum ^= power;
        }
        power = double(power);
    }
    sum
}

/// The byte whose product with `a` is 01; 00 for 00, which has none.
pub fn inverse(a: u8) -> u8 {
    (0..=255).find(|&b| product(a, b) == 1).unwrap_or(0)
}

/// The S-box entry of one byte, by its rule: the inverse, then an affine map of its bits.
pub fn substitute(a: u8) -> u8 {
    let b = inverse(a);
    let bit = |i: u32| (b >> (i % 8)) & 1;
    (0..8).fold(0x63, |entry, i| {
        let sum = bit(i) ^ bit(i + 4) ^ bit(i + 5) ^ bit(i + 6) ^ bit(i + 7);
        entry ^ (sum << i)
    })
}

/// The whole S-box, entry `a` at index `a`.
pub fn sbox() -> &'static [u8; 256] {
    // Searching an inverse takes up to 256 products: too slow for every byte of every round.
    static SBOX: OnceLock<[u8; 256]> = OnceLock::new();
    SBOX.get_or_init(|| std::array::from_fn(|a| substitute(a as u8)))
}
