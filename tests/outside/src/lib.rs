//! The proved library as a program outside meets it: its C functions, each behind a safe call that
//! takes any lengths, has the reference program's shape, and hides no answer.

pub mod channel;
pub mod random;

use ewplander::raw;

/// Sealing or opening, by either program: key, IV, associated data, text or sealed bytes, the
/// tag's length, the output.
pub type Call = fn(&[u8], &[u8], &[u8], &[u8], usize, &mut [u8]) -> (u8, usize);

/// No true count, so that one left unwritten is seen.
const NO_COUNT: usize = usize::MAX;

macro_rules! safe_calls {
    ($(#[$doc:meta] $name:ident calls $symbol:ident;)*) => {$(
        #[$doc]
        pub fn $name(
            key: &[u8],
            iv: &[u8],
            ad: &[u8],
            given: &[u8],
            tag_len: usize,
            out: &mut [u8],
        ) -> (u8, usize) {
            let mut count = NO_COUNT;
            // SAFETY: each slice goes over as its pointer and its length, and what is written to,
            // `out` and `count`, is borrowed mutably, so nothing else overlaps it.
            let answer = unsafe {
                raw::$symbol(
                    key.as_ptr(),
                    key.len(),
                    iv.as_ptr(),
                    iv.len(),
                    ad.as_ptr(),
                    ad.len(),
                    given.as_ptr(),
                    given.len(),
                    tag_len,
                    out.as_mut_ptr(),
                    out.len(),
                    &mut count,
                )
            };
            (answer_number(answer), count)
        }
    )*};
}

safe_calls! {
    /// The answer and the count of bytes written to the front of `out`: ciphertext, then tag.
    seal calls ewplander_seal;
    /// The answer and the count of bytes written to the front of `out`: the text.
    open calls ewplander_open;
}

fn answer_number(answer: u32) -> u8 {
    answer.try_into().expect("an answer number")
}
