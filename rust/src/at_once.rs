use crate::{raw, Error, Key};

// The two C functions have one signature, and so do the two calls over them.
macro_rules! at_once {
    ($($(#[$doc:meta])* $name:ident calls $symbol:ident;)*) => {$(
        $(#[$doc])*
        pub fn $name(
            key: &Key,
            iv: &[u8],
            ad: &[u8],
            given: &[u8],
            tag_len: usize,
            out: &mut [u8],
        ) -> Result<usize, Error> {
            let key = key.as_bytes();
            let mut count = 0;
            // SAFETY: each slice goes over as its pointer and its length, and what is written to,
            // `out` and `count`, is borrowed mutably, so nothing else overlaps it.
            let answer = unsafe {
                raw::$symbol(
                    key.as_ptr(),
                    key.len(),
                    iv.as_ptr(),
                    iv.len(),
                    ad.as_ptr(),
                    ad.len(),
                    given.as_ptr(),
                    given.len(),
                    tag_len,
                    out.as_mut_ptr(),
                    out.len(),
                    &mut count,
                )
            };
            Error::check(answer).map(|()| count)
        }
    )*};
}

at_once! {
    /// Seals a text: ciphertext and then tag are written to the front of `out`. It gives how many
    /// bytes that is, the text's and `tag_len`; a refusal leaves `out` as it was.
    ///
    /// The IV is never the same twice under one key, and the key is not that of a
    /// [`Channel`](crate::Channel).
    ///
    /// # Errors
    ///
    /// - [`Error::IvLength`]: the IV has no byte, or more than 128.
    /// - [`Error::TagLength`]: `tag_len` is not 12 to 16.
    /// - [`Error::AdLong`]: `ad` has more than 65,536 bytes.
    /// - [`Error::TextLong`]: the text has more than 65,536 bytes.
    /// - [`Error::OutputShort`]: `out` is shorter than the text and the tag.
    seal calls ewplander_seal;
    /// Opens what was sealed with the same key, IV, associated data and tag length: the text is
    /// written to the front of `out`. It gives how many bytes that is; a refusal leaves `out` as it
    /// was.
    ///
    /// A [`Channel`](crate::Channel)'s message is opened by its IV: the mark, then the number,
    /// highest byte first ([`Number`](crate::Number)).
    ///
    /// # Errors
    ///
    /// - [`Error::IvLength`]: the IV has no byte, or more than 128.
    /// - [`Error::TagLength`]: `tag_len` is not 12 to 16.
    /// - [`Error::AdLong`]: `ad` has more than 65,536 bytes.
    /// - [`Error::TextLong`]: there are more than 65,536 sealed bytes in front of the tag.
    /// - [`Error::SealedShort`]: there are fewer sealed bytes than the tag has.
    /// - [`Error::OutputShort`]: `out` is shorter than the text.
    /// - [`Error::TagDiffers`]: exactly when no text has this sealed form.
    open calls ewplander_open;
}
