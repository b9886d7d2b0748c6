//! The programs that are timed: ours, the reference program, and what else is installed.

/// Sealing a text under a key and an IV in pieces of so many bytes, ciphertext and a tag of 16 to
/// `out`, which is just long enough.
pub type Seal = fn(key: &[u8], iv: &[u8; 12], text: &[u8], piece: usize, out: &mut [u8]);

/// Opening what was sealed, the text to `out`, which is just long enough.
pub type Open = fn(key: &[u8], iv: &[u8; 12], sealed: &[u8], out: &mut [u8]);

pub struct Program {
    pub name: &'static str,
    pub seal: Seal,
    pub open: Open,
}

pub const TAG_LEN: usize = 16;

/// How to get those programs that are not installed.
pub const INSTALL: &str = "apt-get install libmbedtls-dev libbearssl-dev libtomcrypt-dev";

/// How many programs there are where all are installed.
pub const MOST: usize = 6;

/// Ours first, then the others that are there.
pub fn programs() -> Vec<Program> {
    vec![
        ours::PROGRAM,
        plain::PROGRAM,
        #[cfg(mbedtls)]
        others::MBEDTLS,
        #[cfg(bearssl)]
        others::BEARSSL_BIG,
        #[cfg(bearssl)]
        others::BEARSSL_CT64,
        #[cfg(tomcrypt)]
        others::TOMCRYPT,
    ]
}

/// A text in pieces goes through a channel, the IV's bytes being its mark and the message's number.
pub mod ours {
    use super::{Program, TAG_LEN};
    use ewplander::{Channel, Key, Mark, Number};

    pub const PROGRAM: Program = Program {
        name: "ewplander",
        seal,
        open,
    };

    fn seal(key: &[u8], iv: &[u8; 12], text: &[u8], piece: usize, out: &mut [u8]) {
        let key = Key::new(key).expect("a key");
        if text.len() <= piece {
            let count = ewplander::seal(&key, iv, b"", text, TAG_LEN, out);
            assert_eq!(count, Ok(out.len()));
            return;
        }
        let (mark, number) = iv.split_first_chunk().expect("four bytes");
        let number = u64::from_be_bytes(number.try_into().expect("eight bytes"));
        let mut channel = Channel::open(&key, Mark(*mark), TAG_LEN).expect("a channel");
        channel.begin(Number(number), b"").expect("a message");
        let mut at = 0;
        for piece in text.chunks(piece) {
            at += channel.feed(piece, &mut out[at..]).expect("a piece");
        }
        out[at..].copy_from_slice(channel.finish().expect("a tag").as_bytes());
    }

    fn open(key: &[u8], iv: &[u8; 12], sealed: &[u8], out: &mut [u8]) {
        let key = Key::new(key).expect("a key");
        let count = ewplander::open(&key, iv, b"", sealed, TAG_LEN, out);
        assert_eq!(count, Ok(out.len()));
    }

    /// Enciphers each block where it stands.
    pub fn encipher(key: &[u8], blocks: &mut [u8]) {
        extern "C" {
            fn bench_encipher(key: *const u8, key_len: usize, blocks: *mut u8, blocks_len: usize);
        }
        // SAFETY: a slice goes over as its pointer and its length, and the two do not overlap.
        unsafe { bench_encipher(key.as_ptr(), key.len(), blocks.as_mut_ptr(), blocks.len()) }
    }

    /// Reads the records of the vector program; how many are whole.
    pub fn records(input: &[u8]) -> usize {
        type Field = [u8; 4096];
        extern "C" {
            fn bench_records(
                key: &mut Field,
                iv: &mut Field,
                ad: &mut Field,
                text: &mut Field,
                input: *const u8,
                input_len: usize,
            ) -> usize;
        }
        let [mut key, mut iv, mut ad, mut text] = [[0; 4096]; 4];
        // SAFETY: a slice goes over as its pointer and its length, and no buffer overlaps another.
        unsafe {
            bench_records(
                &mut key,
                &mut iv,
                &mut ad,
                &mut text,
                input.as_ptr(),
                input.len(),
            )
        }
    }
}

/// The reference program, which seals at once alone.
pub mod plain {
    use super::{Program, TAG_LEN};
    use reference::cipher::Key;
    use reference::mode;
    use reference::records::{read, Record};

    pub const PROGRAM: Program = Program {
        name: "reference",
        seal,
        open,
    };

    fn seal(key: &[u8], iv: &[u8; 12], text: &[u8], _piece: usize, out: &mut [u8]) {
        let result = mode::seal(key, iv, b"", text, TAG_LEN, out);
        assert_eq!(result, (mode::DONE, out.len()));
    }

    fn open(key: &[u8], iv: &[u8; 12], sealed: &[u8], out: &mut [u8]) {
        let result = mode::open(key, iv, b"", sealed, TAG_LEN, out);
        assert_eq!(result, (mode::DONE, out.len()));
    }

    /// Enciphers each block where it stands.
    pub fn encipher(key: &[u8], blocks: &mut [u8]) {
        let key = Key::expand(key).expect("a key of 16 or 32 bytes");
        for block in blocks.chunks_exact_mut(16) {
            let enciphered = key.encipher((&*block).try_into().expect("sixteen bytes"));
            block.copy_from_slice(&enciphered);
        }
    }

    /// Reads the records of the vector program; how many are whole.
    pub fn records(input: &[u8]) -> usize {
        let whole = |record: &&Record| !matches!(record, Record::Cut);
        read(input).iter().filter(whole).count()
    }
}

#[allow(unused_macros)]
mod others {
    macro_rules! other {
        ($program:ident, $name:literal, $seal:ident, $open:ident) => {
            pub const $program: super::Program = super::Program {
                name: $name,
                seal: |key, iv, text, piece, out| {
                    extern "C" {
                        fn $seal(
                            key: *const u8,
                            key_len: usize,
                            iv: *const [u8; 12],
                            text: *const u8,
                            len: usize,
                            piece: usize,
                            out: *mut u8,
                        ) -> i32;
                    }
                    assert_eq!(out.len(), text.len() + super::TAG_LEN);
                    // SAFETY: each pointer leads to as many bytes as the call reads or writes.
                    let failed = unsafe {
                        $seal(
                            key.as_ptr(),
                            key.len(),
                            iv,
                            text.as_ptr(),
                            text.len(),
                            piece,
                            out.as_mut_ptr(),
                        )
                    };
                    assert_eq!(failed, 0);
                },
                open: |key, iv, sealed, out| {
                    extern "C" {
                        fn $open(
                            key: *const u8,
                            key_len: usize,
                            iv: *const [u8; 12],
                            sealed: *const u8,
                            len: usize,
                            out: *mut u8,
                        ) -> i32;
                    }
                    assert_eq!(sealed.len(), out.len() + super::TAG_LEN);
                    // SAFETY: each pointer leads to as many bytes as the call reads or writes.
                    let failed = unsafe {
                        $open(
                            key.as_ptr(),
                            key.len(),
                            iv,
                            sealed.as_ptr(),
                            sealed.len(),
                            out.as_mut_ptr(),
                        )
                    };
                    assert_eq!(failed, 0);
                },
            };
        };
    }

    #[cfg(mbedtls)]
    other!(MBEDTLS, "mbed TLS", mbedtls_seal, mbedtls_open);
    #[cfg(bearssl)]
    other!(
        BEARSSL_BIG,
        "BearSSL big",
        bearssl_big_seal,
        bearssl_big_open
    );
    #[cfg(bearssl)]
    other!(
        BEARSSL_CT64,
        "BearSSL ct64",
        bearssl_ct64_seal,
        bearssl_ct64_open
    );
    #[cfg(tomcrypt)]
    other!(TOMCRYPT, "libtomcrypt", tomcrypt_seal, tomcrypt_open);
}
