//! AES-GCM sealing for remote stations, over a library in which every function is proved to do what
//! its contract says.
//!
//! [`seal`] and [`open`] work on a whole message at once; a [`Channel`] seals messages in pieces.
//! Any lengths may be handed in: a bad one is refused by its [`Error`], and a refused call alters
//! no byte of an output and nothing in a channel.
//!
//! No call allocates, and nothing of `std` is needed; how much stack each C function takes,
//! `include/ewplander.h` says. None is constant in time: the cipher's substitution is a table
//! indexed by secret bytes.
//!
//! ```
//! use ewplander::{open, seal, Error, Key};
//!
//! # fn main() -> Result<(), Error> {
//! let key = Key::new(&[7; 32])?;
//! let iv = [1; 12]; // never the same twice under one key
//! let mut frame = [0; 26];
//! let count = seal(&key, &iv, b"tank 3", b"level 4.2m", 16, &mut frame)?;
//! let mut text = [0; 10];
//! open(&key, &iv, b"tank 3", &frame[..count], 16, &mut text)?;
//! assert_eq!(&text, b"level 4.2m");
//! frame[0] ^= 1;
//! assert_eq!(open(&key, &iv, b"tank 3", &frame, 16, &mut text), Err(Error::TagDiffers));
//! # Ok(())
//! # }
//! ```

#![no_std]
#![deny(missing_docs, clippy::missing_errors_doc)]

mod at_once;
mod channel;
mod error;
mod key;
pub mod raw;

pub use at_once::{open, seal};
pub use channel::{Channel, Mark, Number, Tag};
pub use error::Error;
pub use key::Key;

/// README's examples, run as tests.
#[cfg(doctest)]
#[doc = include_str!("../../README.md")]
struct Readme;
