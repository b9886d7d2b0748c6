use crate::{raw, Error, Key};
use core::fmt;

/// A station's mark: the first four bytes of every IV of its channel.
#[derive(Clone, Copy, Debug, PartialEq, Eq, Hash)]
pub struct Mark(pub [u8; 4]);

/// A message's number: the last eight bytes of its IV, highest byte first.
///
/// Number 258 under mark 0a0b0c0d gives the IV 0a0b0c0d 0000000000000102, and by that IV the
/// message is opened:
///
/// ```
/// use ewplander::{open, Channel, Error, Key, Mark, Number};
///
/// # fn main() -> Result<(), Error> {
/// let (key, mark, number) = (Key::new(&[7; 32])?, Mark([0x0a, 0x0b, 0x0c, 0x0d]), Number(258));
/// let mut channel = Channel::open(&key, mark, 16)?;
/// let mut sealed = [0; 26];
/// channel.begin(number, b"tank 3")?;
/// channel.feed(b"level 4.2m", &mut sealed)?;
/// sealed[10..].copy_from_slice(channel.finish()?.as_bytes());
///
/// let mut iv = [0; 12];
/// iv[..4].copy_from_slice(&mark.0);
/// iv[4..].copy_from_slice(&number.0.to_be_bytes());
/// assert_eq!(iv, [0x0a, 0x0b, 0x0c, 0x0d, 0, 0, 0, 0, 0, 0, 0x01, 0x02]);
/// let mut text = [0; 10];
/// open(&key, &iv, b"tank 3", &sealed, 16, &mut text)?;
/// assert_eq!(&text, b"level 4.2m");
/// # Ok(())
/// # }
/// ```
#[derive(Clone, Copy, Debug, PartialEq, Eq, PartialOrd, Ord, Hash)]
pub struct Number(pub u64);

/// The tag of a finished message.
#[derive(Clone, Copy, Debug, PartialEq, Eq)]
pub struct Tag {
    bytes: [u8; 16],
    len: usize,
}

impl Tag {
    /// The bytes of the tag, as many as its channel's tag length says.
    pub fn as_bytes(&self) -> &[u8] {
        &self.bytes[..self.len]
    }
}

/// A sealing channel: messages in pieces, each under a number that is never taken twice.
///
/// It can be neither cloned nor copied, so no older state of it can be given again.
///
/// ```
/// use ewplander::{Channel, Error, Key, Mark, Number};
///
/// # fn main() -> Result<(), Error> {
/// let key = Key::new(&[7; 32])?;
/// let mut channel = Channel::open(&key, Mark(*b"pump"), 16)?;
/// let mut frame = [0; 10];
/// channel.begin(Number(1), b"tank 3")?;
/// let first = channel.feed(b"level", &mut frame)?;
/// channel.feed(b" 4.2m", &mut frame[first..])?;
/// let tag = channel.finish()?;
/// assert_eq!(tag.as_bytes().len(), 16);
/// assert_eq!(channel.begin(Number(1), b""), Err(Error::Used));
/// # Ok(())
/// # }
/// ```
///
/// ```compile_fail
/// # use ewplander::{Channel, Key, Mark};
/// let channel = Channel::open(&Key::from([0; 16]), Mark([0; 4]), 16).unwrap();
/// let older = channel.clone();
/// ```
///
/// # What types cannot stop
///
/// - Two channels of one key and one mark: the second takes every number of the first again. A
///   number begun twice shows how the two texts differ, and lets others make tags.
/// - [`seal`](crate::seal) with the key of a channel, whose IVs it may meet. A channel's key is
///   used for channels alone.
/// - A channel that is dropped while a message is open. What was fed has no tag, and nobody can
///   open it; its number is used, and no channel remembers that.
///
/// # After power was lost
///
/// The next channel has an empty ledger, and takes numbers of the life before. Keep in lasting
/// memory the first number that was never reserved: with N stored, store N + R before N to
/// N + R − 1 are begun, and after a start go on from the number stored. README has this as a
/// program, and says what a new mark or a new key is for.
pub struct Channel {
    state: raw::Channel,
    tag_len: usize,
}

impl Channel {
    /// A new channel, in which no number was taken and no message is open; its tags have `tag_len`
    /// bytes.
    ///
    /// # Errors
    ///
    /// [`Error::TagLength`]: `tag_len` is not 12 to 16.
    pub fn open(key: &Key, mark: Mark, tag_len: usize) -> Result<Channel, Error> {
        let key = key.as_bytes();
        let mut state = raw::Channel::DEAD;
        // SAFETY: the channel and the mark are whole, the key goes over as its pointer and length.
        let answer = unsafe {
            raw::ewplander_channel_open(&mut state, key.as_ptr(), key.len(), &mark.0, tag_len)
        };
        Error::check(answer).map(|()| Channel { state, tag_len })
    }

    /// Begins a message over its whole associated data. Its number is used from this moment on,
    /// whatever becomes of the message. Numbers may come in any order, as long as none is 128 or
    /// more below the highest.
    ///
    /// # Errors
    ///
    /// A refusal uses no number.
    ///
    /// - [`Error::WrongPhase`]: a message is open.
    /// - [`Error::AdLong`]: `ad` has more than 65,536 bytes.
    /// - [`Error::Stale`]: the number is 128 or more below the highest that was accepted.
    /// - [`Error::Used`]: the number was accepted before.
    pub fn begin(&mut self, number: Number, ad: &[u8]) -> Result<(), Error> {
        // SAFETY: the channel is whole, and a slice goes over as its pointer and length.
        Error::check(unsafe {
            raw::ewplander_channel_begin(&mut self.state, number.0, ad.as_ptr(), ad.len())
        })
    }

    /// Seals a piece of the message's text to the front of `out`, and gives how many bytes were
    /// written: as many as the piece has. However a text is cut, the pieces make the ciphertext of
    /// the whole.
    ///
    /// # Errors
    ///
    /// A refusal leaves `out` as it was, and the message open.
    ///
    /// - [`Error::WrongPhase`]: no message is open.
    /// - [`Error::TextLong`]: with this piece the message would have more than 65,536 bytes.
    /// - [`Error::OutputShort`]: `out` is shorter than the piece.
    pub fn feed(&mut self, piece: &[u8], out: &mut [u8]) -> Result<usize, Error> {
        let mut count = 0;
        // SAFETY: the channel is whole, a slice goes over as its pointer and length, and what is
        // written to is borrowed mutably.
        let answer = unsafe {
            raw::ewplander_channel_feed(
                &mut self.state,
                piece.as_ptr(),
                piece.len(),
                out.as_mut_ptr(),
                out.len(),
                &mut count,
            )
        };
        Error::check(answer).map(|()| count)
    }

    /// Ends the message, and gives its tag.
    ///
    /// # Errors
    ///
    /// [`Error::WrongPhase`]: no message is open.
    pub fn finish(&mut self) -> Result<Tag, Error> {
        let mut bytes = [0; 16];
        // SAFETY: the channel and the tag are whole.
        let answer = unsafe { raw::ewplander_channel_finish(&mut self.state, &mut bytes) };
        Error::check(answer).map(|()| Tag {
            bytes,
            len: self.tag_len,
        })
    }

    /// Ends the message without a tag. Its number stays used.
    ///
    /// # Errors
    ///
    /// [`Error::WrongPhase`]: no message is open.
    pub fn abandon(&mut self) -> Result<(), Error> {
        // SAFETY: the channel is whole.
        Error::check(unsafe { raw::ewplander_channel_abandon(&mut self.state) })
    }
}

impl fmt::Debug for Channel {
    /// Nothing of its key is shown.
    fn fmt(&self, f: &mut fmt::Formatter<'_>) -> fmt::Result {
        f.debug_struct("Channel").finish_non_exhaustive()
    }
}
