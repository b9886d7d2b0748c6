use core::fmt;

/// Why a call was refused, with the number that the C functions answer.
///
/// A refused call alters no byte of an output and nothing in a channel. Where several refusals
/// apply, the lowest number is given; a call on a channel looks at the phase before all else.
#[derive(Clone, Copy, Debug, PartialEq, Eq, Hash)]
#[repr(u8)]
pub enum Error {
    /// The key has neither 16 nor 32 bytes.
    KeyLength = 1,
    /// The IV has no byte, or more than 128.
    IvLength = 2,
    /// The tag length is not 12 to 16.
    TagLength = 3,
    /// More than 65,536 bytes of associated data.
    AdLong = 4,
    /// More than 65,536 bytes of text, all pieces of a message taken together.
    TextLong = 5,
    /// Fewer sealed bytes than the tag has.
    SealedShort = 6,
    /// The output is shorter than what would be written.
    OutputShort = 7,
    /// The tag is not that of these bytes: no text has this sealed form.
    TagDiffers = 8,
    /// A message is open, or none is.
    WrongPhase = 9,
    /// The number is 128 or more below the highest that was accepted.
    Stale = 10,
    /// The number was accepted before.
    Used = 11,
}

impl Error {
    const ALL: [Error; 11] = [
        Error::KeyLength,
        Error::IvLength,
        Error::TagLength,
        Error::AdLong,
        Error::TextLong,
        Error::SealedShort,
        Error::OutputShort,
        Error::TagDiffers,
        Error::WrongPhase,
        Error::Stale,
        Error::Used,
    ];

    /// The number of this refusal.
    pub fn number(self) -> u8 {
        self as u8
    }

    /// What a C function answered.
    pub(crate) fn check(answer: u32) -> Result<(), Error> {
        match answer {
            0 => Ok(()),
            n => Err(Self::ALL[n as usize - 1]),
        }
    }
}

impl fmt::Display for Error {
    fn fmt(&self, f: &mut fmt::Formatter<'_>) -> fmt::Result {
        f.write_str(match self {
            Error::KeyLength => "a key has 16 or 32 bytes",
            Error::IvLength => "an IV has 1 to 128 bytes",
            Error::TagLength => "a tag has 12 to 16 bytes",
            Error::AdLong => "associated data has at most 65,536 bytes",
            Error::TextLong => "a text has at most 65,536 bytes",
            Error::SealedShort => "fewer sealed bytes than the tag has",
            Error::OutputShort => "the output is too short",
            Error::TagDiffers => "the tag differs",
            Error::WrongPhase => "the channel is in another phase",
            Error::Stale => "the message number is stale",
            Error::Used => "the message number was used before",
        })
    }
}

impl core::error::Error for Error {}
