use crate::Error;
use core::fmt;

/// A key of 128 or 256 bits.
#[derive(Clone)]
pub enum Key {
    /// Sixteen bytes.
    Bits128([u8; 16]),
    /// Thirty-two bytes.
    Bits256([u8; 32]),
}

impl Key {
    /// The key with these bytes.
    ///
    /// # Errors
    ///
    /// [`Error::KeyLength`] where there are neither 16 of them nor 32.
    pub fn new(bytes: &[u8]) -> Result<Key, Error> {
        if let Ok(bytes) = bytes.try_into() {
            Ok(Key::Bits128(bytes))
        } else if let Ok(bytes) = bytes.try_into() {
            Ok(Key::Bits256(bytes))
        } else {
            Err(Error::KeyLength)
        }
    }

    pub(crate) fn as_bytes(&self) -> &[u8] {
        match self {
            Key::Bits128(bytes) => bytes,
            Key::Bits256(bytes) => bytes,
        }
    }
}

impl From<[u8; 16]> for Key {
    fn from(bytes: [u8; 16]) -> Key {
        Key::Bits128(bytes)
    }
}

impl From<[u8; 32]> for Key {
    fn from(bytes: [u8; 32]) -> Key {
        Key::Bits256(bytes)
    }
}

impl fmt::Debug for Key {
    /// Nothing of the key is shown but its length.
    fn fmt(&self, f: &mut fmt::Formatter<'_>) -> fmt::Result {
        write!(f, "Key({} bits)", self.as_bytes().len() * 8)
    }
}
