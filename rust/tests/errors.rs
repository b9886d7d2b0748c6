//! Each error that a call's page lists, met; a key of a wrong length is stopped before any call.

use ewplander::{open, seal, Channel, Error, Key, Mark, Number, Tag};

static LONG: [u8; 65_537] = [0; 65_537];

fn key() -> Key {
    Key::from([7; 16])
}

fn channel() -> Channel {
    Channel::open(&key(), Mark(*b"pump"), 12).unwrap()
}

#[test]
fn keys() {
    for len in [0, 15, 17, 24, 31, 33] {
        assert_eq!(Key::new(&LONG[..len]).unwrap_err(), Error::KeyLength);
    }
}

#[test]
fn at_once() {
    let mut out = [0; 40];
    let mut sealed = |iv: usize, ad: usize, text: usize, tag_len, room| {
        let (iv, ad, text) = (&LONG[..iv], &LONG[..ad], &LONG[..text]);
        seal(&key(), iv, ad, text, tag_len, &mut out[..room])
    };
    assert_eq!(sealed(12, 0, 10, 16, 40), Ok(26));
    assert_eq!(sealed(0, 0, 10, 16, 40), Err(Error::IvLength));
    assert_eq!(sealed(129, 0, 10, 16, 40), Err(Error::IvLength));
    assert_eq!(sealed(12, 0, 10, 11, 40), Err(Error::TagLength));
    assert_eq!(sealed(12, 65_537, 10, 16, 40), Err(Error::AdLong));
    assert_eq!(sealed(12, 0, 65_537, 16, 40), Err(Error::TextLong));
    assert_eq!(sealed(12, 0, 10, 16, 25), Err(Error::OutputShort));

    let long = [0; 65_537 + 16];
    let mut back = [0; 40];
    let mut opened = |iv: usize, ad: usize, bytes: &[u8], tag_len, room| {
        let (iv, ad) = (&LONG[..iv], &LONG[..ad]);
        open(&key(), iv, ad, bytes, tag_len, &mut back[..room])
    };
    assert_eq!(opened(12, 0, &out[..26], 16, 10), Ok(10));
    assert_eq!(opened(0, 0, &out[..26], 16, 10), Err(Error::IvLength));
    assert_eq!(opened(12, 0, &out[..26], 17, 10), Err(Error::TagLength));
    assert_eq!(opened(12, 65_537, &out[..26], 16, 10), Err(Error::AdLong));
    assert_eq!(opened(12, 0, &long, 16, 10), Err(Error::TextLong));
    assert_eq!(opened(12, 0, &out[..15], 16, 10), Err(Error::SealedShort));
    assert_eq!(opened(12, 0, &out[..26], 16, 9), Err(Error::OutputShort));
    assert_eq!(opened(12, 1, &out[..26], 16, 10), Err(Error::TagDiffers));
}

#[test]
fn channels() {
    let refused = Channel::open(&key(), Mark(*b"pump"), 11);
    assert_eq!(refused.unwrap_err(), Error::TagLength);

    let (mut channel, mut out) = (channel(), vec![0; LONG.len()]);
    assert_eq!(channel.feed(b"", &mut []), Err(Error::WrongPhase));
    assert_eq!(channel.finish(), Err(Error::WrongPhase));
    assert_eq!(channel.abandon(), Err(Error::WrongPhase));
    assert_eq!(channel.begin(Number(200), &LONG), Err(Error::AdLong));
    assert_eq!(channel.begin(Number(200), b""), Ok(()));
    assert_eq!(channel.begin(Number(201), b""), Err(Error::WrongPhase));
    assert_eq!(channel.feed(&LONG, &mut out), Err(Error::TextLong));
    assert_eq!(
        channel.feed(b"level", &mut out[..4]),
        Err(Error::OutputShort)
    );
    assert_eq!(channel.feed(b"level", &mut out), Ok(5));
    assert_eq!(
        channel
            .finish()
            .as_ref()
            .map(Tag::as_bytes)
            .map(<[u8]>::len),
        Ok(12)
    );
    assert_eq!(channel.begin(Number(200), b""), Err(Error::Used));
    assert_eq!(channel.begin(Number(72), b""), Err(Error::Stale));
    assert_eq!(channel.begin(Number(73), b""), Ok(()));
    assert_eq!(channel.abandon(), Ok(()));
}

/// What the page on [`Channel`] says that types cannot stop: nothing here is refused.
#[test]
fn what_types_cannot_stop() {
    for _ in 0..2 {
        let mut channel = channel();
        assert_eq!(channel.begin(Number(1), b""), Ok(()));
    }
    let same_iv = b"pump\0\0\0\0\0\0\0\x01";
    assert_eq!(seal(&key(), same_iv, b"", b"", 12, &mut [0; 12]), Ok(12));
}

/// A refusal is an error to any caller, and a channel goes from thread to thread.
#[test]
fn traits() {
    fn is_error<T: core::error::Error + Send + Sync + 'static>() {}
    fn is_sent<T: Send + Sync>() {}
    is_error::<Error>();
    is_sent::<Channel>();
}
