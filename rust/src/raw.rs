//! The C functions themselves, as `include/ewplander.h` declares and explains them.
//!
//! Every pointer with a length is followed for that many bytes, the others always; what is written
//! to overlaps no other argument. Each answers 0 for done, or the number of an
//! [`Error`](crate::Error).

/// A channel as C has it.
#[repr(C)]
pub struct Channel {
    words: [u32; 60],
    h: [u64; 2],
    mark: [u8; 4],
    rounds: u32,
    tag: u32,
    ledger: [u64; 3],
    message: Message,
}

#[repr(C)]
struct Message {
    number: u64,
    sum: [u64; 2],
    part: [u8; 16],
    phase: u32,
    ad: u32,
    text: u32,
}

const _: () = assert!(size_of::<Channel>() == 352);

impl Channel {
    /// All zeros: the dead channel.
    pub const DEAD: Channel = Channel {
        words: [0; 60],
        h: [0; 2],
        mark: [0; 4],
        rounds: 0,
        tag: 0,
        ledger: [0; 3],
        message: Message {
            number: 0,
            sum: [0; 2],
            part: [0; 16],
            phase: 0,
            ad: 0,
            text: 0,
        },
    };
}

extern "C" {
    /// Seals a text at once: ciphertext, then tag.
    pub fn ewplander_seal(
        key: *const u8,
        key_len: usize,
        iv: *const u8,
        iv_len: usize,
        ad: *const u8,
        ad_len: usize,
        text: *const u8,
        text_len: usize,
        tag_len: usize,
        out: *mut u8,
        out_len: usize,
        count: *mut usize,
    ) -> u32;

    /// Opens what was sealed; nothing is written unless the tag is right.
    pub fn ewplander_open(
        key: *const u8,
        key_len: usize,
        iv: *const u8,
        iv_len: usize,
        ad: *const u8,
        ad_len: usize,
        sealed: *const u8,
        sealed_len: usize,
        tag_len: usize,
        out: *mut u8,
        out_len: usize,
        count: *mut usize,
    ) -> u32;

    /// Stores a new channel, or the dead one where it refuses.
    pub fn ewplander_channel_open(
        channel: *mut Channel,
        key: *const u8,
        key_len: usize,
        mark: *const [u8; 4],
        tag_len: usize,
    ) -> u32;

    /// Begins a message; its number is the last eight bytes of its IV, highest byte first.
    pub fn ewplander_channel_begin(
        channel: *mut Channel,
        number: u64,
        ad: *const u8,
        ad_len: usize,
    ) -> u32;

    /// Seals a piece of the message's text.
    pub fn ewplander_channel_feed(
        channel: *mut Channel,
        piece: *const u8,
        piece_len: usize,
        out: *mut u8,
        out_len: usize,
        count: *mut usize,
    ) -> u32;

    /// Ends the message and stores its tag, zeros past the channel's tag length.
    pub fn ewplander_channel_finish(channel: *mut Channel, tag: *mut [u8; 16]) -> u32;

    /// Ends the message without a tag; its number stays used.
    pub fn ewplander_channel_abandon(channel: *mut Channel) -> u32;
}
