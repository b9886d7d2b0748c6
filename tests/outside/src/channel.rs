//! A channel in memory of the caller's own, as C has it: any bytes may stand there.

use crate::{answer_number, NO_COUNT};
use ewplander::raw;

const SIZE: usize = size_of::<raw::Channel>();

/// The bytes of a channel that belong to no field.
const BETWEEN: [std::ops::Range<usize>; 2] = [268..272, 348..352];

/// What stands beside the channel, and must stay there.
const GUARD: [u8; 64] = [0xc3; 64];

/// A channel, and what stands beside it.
#[repr(C, align(8))]
#[derive(Clone)]
pub struct Memory {
    before: [u8; 64],
    channel: [u8; SIZE],
    after: [u8; 64],
}

impl Memory {
    /// A channel of these bytes.
    pub fn holding(bytes: &[u8]) -> Memory {
        let channel = bytes.try_into().expect("as many bytes as a channel has");
        Memory {
            before: GUARD,
            channel,
            after: GUARD,
        }
    }

    pub fn filled(byte: u8) -> Memory {
        Memory::holding(&[byte; SIZE])
    }

    pub const SIZE: usize = SIZE;

    /// The bytes of its fields; those between are zero here.
    pub fn fields(&self) -> [u8; SIZE] {
        let mut bytes = self.channel;
        for between in BETWEEN {
            bytes[between].fill(0);
        }
        bytes
    }

    /// Lends the channel to a call, which must leave alone what stands beside it.
    fn lend(&mut self, call: impl FnOnce(*mut raw::Channel) -> u32) -> u8 {
        let answer = call(self.channel.as_mut_ptr().cast());
        assert_eq!(self.before, GUARD, "bytes in front of the channel");
        assert_eq!(self.after, GUARD, "bytes behind the channel");
        answer_number(answer)
    }

    pub fn open(&mut self, key: &[u8], mark: [u8; 4], tag_len: usize) -> u8 {
        // SAFETY: the memory has the size and the alignment of a channel, and a slice goes over as
        // its pointer and length; so in the calls below, with what is written to borrowed mutably.
        self.lend(|channel| unsafe {
            raw::ewplander_channel_open(channel, key.as_ptr(), key.len(), &mark, tag_len)
        })
    }

    pub fn begin(&mut self, number: u64, ad: &[u8]) -> u8 {
        self.lend(|channel| unsafe {
            raw::ewplander_channel_begin(channel, number, ad.as_ptr(), ad.len())
        })
    }

    pub fn feed(&mut self, piece: &[u8], out: &mut [u8]) -> (u8, usize) {
        let mut count = NO_COUNT;
        let answer = self.lend(|channel| unsafe {
            raw::ewplander_channel_feed(
                channel,
                piece.as_ptr(),
                piece.len(),
                out.as_mut_ptr(),
                out.len(),
                &mut count,
            )
        });
        (answer, count)
    }

    pub fn finish(&mut self) -> (u8, [u8; 16]) {
        let mut tag = [0xee; 16];
        let answer =
            self.lend(|channel| unsafe { raw::ewplander_channel_finish(channel, &mut tag) });
        (answer, tag)
    }

    pub fn abandon(&mut self) -> u8 {
        self.lend(|channel| unsafe { raw::ewplander_channel_abandon(channel) })
    }
}
