//! Channels beside a model of them: a plain set of the numbers accepted, and whole texts that the
//! reference program seals at once. The calls come from a seed, refusals and abandoned messages
//! included; every byte that a call may write, and every one that it may not, is looked at.

use outside::channel::Memory;
use outside::random::{seed, Random};
use reference::mode;
use std::collections::BTreeSet;

const TRACES: usize = 1_000;
const CALLS: usize = 120;

const LONGEST: usize = 65_536;

/// What an output holds before a call.
const FILL: u8 = 0xa5;

/// The message that is open.
struct Message {
    number: u64,
    ad: Vec<u8>,
    text: Vec<u8>,
    bytes: Vec<u8>,
}

/// What a channel is, as rules R6.1 to R6.15 have it.
struct Model {
    key: Vec<u8>,
    mark: [u8; 4],
    tag_len: usize,
    accepted: BTreeSet<u64>,
    message: Option<Message>,
}

impl Model {
    fn begin(&self, number: u64, ad: usize) -> u8 {
        let highest = self.accepted.last().copied().unwrap_or(0);
        if self.message.is_some() {
            9
        } else if ad > LONGEST {
            4
        } else if highest.saturating_sub(number) >= 128 {
            10
        } else if self.accepted.contains(&number) {
            11
        } else {
            0
        }
    }

    fn feed(&self, piece: usize, room: usize) -> u8 {
        match &self.message {
            None => 9,
            Some(message) if message.text.len() + piece > LONGEST => 5,
            Some(_) if room < piece => 7,
            Some(_) => 0,
        }
    }

    /// The seal at once of a message, with a tag of 16 bytes.
    fn sealed(&self, message: &Message) -> Vec<u8> {
        let iv = [&self.mark[..], &message.number.to_be_bytes()].concat();
        mode::seal_vec(&self.key, &iv, &message.ad, &message.text, 16).expect("a message")
    }
}

/// How many calls of a kind were made, and how many were refused.
#[derive(Default)]
struct Counts {
    calls: usize,
    refused: usize,
    finished: usize,
    abandoned: usize,
}

struct Trace<'a> {
    random: &'a mut Random,
    channel: Memory,
    model: Model,
    counts: &'a mut Counts,
}

impl Trace<'_> {
    /// The call answered what is due, and a refusal left the channel.
    fn check(&mut self, what: &str, answer: u8, due: u8, before: &Memory) {
        assert_eq!(answer, due, "{what}");
        self.counts.calls += 1;
        if answer != 0 {
            self.counts.refused += 1;
            assert_eq!(self.channel.fields(), before.fields(), "{what}, refused");
        }
    }

    fn begin(&mut self) {
        let highest = self.model.accepted.last().copied().unwrap_or(0);
        let number = match self.random.below(4) {
            0 => highest.saturating_add(self.random.below(300) as u64),
            1 => highest.saturating_sub(self.random.below(140) as u64),
            2 => highest.wrapping_add(1),
            _ => self.random.one_of(&[
                0,
                1,
                u64::MAX,
                u64::MAX - 127,
                u64::MAX - 128,
                self.random.0,
            ]),
        };
        let ad = match self.random.below(40) {
            0 => vec![1; LONGEST + 1],
            n => self.random.bytes(n),
        };
        let before = self.channel.clone();
        let due = self.model.begin(number, ad.len());
        let answer = self.channel.begin(number, &ad);
        self.check("begin", answer, due, &before);
        if answer == 0 {
            self.model.accepted.insert(number);
            self.model.message = Some(Message {
                number,
                ad,
                text: vec![],
                bytes: vec![],
            });
        }
    }

    fn feed(&mut self) {
        let len = match self.random.below(60) {
            0 => LONGEST - self.random.below(40),
            n => n,
        };
        let piece = self.random.bytes(len);
        let room = if self.random.once_in(8) {
            self.random.below(len + 1)
        } else {
            len + self.random.below(9)
        };
        let mut out = vec![FILL; room];
        let before = self.channel.clone();
        let due = self.model.feed(len, room);
        let (answer, count) = self.channel.feed(&piece, &mut out);
        self.check("feed", answer, due, &before);
        assert_eq!(count, if answer == 0 { len } else { 0 });
        assert!(
            out[count..].iter().all(|&b| b == FILL),
            "bytes past the count"
        );
        if answer == 0 {
            let message = self.model.message.as_mut().expect("an open message");
            message.text.extend(&piece);
            message.bytes.extend(&out[..count]);
        }
    }

    /// The bytes written so far are the leading ciphertext bytes of the text so far.
    fn ended(&mut self) -> Option<Vec<u8>> {
        let message = self.model.message.take()?;
        let sealed = self.model.sealed(&message);
        let (ciphertext, tag) = sealed.split_at(message.text.len());
        assert!(message.bytes == ciphertext, "the bytes of the pieces");
        Some(tag.to_vec())
    }

    fn finish(&mut self) {
        let before = self.channel.clone();
        let due = if self.model.message.is_some() { 0 } else { 9 };
        let (answer, tag) = self.channel.finish();
        self.check("finish", answer, due, &before);
        let mut whole = [0; 16];
        if let Some(sealed) = self.ended() {
            let len = self.model.tag_len;
            whole[..len].copy_from_slice(&sealed[..len]);
            self.counts.finished += 1;
        }
        assert_eq!(tag, whole);
    }

    fn abandon(&mut self) {
        let before = self.channel.clone();
        let due = if self.model.message.is_some() { 0 } else { 9 };
        let answer = self.channel.abandon();
        self.check("abandon", answer, due, &before);
        self.counts.abandoned += usize::from(self.ended().is_some());
    }
}

#[test]
fn traces() {
    let mut random = Random(seed());
    let mut counts = Counts::default();
    for _ in 0..TRACES {
        let key_len = random.one_of(&[16, 32]);
        let model = Model {
            key: random.bytes(key_len),
            mark: random.number().to_be_bytes()[..4].try_into().unwrap(),
            tag_len: 12 + random.below(5),
            accepted: BTreeSet::new(),
            message: None,
        };
        let mut channel = Memory::holding(&random.bytes(Memory::SIZE));
        assert_eq!(channel.open(&model.key, model.mark, model.tag_len), 0);
        let mut trace = Trace {
            random: &mut random,
            channel,
            model,
            counts: &mut counts,
        };
        for _ in 0..CALLS {
            // Mostly what the phase allows, and now and then what it does not.
            let open = trace.model.message.is_some();
            match trace.random.below(20) {
                0..=1 => trace.begin(),
                2..=12 if open => trace.feed(),
                2..=12 => trace.begin(),
                13..=14 => trace.feed(),
                15..=17 => trace.finish(),
                _ => trace.abandon(),
            }
        }
    }
    println!(
        "{TRACES} traces: {} calls, {} refused, {} messages finished, {} abandoned",
        counts.calls, counts.refused, counts.finished, counts.abandoned
    );
    assert!(counts.finished > 1_000 && counts.refused > 1_000);
}

/// One text, cut in every two places.
#[test]
fn cut_anywhere() {
    let mut random = Random(seed());
    let (key, text) = (random.bytes(16), random.bytes(50));
    let iv = [b"mark", &7u64.to_be_bytes()[..]].concat();
    let sealed = mode::seal_vec(&key, &iv, b"ad", &text, 16).unwrap();
    let mut cuts = 0;
    for first in 0..=text.len() {
        for second in first..=text.len() {
            let mut channel = Memory::filled(0);
            assert_eq!(channel.open(&key, *b"mark", 16), 0);
            assert_eq!(channel.begin(7, b"ad"), 0);
            let mut out = vec![FILL; text.len()];
            for (from, to) in [(0, first), (first, second), (second, text.len())] {
                let written = channel.feed(&text[from..to], &mut out[from..]);
                assert_eq!(written, (0, to - from));
            }
            let (answer, tag) = channel.finish();
            assert_eq!(answer, 0);
            assert!([&out[..], &tag].concat() == sealed);
            cuts += 1;
        }
    }
    println!("{cuts} cuts of one text");
}

/// Openings that are refused, and the dead channel.
#[test]
fn dead() {
    for (key_len, tag_len, due) in [
        (15, 16, 1),
        (24, 16, 1),
        (33, 11, 1),
        (16, 11, 3),
        (32, 17, 3),
    ] {
        let mut channel = Memory::filled(0xff);
        assert_eq!(channel.open(&vec![1; key_len], *b"mark", tag_len), due);
        assert_eq!(channel.fields(), [0; Memory::SIZE]);
        let mut out = [FILL; 4];
        assert_eq!(channel.begin(1, &[]), 9);
        assert_eq!(channel.feed(&[1, 2], &mut out), (9, 0));
        assert_eq!(channel.finish(), (9, [0; 16]));
        assert_eq!(channel.abandon(), 9);
        assert_eq!((out, channel.fields()), ([FILL; 4], [0; Memory::SIZE]));
    }
}

/// Any bytes where a channel should be: every call answers, and a refusal leaves them.
#[test]
fn arbitrary_memory() {
    let mut random = Random(seed());
    let mut calls = 0;
    for _ in 0..5_000 {
        let mut bytes = random.bytes(Memory::SIZE);
        for _ in 0..random.below(4) {
            let at = random.below(Memory::SIZE - 8);
            bytes[at..at + 8].fill(random.one_of(&[0, 1, 0xff]));
        }
        let mut channel = Memory::holding(&bytes);
        for _ in 0..4 {
            let before = channel.clone();
            let mut out = vec![FILL; random.below(70)];
            let piece = vec![1; random.below(70)];
            let answer = match random.below(4) {
                0 => channel.begin(random.number(), &piece),
                1 => {
                    let (answer, count) = channel.feed(&piece, &mut out);
                    assert!(out[count..].iter().all(|&b| b == FILL));
                    answer
                }
                2 => channel.finish().0,
                _ => channel.abandon(),
            };
            assert!([0, 4, 5, 7, 9, 10, 11].contains(&answer));
            assert!(answer == 0 || channel.fields() == before.fields());
            calls += 1;
        }
    }
    println!("{calls} calls on arbitrary memory");
}
