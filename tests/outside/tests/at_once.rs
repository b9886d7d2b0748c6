//! Sealing and opening beside the reference program, on inputs from a seed: long and short, valid
//! and damaged, refused by each row and by two at once.

use outside::random::{seed, Random};
use outside::{open, seal, Call};
use reference::mode;

const CASES: usize = 100_000;

const LONGEST: usize = 65_536;

/// One call's input.
#[derive(Clone)]
struct Input {
    key: Vec<u8>,
    iv: Vec<u8>,
    ad: Vec<u8>,
    given: Vec<u8>,
    tag_len: usize,
    room: usize,
}

impl Input {
    /// An input that nothing refuses: a text to seal, with room for it and a few bytes more.
    fn good(random: &mut Random) -> Input {
        let key_len = random.one_of(&[16, 32]);
        let iv_len = random.one_of(&[12, 12, 1, 16, 128, 1 + random.0 as usize % 128]);
        let tag_len = 12 + random.below(5);
        let most = random.one_of(&[1, 17, 64, 300]);
        let (ad_len, text_len) = (random.below(most), random.below(most));
        Input {
            key: random.bytes(key_len),
            iv: random.bytes(iv_len),
            ad: random.bytes(ad_len),
            given: random.bytes(text_len),
            tag_len,
            room: text_len + tag_len + random.below(20),
        }
    }

    /// The same, with the sealed form in the text's place.
    fn sealed(&self) -> Input {
        let sealed = mode::seal_vec(&self.key, &self.iv, &self.ad, &self.given, self.tag_len);
        Input {
            given: sealed.expect("an input that nothing refuses"),
            ..self.clone()
        }
    }

    /// The output of a call on a buffer of a pattern, with its answer and count.
    fn run(&self, call: Call) -> (u8, usize, Vec<u8>) {
        let mut out: Vec<u8> = (0..self.room).map(|i| (i * 7 + 3) as u8).collect();
        let result = call(
            &self.key,
            &self.iv,
            &self.ad,
            &self.given,
            self.tag_len,
            &mut out,
        );
        (result.0, result.1, out)
    }

    /// Both programs do the same; the answer.
    fn compare(&self, ours: Call, theirs: Call) -> u8 {
        let ours = self.run(ours);
        assert!(
            ours == self.run(theirs),
            "the programs differ: key {}, IV {}, AD {}, given {}, tag {}, room {}",
            self.key.len(),
            self.iv.len(),
            self.ad.len(),
            self.given.len(),
            self.tag_len,
            self.room
        );
        ours.0
    }

    fn seals(&self) -> u8 {
        self.compare(seal, mode::seal)
    }

    fn opens(&self) -> u8 {
        self.compare(open, mode::open)
    }
}

/// Spoils an input so that row n refuses it; for row 6, the sealed bytes of an open.
fn spoil(input: &mut Input, row: u8, random: &mut Random) {
    let some = random.below(9);
    match row {
        1 => input.key = random.bytes(random.0 as usize % 2 * 17 + some),
        2 => input.iv = random.bytes(if some < 4 { 0 } else { 129 + some }),
        3 => input.tag_len = random.one_of(&[0, 11, 17, usize::MAX]),
        4 => input.ad = vec![some as u8; LONGEST + 1 + some],
        5 => input.given = vec![some as u8; LONGEST + input.tag_len.min(64) + 1 + some],
        6 => input.given.truncate(some),
        7 => input.room = 0,
        8 => input.given[0] ^= 1,
        _ => unreachable!(),
    }
}

#[test]
fn random_inputs() {
    let mut random = Random(seed());
    let mut answers = [0usize; 9];
    for _ in 0..CASES {
        let mut input = Input::good(&mut random);
        if random.once_in(3) {
            input.room = random.below(input.room + 1);
        }
        answers[usize::from(input.seals())] += 1;
        input.room = input.given.len() + 40;
        let mut sealed = input.sealed();
        sealed.room = random.below(input.room + 1);
        if random.once_in(3) {
            let at = random.below(sealed.given.len());
            sealed.given[at] ^= 1 << random.below(8);
        }
        if random.once_in(5) {
            sealed.given.truncate(random.below(sealed.given.len() + 1));
        }
        answers[usize::from(sealed.opens())] += 1;
    }
    println!(
        "{} calls on random inputs; answers 0 to 8: {answers:?}",
        2 * CASES
    );
    for answer in [0, 6, 7, 8] {
        assert!(answers[answer] > 100);
    }
}

#[test]
fn long_inputs() {
    let mut random = Random(seed());
    let mut input = Input::good(&mut random);
    (input.iv, input.tag_len, input.room) = (vec![1; 12], 16, LONGEST + 17);
    for (ad, text, answer) in [
        (LONGEST, LONGEST, 0),
        (LONGEST + 1, LONGEST, 4),
        (LONGEST, LONGEST + 1, 5),
        (LONGEST + 1, LONGEST + 1, 4),
    ] {
        (input.ad, input.given) = (random.bytes(ad), random.bytes(text));
        assert_eq!(input.seals(), answer);
        input.given = random.bytes(text + 16);
        assert_eq!(input.opens(), if answer == 0 { 8 } else { answer });
    }
    println!("8 calls at 65,536 and 65,537 bytes");
}

/// Each byte of the sealed bytes, the associated data, the IV and the key flipped: the open is
/// refused, and the output stays.
#[test]
fn flipped_bytes() {
    let mut random = Random(seed());
    let mut flips = 0;
    for _ in 0..50 {
        let sealed = Input::good(&mut random).sealed();
        assert_eq!(sealed.opens(), 0);
        let parts: [fn(&mut Input) -> &mut Vec<u8>; 4] = [
            |input| &mut input.given,
            |input| &mut input.ad,
            |input| &mut input.iv,
            |input| &mut input.key,
        ];
        for part in parts {
            let mut damaged = sealed.clone();
            for at in 0..part(&mut damaged).len() {
                let bit = 1 << random.below(8);
                part(&mut damaged)[at] ^= bit;
                assert_eq!(damaged.opens(), 8);
                part(&mut damaged)[at] ^= bit;
                flips += 1;
            }
        }
    }
    println!("{flips} bytes flipped, each one refused");
}

/// Every row alone, and every two: the lower one is answered.
#[test]
fn rows_in_their_order() {
    let mut random = Random(seed());
    let mut pairs = 0;
    for (first, second) in (1..=8).flat_map(|a| (a..=8).map(move |b| (a, b))) {
        for opening in [false, true] {
            // A seal has no rows 6 and 8; row 6 leaves an open no text for row 5, and no tag for
            // row 8.
            let has = |row| opening || (row != 6 && row != 8);
            if !has(first) || !has(second) || [(5, 6), (6, 8)].contains(&(first, second)) {
                continue;
            }
            let mut input = Input::good(&mut random);
            input.given = random.bytes(40);
            input.room = 100_000;
            if opening {
                input = input.sealed();
            }
            spoil(&mut input, second, &mut random);
            if first != second {
                spoil(&mut input, first, &mut random);
            }
            let answer = if opening {
                input.opens()
            } else {
                input.seals()
            };
            assert_eq!(
                answer, first,
                "rows {first} and {second}, opening: {opening}"
            );
            pairs += 1;
        }
    }
    println!("{pairs} rows and pairs of rows");
}

/// Nothing at all, where a length is 0: the pointer is not followed.
#[test]
fn null_pointers() {
    use std::ptr::{null, null_mut};
    let mut count = usize::MAX;
    // SAFETY: every pointer that is null has the length 0.
    let answer = unsafe {
        ewplander::raw::ewplander_seal(
            null(),
            0,
            null(),
            0,
            null(),
            0,
            null(),
            0,
            16,
            null_mut(),
            0,
            &mut count,
        )
    };
    assert_eq!((answer, count), (1, 0));
    let (key, iv, mut out) = ([0; 16], [0; 12], [0; 16]);
    // SAFETY: the same.
    let answer = unsafe {
        ewplander::raw::ewplander_seal(
            key.as_ptr(),
            16,
            iv.as_ptr(),
            12,
            null(),
            0,
            null(),
            0,
            16,
            out.as_mut_ptr(),
            16,
            &mut count,
        )
    };
    assert_eq!((answer, count), (0, 16));
    // SAFETY: the same.
    let answer = unsafe {
        ewplander::raw::ewplander_open(
            key.as_ptr(),
            16,
            iv.as_ptr(),
            12,
            null(),
            0,
            out.as_ptr(),
            16,
            16,
            null_mut(),
            0,
            &mut count,
        )
    };
    assert_eq!((answer, count), (0, 0));
}
