//! The answers to sealing and opening, rules R2.0 to R2.8: each row at its limit, and the rows in
//! their order.

use reference::mode::{open, open_vec, seal, seal_vec};

/// The lengths of one call. What is opened has `text + tag` bytes, less those `missing`.
#[derive(Clone, Copy, Debug)]
struct Lengths {
    key: usize,
    iv: usize,
    tag: usize,
    ad: usize,
    text: usize,
    missing: usize,
    room: usize,
}

/// Lengths that nothing refuses.
const GOOD: Lengths = Lengths {
    key: 16,
    iv: 12,
    tag: 16,
    ad: 20,
    text: 60,
    missing: 0,
    room: 70_000,
};

impl Lengths {
    /// A key, an IV, associated data and a text of these lengths.
    fn bytes(self) -> [Vec<u8>; 4] {
        [self.key, self.iv, self.ad, self.text].map(pattern)
    }
}

/// Bytes that differ from place to place, so that one moved or left is seen.
fn pattern(len: usize) -> Vec<u8> {
    (0..len).map(|i| (i * 7 + 3) as u8).collect()
}

/// The answer of a call on an output full of the pattern. Its count and every byte of the output
/// are checked: `due` and then the pattern on success, the pattern alone on a refusal.
fn answer(room: usize, due: &[u8], call: impl FnOnce(&mut [u8]) -> (u8, usize)) -> u8 {
    let before = pattern(room);
    let mut out = before.clone();
    let (answer, count) = call(&mut out);
    let due = if answer == 0 { due } else { &[] };
    assert_eq!(count, due.len());
    assert_eq!(out[..count], *due);
    assert_eq!(out[count..], before[count..]);
    answer
}

/// The answer to sealing with these lengths.
fn seals(l: Lengths) -> u8 {
    let [key, iv, ad, text] = l.bytes();
    let due = seal_vec(&key, &iv, &ad, &text, l.tag).unwrap_or_default();
    let call = |out: &mut [u8]| seal(&key, &iv, &ad, &text, l.tag, out);
    answer(l.room, &due, call)
}

/// The answer to opening with these lengths what was truly sealed, or any bytes where nothing can
/// be; `damage` is xored into the last one.
fn opens_damaged(l: Lengths, damage: u8) -> u8 {
    let [key, iv, ad, text] = l.bytes();
    let any = pattern(l.text + l.tag);
    let mut sealed = seal_vec(&key, &iv, &ad, &text, l.tag).unwrap_or(any);
    sealed.truncate(l.text + l.tag - l.missing);
    if let Some(last) = sealed.last_mut() {
        *last ^= damage;
    }
    let call = |out: &mut [u8]| open(&key, &iv, &ad, &sealed, l.tag, out);
    answer(l.room, &text, call)
}

/// The answer to opening with these lengths, nothing damaged.
fn opens(l: Lengths) -> u8 {
    opens_damaged(l, 0)
}

/// Checks that sealing and opening with these lengths both give the answer.
fn both(expected: u8, l: Lengths) {
    assert_eq!(seals(l), expected, "sealing {l:?}");
    assert_eq!(opens(l), expected, "opening {l:?}");
}

#[test]
fn row_1_key_length() {
    for key in [0, 15, 17, 24, 31, 33] {
        both(1, Lengths { key, ..GOOD });
    }
    for key in [16, 32] {
        both(0, Lengths { key, ..GOOD });
    }
}

#[test]
fn row_2_iv_length() {
    for iv in [0, 129] {
        both(2, Lengths { iv, ..GOOD });
    }
    for iv in 1..=128 {
        both(0, Lengths { iv, ..GOOD });
    }
}

#[test]
fn row_3_tag_length() {
    for tag in [0, 4, 8, 11, 17] {
        both(3, Lengths { tag, ..GOOD });
    }
    for tag in 12..=16 {
        both(0, Lengths { tag, ..GOOD });
    }
    // No sum of lengths may overflow before the row is tried.
    let (key, iv) = ([0; 16], [0; 12]);
    assert_eq!(seal_vec(&key, &iv, &[], &[0; 16], usize::MAX), Err(3));
    assert_eq!(open_vec(&key, &iv, &[], &[0; 16], usize::MAX), Err(3));
}

#[test]
fn row_4_ad_length() {
    for (expected, ad) in [(0, 0), (0, 65_536), (4, 65_537)] {
        both(expected, Lengths { ad, ..GOOD });
    }
}

#[test]
fn row_5_text_length() {
    for (expected, text) in [(0, 0), (0, 65_536), (5, 65_537)] {
        both(expected, Lengths { text, ..GOOD });
    }
}

#[test]
fn row_6_sealed_length() {
    let empty = Lengths { text: 0, ..GOOD };
    for (expected, missing) in [(0, 0), (6, 1), (6, 16)] {
        assert_eq!(opens(Lengths { missing, ..empty }), expected);
    }
}

#[test]
fn row_7_output_length() {
    for text in [0, 1, 15, 16, 17, 60] {
        for tag in 12..=16 {
            let l = Lengths { text, tag, ..GOOD };
            for room in 0..=text + tag {
                let roomy = Lengths { room, ..l };
                assert_eq!(seals(roomy), if room < text + tag { 7 } else { 0 });
                assert_eq!(opens(roomy), if room < text { 7 } else { 0 });
            }
        }
    }
}

#[test]
fn row_8_any_bit_damaged() {
    for tag in 12..=16 {
        let [key, iv, ad, text] = Lengths { text: 37, ..GOOD }.bytes();
        let sealed = seal_vec(&key, &iv, &ad, &text, tag).unwrap();
        let whole = [key, iv, ad, sealed];
        for part in 0..whole.len() {
            for bit in 0..8 * whole[part].len() {
                let mut given = whole.clone();
                given[part][bit / 8] ^= 1 << (bit % 8);
                let [key, iv, ad, sealed] = &given;
                let call = |out: &mut [u8]| open(key, iv, ad, sealed, tag, out);
                assert_eq!(answer(50, &text, call), 8, "part {part}, bit {bit}");
            }
        }
    }
}

/// Lengths that break these rows of 1 to 7 and no other.
fn broken(rows: &[u8]) -> Lengths {
    let mut l = GOOD;
    for row in rows {
        match row {
            1 => l.key = 24,
            2 => l.iv = 129,
            3 => l.tag = 11,
            4 => l.ad = 65_537,
            5 => l.text = 65_537,
            6 => (l.text, l.missing) = (0, 1),
            7 => l.room = 5,
            _ => {}
        }
    }
    l
}

/// Every choice of some of the rows, each in rising order.
fn choices(rows: &[u8]) -> Vec<Vec<u8>> {
    let mut choices = vec![vec![]];
    for &row in rows {
        let with_row: Vec<_> = choices.iter().map(|c| [&c[..], &[row]].concat()).collect();
        choices.extend(with_row);
    }
    choices
}

#[test]
fn sealing_gives_the_lowest_row() {
    for rows in choices(&[1, 2, 3, 4, 5, 7]) {
        let lowest = rows.first().copied().unwrap_or(0);
        assert_eq!(seals(broken(&rows)), lowest, "{rows:?}");
    }
}

#[test]
fn opening_gives_the_lowest_row() {
    // Rows 5 and 6 never hold together, nor 6 and 7: too few bytes for a tag hold no text.
    let low = [1, 2, 3, 4];
    let high: [&[u8]; 8] = [&[], &[5], &[5, 7], &[5, 7, 8], &[6], &[7], &[7, 8], &[8]];
    for rows in choices(&low) {
        for more in high {
            let rows = [&rows[..], more].concat();
            let lowest = rows.first().copied().unwrap_or(0);
            let damage = u8::from(rows.contains(&8));
            let given = opens_damaged(broken(&rows), damage);
            assert_eq!(given, lowest, "{rows:?}");
        }
    }
}

/// Two cases of rule R10.14 (lengths at their limits).
#[test]
fn named_cases() {
    let (iv, text) = ([0; 12], [0; 16]);
    assert_eq!(seal_vec(&[0; 24], &iv, &[], &text, 11), Err(1));
    assert_eq!(open_vec(&[0; 24], &iv, &[], &text, 11), Err(1));
    assert_eq!(open_vec(&[0; 16], &iv, &[], &text[..15], 16), Err(6));
}
