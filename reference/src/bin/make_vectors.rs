//! Writes the input that the vector program is tried on, from NIST's published files in the folder
//! named as the only argument.
//!
//! The rule of the choice:
//!
//! 1. the whole case of rule R13.9;
//! 2. of NIST's two sealing files, every case with a 16-byte tag: they need no trimming;
//! 3. made from the fixed seed, and in an order that the seed draws, so that long records follow
//!    short ones and good records follow bad ones:
//!    - every key length from 0 to 40 and every IV length from 0 to 130, and 4,095 and 4,096;
//!    - under both key sizes, every pair of an AD and a text whose lengths are 0, 1, 15, 16, 17,
//!      4,095 or 4,096;
//!    - a length out of every sixteen below 4,096 for AD and for text, and a length out of every
//!      256 for key and for IV;
//!    - in each of the four lines, counts of digits that are odd or too many; and in one of them,
//!      every byte that no line may have, some beside a key that would be refused;
//! 4. a record without its last line feed.
//!
//! The rest of a made record is drawn: bytes, key sizes (16 or 32), IV lengths, and for each line
//! its letter case (small, capital or mixed).

use reference::nist::{cases, Case};
use reference::records::{hex, LONGEST_FIELD};
use std::io::Write;
use std::ops::Range;
use std::path::Path;

const SEED: u64 = 0x0a0b_0c0d_0000_0102;

/// The four lines of a record, without their line feeds.
type Record = [Vec<u8>; 4];

/// The lengths in bytes of a record's fields: key, IV, AD, text.
type Lengths = [usize; 4];

const KEY: usize = 0;
const IV: usize = 1;

/// The lengths of a key that are taken.
const KEYS: [usize; 2] = [16, 32];

/// Lengths around a block's and around the longest field's.
const BORDERS: [usize; 7] = [0, 1, 15, 16, 17, LONGEST_FIELD - 1, LONGEST_FIELD];

fn main() -> Result<(), String> {
    let folder = std::env::args()
        .nth(1)
        .ok_or("the folder of NIST's files")?;
    let mut records = vec![whole_case()];
    for name in ["gcmEncryptExtIV128.rsp", "gcmEncryptExtIV256.rsp"] {
        records.extend(published(&Path::new(&folder).join(name))?);
    }
    let mut draw = Draw(SEED);
    records.extend(made(&mut draw));
    let mut input: Vec<u8> = records.iter().flat_map(lines).collect();
    input.extend(cut(&mut draw));
    std::io::stdout()
        .write_all(&input)
        .map_err(|error| error.to_string())
}

/// A record as it stands in the input.
fn lines(record: &Record) -> Vec<u8> {
    record
        .iter()
        .flat_map(|line| [line, &b"\n"[..]].concat())
        .collect()
}

fn whole_case() -> Record {
    [vec![b'0'; 32], vec![b'0'; 24], vec![], vec![]]
}

/// The cases of a published file whose tag has 16 bytes.
fn published(path: &Path) -> Result<Vec<Record>, String> {
    let file = std::fs::read_to_string(path).map_err(|error| format!("{path:?}: {error}"))?;
    let cases = cases(&file)?;
    Ok(cases
        .iter()
        .filter(|case| case.tag.len() == 16)
        .map(record)
        .collect())
}

fn record(case: &Case) -> Record {
    let text = case.text.as_deref().unwrap_or_default();
    [&case.key, &case.iv, &case.ad, text].map(|bytes| hex(bytes).into_bytes())
}

/// All records that are made, in a drawn order.
fn made(draw: &mut Draw) -> Vec<Record> {
    let mut records = Vec::new();
    records.extend(keys_and_ivs(draw));
    records.extend(borders(draw));
    records.extend(spread(draw));
    records.extend(wrong_counts(draw));
    records.extend(strange_bytes(draw));
    draw.shuffle(&mut records);
    records
}

/// Records with a key or an IV of a length that is taken, of one near it, or of the longest.
fn keys_and_ivs(draw: &mut Draw) -> Vec<Record> {
    let mut records = Vec::new();
    for (field, most) in [(KEY, 40), (IV, 130)] {
        for length in (0..=most).chain(LONGEST_FIELD - 1..=LONGEST_FIELD) {
            records.push(draw.with_length(field, length));
        }
    }
    records
}

fn borders(draw: &mut Draw) -> Vec<Record> {
    let mut records = Vec::new();
    for key in KEYS {
        for ad in BORDERS {
            for text in BORDERS {
                records.push(draw.record([key, 12, ad, text]));
            }
        }
    }
    records
}

/// Records whose lengths go through all that a field can have, one out of every so many.
fn spread(draw: &mut Draw) -> Vec<Record> {
    let mut records = Vec::new();
    let mut texts = draw.lengths(16);
    draw.shuffle(&mut texts);
    for (ad, text) in draw.lengths(16).into_iter().zip(texts) {
        let [key, iv, ..] = draw.good_lengths();
        records.push(draw.record([key, iv, ad, text]));
    }
    for field in [KEY, IV] {
        for length in draw.lengths(256) {
            records.push(draw.with_length(field, length));
        }
    }
    records
}

/// Records with one line whose count of digits is odd, more than the longest field's, or both.
fn wrong_counts(draw: &mut Draw) -> Vec<Record> {
    let longest = 2 * LONGEST_FIELD;
    let mut records = Vec::new();
    for digits in [
        1,
        31,
        33,
        longest - 1,
        longest + 1,
        longest + 2,
        2 * longest,
    ] {
        for field in 0..4 {
            let mut record = draw.good_record();
            record[field] = draw.line(digits);
            records.push(record);
        }
    }
    records
}

/// Records with a strange byte for each there is, somewhere in one of the lines.
fn strange_bytes(draw: &mut Draw) -> Vec<Record> {
    let strange = (0..=255u8).filter(|b| !b.is_ascii_hexdigit() && *b != b'\n');
    strange.map(|b| draw.with_strange_byte(b)).collect()
}

/// A good record, but for its last line feed.
fn cut(draw: &mut Draw) -> Vec<u8> {
    let mut input = lines(&draw.good_record());
    input.pop();
    input
}

/// Numbers drawn one after the other from a seed, and what is made of them.
struct Draw(u64);

impl Draw {
    /// The next number: a weighted sequence, its bits stirred (splitmix64).
    fn next(&mut self) -> u64 {
        self.0 = self.0.wrapping_add(0x9e37_79b9_7f4a_7c15);
        let mut z = self.0;
        z = (z ^ (z >> 30)).wrapping_mul(0xbf58_476d_1ce4_e5b9);
        z = (z ^ (z >> 27)).wrapping_mul(0x94d0_49bb_1331_11eb);
        z ^ (z >> 31)
    }

    fn within(&mut self, range: Range<usize>) -> usize {
        range.start + (self.next() % range.len() as u64) as usize
    }

    fn pick<T: Copy>(&mut self, choices: &[T]) -> T {
        choices[self.within(0..choices.len())]
    }

    fn shuffle<T>(&mut self, items: &mut [T]) {
        for last in (1..items.len()).rev() {
            items.swap(last, self.within(0..last + 1));
        }
    }

    /// A length out of every `step` that a field can have, the shortest first.
    fn lengths(&mut self, step: usize) -> Vec<usize> {
        let starts = (0..LONGEST_FIELD).step_by(step);
        starts
            .map(|start| self.within(start..start + step))
            .collect()
    }

    /// A line of so many digits.
    fn line(&mut self, digits: usize) -> Vec<u8> {
        let alphabet: &[u8] = self.pick(&[
            &b"0123456789abcdef"[..],
            &b"0123456789ABCDEF"[..],
            &b"0123456789abcdefABCDEF"[..],
        ]);
        (0..digits).map(|_| self.pick(alphabet)).collect()
    }

    fn record(&mut self, lengths: Lengths) -> Record {
        lengths.map(|length| self.line(2 * length))
    }

    /// Short lengths that nothing refuses.
    fn good_lengths(&mut self) -> Lengths {
        let key = self.pick(&KEYS);
        let iv = self.pick(&[12, 12, 1, 16, 128]);
        [key, iv, self.within(0..49), self.within(0..49)]
    }

    fn good_record(&mut self) -> Record {
        let lengths = self.good_lengths();
        self.record(lengths)
    }

    /// A short record in which one field has a length of its own.
    fn with_length(&mut self, field: usize, length: usize) -> Record {
        let mut lengths = self.good_lengths();
        lengths[field] = length;
        self.record(lengths)
    }

    /// A short record in which one digit gave way to the byte.
    fn with_strange_byte(&mut self, b: u8) -> Record {
        let field = self.within(0..4);
        // A key of 24 would be refused, but what is bad is told first.
        let mut lengths = self.good_lengths();
        lengths[KEY] = self.pick(&[16, 24, 32]);
        lengths[field] = lengths[field].max(1);
        let mut record = self.record(lengths);
        let at = self.within(0..record[field].len());
        record[field][at] = b;
        record
    }
}
