//! The vector program of rules R13.1 to R13.9: records of four lines in hex, and the line that
//! answers each.

use crate::mode::seal_vec;

/// The most bytes that a line may stand for.
pub const LONGEST_FIELD: usize = 4_096;

const LINE_FEED: u8 = b'\n';
const LINES: usize = 4;
const TAG_LEN: usize = 16;

/// A record as it was read.
pub enum Record {
    /// Key, IV, associated data and text.
    Good([Vec<u8>; LINES]),
    /// A line of it is no field's.
    Bad,
    /// It lacks its four line feeds, so it is the last.
    Cut,
}

/// What the program writes for a whole input.
pub fn answers(input: &[u8]) -> String {
    read(input)
        .iter()
        .map(|record| answer(record) + "\n")
        .collect()
}

/// The records of a whole input.
pub fn read(input: &[u8]) -> Vec<Record> {
    let lines: Vec<&[u8]> = input.split_inclusive(|&b| b == LINE_FEED).collect();
    lines.chunks(LINES).map(record).collect()
}

/// The record of up to four lines, each with the line feed that ends it, if one does.
fn record(lines: &[&[u8]]) -> Record {
    let ended: Vec<&[u8]> = lines
        .iter()
        .filter_map(|line| line.strip_suffix(&[LINE_FEED]))
        .collect();
    let [key, iv, ad, text] = ended[..] else {
        return Record::Cut;
    };
    match (field(key), field(iv), field(ad), field(text)) {
        (Some(key), Some(iv), Some(ad), Some(text)) => Record::Good([key, iv, ad, text]),
        _ => Record::Bad,
    }
}

/// The bytes that a line stands for, if it is good.
fn field(line: &[u8]) -> Option<Vec<u8>> {
    let digits: Vec<u8> = line.iter().map(|&b| digit(b)).collect::<Option<_>>()?;
    let good = digits.len() % 2 == 0 && digits.len() / 2 <= LONGEST_FIELD;
    good.then(|| digits.chunks(2).map(|two| 16 * two[0] + two[1]).collect())
}

/// The value of a hex digit in either letter case.
fn digit(b: u8) -> Option<u8> {
    char::from(b).to_digit(16).map(|value| value as u8)
}

/// The line that answers a record, without its line feed.
fn answer(record: &Record) -> String {
    match record {
        Record::Good([key, iv, ad, text]) => match seal_vec(key, iv, ad, text, TAG_LEN) {
            Ok(sealed) => format!("0 {}", hex(&sealed)),
            Err(refusal) => refusal.to_string(),
        },
        Record::Bad => "bad".to_string(),
        Record::Cut => "cut".to_string(),
    }
}

/// Bytes in hex, in lower case.
pub fn hex(bytes: &[u8]) -> String {
    bytes.iter().map(|b| format!("{b:02x}")).collect()
}
