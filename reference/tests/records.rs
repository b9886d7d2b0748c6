//! The vector program's answers at the edges of rules R13.1 to R13.9.

use reference::records::{answers, LONGEST_FIELD};

/// The key and the IV of rule R13.9 (whole case), as lines.
const KEY: &str = "00000000000000000000000000000000\n";
const IV: &str = "000000000000000000000000\n";

/// The answer that rule R13.9 (whole case) gives.
const WHOLE: &str = "0 58e2fccefa7e3061367f1d57a4e7455a\n";

/// What is written for these lines.
fn said(lines: &[&str]) -> String {
    answers(lines.concat().as_bytes())
}

/// A line of so many digits.
fn zeros(digits: usize) -> String {
    "0".repeat(digits) + "\n"
}

/// What is written for the whole case with this line in place of field `index`.
fn with_line(index: usize, line: &str) -> String {
    let mut lines = [KEY, IV, "\n", "\n"];
    lines[index] = line;
    said(&lines)
}

#[test]
fn whole_case() {
    assert_eq!(said(&[KEY, IV, "\n", "\n"]), WHOLE);
}

#[test]
fn empty_input() {
    assert_eq!(answers(b""), "");
}

#[test]
fn one_byte() {
    for b in 0..=255 {
        assert_eq!(answers(&[b]), "cut\n", "{b}");
    }
}

#[test]
fn cut_after_each_line() {
    let record = [KEY, IV, "\n", "00"];
    for lines in 1..=4 {
        assert_eq!(said(&record[..lines]), "cut\n", "{lines} lines");
        let behind = [KEY, IV, "\n", "\n"].concat() + &record[..lines].concat();
        assert_eq!(answers(behind.as_bytes()), WHOLE.to_string() + "cut\n");
    }
}

#[test]
fn cut_in_a_bad_record() {
    assert_eq!(said(&["0\n", "0\n", "0\n", "0"]), "cut\n");
}

#[test]
fn four_empty_lines() {
    assert_eq!(said(&["\n", "\n", "\n", "\n"]), "1\n");
}

#[test]
fn refusals() {
    assert_eq!(with_line(0, &zeros(48)), "1\n");
    assert_eq!(with_line(1, "\n"), "2\n");
    assert_eq!(with_line(1, &zeros(258)), "2\n");
    assert_eq!(said(&["00\n", "\n", "\n", "\n"]), "1\n");
}

#[test]
fn bad_before_any_refusal() {
    assert_eq!(said(&["\n", "\n", "\n", "0\n"]), "bad\n");
    assert_eq!(said(&["00\n", IV, "xx\n", "\n"]), "bad\n");
}

#[test]
fn strange_bytes() {
    // Neighbours of the digits, a blank, a carriage return, a zero byte and one that no text has.
    for b in *b"/:@G`g \r\x00\xff" {
        let mut input = [KEY, IV, "\n", "0000\n"].concat().into_bytes();
        let last_digit = input.len() - 2;
        input[last_digit] = b;
        assert_eq!(answers(&input), "bad\n", "{b}");
    }
}

#[test]
fn carriage_returns() {
    let input = [KEY, IV, "\n", "\n"].concat().replace('\n', "\r\n");
    assert_eq!(answers(input.as_bytes()), "bad\n");
}

#[test]
fn odd_counts() {
    for index in 0..4 {
        assert_eq!(with_line(index, &zeros(33)), "bad\n");
    }
}

#[test]
fn either_letter_case() {
    let answer = with_line(3, "abcdef\n");
    assert!(answer.starts_with("0 "));
    assert_eq!(with_line(3, "ABCDEF\n"), answer);
    assert_eq!(with_line(3, "aBCdEf\n"), answer);
    assert_eq!(answer, answer.to_lowercase());
}

#[test]
fn longest_fields() {
    let longest = zeros(2 * LONGEST_FIELD);
    assert_eq!(with_line(0, &longest), "1\n");
    assert_eq!(with_line(1, &longest), "2\n");
    assert!(with_line(2, &longest).starts_with("0 "));
    let sealed = with_line(3, &longest);
    assert_eq!(sealed.len(), "0 \n".len() + 2 * (LONGEST_FIELD + 16));
}

#[test]
fn longer_fields() {
    for digits in [2 * LONGEST_FIELD + 1, 2 * LONGEST_FIELD + 2, 20_000] {
        for index in 0..4 {
            assert_eq!(with_line(index, &zeros(digits)), "bad\n");
        }
    }
}

#[test]
fn a_bad_record_leaves_the_next_alone() {
    let good = [KEY, IV, "\n", "\n"].concat();
    let input = [KEY, "0\n", "\n", "\n", &good].concat();
    assert_eq!(answers(input.as_bytes()), "bad\n".to_string() + WHOLE);
}
