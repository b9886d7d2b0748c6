//! NIST's published GCM vectors, every case of the four files.
//!
//! Rule R2.3 (row 3, tag length) refuses tags under 12 bytes: cases with such a tag are left out of
//! the comparison, and must be refused.

use reference::mode::{open, seal, DONE, TAG_DIFFERS, TAG_LENGTH, TAG_LENGTHS};
use reference::nist::{cases, Case};
use std::path::Path;

/// What an output holds before the call, so that a byte written or left is seen.
const FILL: u8 = 0xa5;

/// More room than any text and tag of these files take.
const ROOM: usize = 128;

/// How the cases of a file fall out.
#[derive(Debug, Default, PartialEq)]
struct Counts {
    total: usize,
    run: usize,
    /// Those of `run` that the file marks FAIL.
    wrong: usize,
    left_out: usize,
}

/// The counts of all four files, which differ in their wrong tags alone.
const fn counts(wrong: usize) -> Counts {
    Counts {
        total: 7875,
        run: 5625,
        wrong,
        left_out: 2250,
    }
}

/// The answer and the bytes that a case asks for.
type Due = (u8, Vec<u8>);

/// Runs a case on an output; gives the call's result and what is due.
type Call = fn(&Case, &mut [u8]) -> ((u8, usize), Due);

/// All cases of a published file.
fn read(name: &str) -> Vec<Case> {
    let folder = Path::new(env!("CARGO_MANIFEST_DIR")).join("../tests/nist");
    let file = std::fs::read_to_string(folder.join(name));
    let file = file.unwrap_or_else(|error| panic!("{name}: {error}"));
    cases(&file).unwrap_or_else(|wrong| panic!("{name}: {wrong}"))
}

/// Checks every case of a file, and their counts.
fn check(name: &str, key_len: usize, expected: Counts, call: Call) {
    let mut counts = Counts::default();
    for (index, case) in read(name).iter().enumerate() {
        let mut out = [FILL; ROOM];
        let (result, mut due) = call(case, &mut out);
        counts.total += 1;
        if TAG_LENGTHS.contains(&case.tag.len()) {
            counts.run += 1;
            counts.wrong += usize::from(case.text.is_none());
        } else {
            counts.left_out += 1;
            due = (TAG_LENGTH, vec![]);
        }
        let (answer, bytes) = due;
        let (front, rest) = out.split_at(bytes.len());
        let place = format!("{name}, case {index} from 0");
        assert_eq!(case.key.len(), key_len, "{place}");
        assert_eq!(result, (answer, bytes.len()), "{place}");
        assert_eq!(front, bytes, "{place}");
        assert!(rest.iter().all(|&b| b == FILL), "{place}");
    }
    println!(
        "{name}: {} cases, {} run ({} with a wrong tag), {} left out for their tag length",
        counts.total, counts.run, counts.wrong, counts.left_out
    );
    assert_eq!(counts, expected, "{name}");
}

/// Seals the text of a case; ciphertext and tag are due.
fn encrypt(case: &Case, out: &mut [u8]) -> ((u8, usize), Due) {
    let text = case.text.as_ref().expect("a text to encrypt");
    let result = seal(&case.key, &case.iv, &case.ad, text, case.tag.len(), out);
    (result, (DONE, sealed(case)))
}

/// Opens ciphertext and tag of a case; the text is due, or the refusal of a wrong tag.
fn decrypt(case: &Case, out: &mut [u8]) -> ((u8, usize), Due) {
    let given = sealed(case);
    let result = open(&case.key, &case.iv, &case.ad, &given, case.tag.len(), out);
    let due = match &case.text {
        Some(text) => (DONE, text.clone()),
        None => (TAG_DIFFERS, vec![]),
    };
    (result, due)
}

/// The ciphertext of a case, followed by its tag.
fn sealed(case: &Case) -> Vec<u8> {
    [&case.ciphertext[..], &case.tag].concat()
}

#[test]
fn encrypt_128() {
    check("gcmEncryptExtIV128.rsp", 16, counts(0), encrypt);
}

#[test]
fn encrypt_256() {
    check("gcmEncryptExtIV256.rsp", 32, counts(0), encrypt);
}

#[test]
fn decrypt_128() {
    check("gcmDecrypt128.rsp", 16, counts(2887), decrypt);
}

#[test]
fn decrypt_256() {
    check("gcmDecrypt256.rsp", 32, counts(2780), decrypt);
}
