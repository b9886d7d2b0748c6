//! NIST's published GCM vectors, every case of the four files, through the proved library and the
//! reference program alike.
//!
//! Rule R2.3 (row 3, tag length) takes no tag under 12 bytes: a case with one must be refused.

use outside::Call;
use reference::mode::{self, DONE, TAG_DIFFERS, TAG_LENGTH, TAG_LENGTHS};
use reference::nist::{cases, Case};
use std::path::Path;

/// What an output holds before the call, so that a byte written or left is seen.
const FILL: u8 = 0xa5;

/// More room than any text and tag of these files take.
const ROOM: usize = 128;

/// One call in both programs.
type Both = [(&'static str, Call); 2];

const SEAL: Both = [("ewplander", outside::seal), ("reference", mode::seal)];
const OPEN: Both = [("ewplander", outside::open), ("reference", mode::open)];

/// How the cases of a file fall out.
#[derive(Debug, Default, PartialEq)]
struct Counts {
    run: usize,
    /// Those of `run` that the file marks FAIL.
    wrong: usize,
    refused: usize,
}

/// The counts of all four files, which differ in their wrong tags alone.
const fn counts(wrong: usize) -> Counts {
    Counts {
        run: 5625,
        wrong,
        refused: 2250,
    }
}

/// All cases of a published file.
fn read(name: &str) -> Vec<Case> {
    let folder = Path::new(env!("CARGO_MANIFEST_DIR")).join("../nist");
    let file = std::fs::read_to_string(folder.join(name));
    let file = file.unwrap_or_else(|error| panic!("{name}: {error}"));
    cases(&file).unwrap_or_else(|wrong| panic!("{name}: {wrong}"))
}

/// Checks every case of a file, and their counts.
fn check(name: &str, key_len: usize, expected: Counts, check_case: fn(&str, &Case)) {
    let mut counts = Counts::default();
    for (index, case) in read(name).iter().enumerate() {
        let place = format!("{name}, case {index} from 0");
        assert_eq!(case.key.len(), key_len, "{place}");
        check_case(&place, case);
        if TAG_LENGTHS.contains(&case.tag.len()) {
            counts.run += 1;
            counts.wrong += usize::from(case.text.is_none());
        } else {
            counts.refused += 1;
        }
    }
    println!(
        "{name}: {} cases run ({} with a wrong tag), {} refused for their tag length",
        counts.run, counts.wrong, counts.refused
    );
    assert_eq!(counts, expected, "{name}");
}

/// Sealing gives ciphertext and tag; opening these gives the text back.
fn encrypt(place: &str, case: &Case) {
    let text = case.text.as_deref().expect("a text to encrypt");
    let sealed = sealed(case);
    check_call(place, case, SEAL, text, Ok(&sealed));
    check_call(place, case, OPEN, &sealed, Ok(text));
}

/// Opening gives the text, or refuses a wrong tag.
fn decrypt(place: &str, case: &Case) {
    let due = case.text.as_deref().ok_or(TAG_DIFFERS);
    check_call(place, case, OPEN, &sealed(case), due);
}

/// The ciphertext of a case, followed by its tag.
fn sealed(case: &Case) -> Vec<u8> {
    [&case.ciphertext[..], &case.tag].concat()
}

/// Checks that both programs answer what is due, unless the tag's length is refused, and that the
/// output is then the bytes due and, past these, what it was before.
fn check_call(place: &str, case: &Case, both: Both, given: &[u8], due: Result<&[u8], u8>) {
    let tag_len = case.tag.len();
    let due = if TAG_LENGTHS.contains(&tag_len) {
        due
    } else {
        Err(TAG_LENGTH)
    };
    let (answer, bytes) = match due {
        Ok(bytes) => (DONE, bytes),
        Err(refusal) => (refusal, &[][..]),
    };
    let mut left = [FILL; ROOM];
    left[..bytes.len()].copy_from_slice(bytes);
    for (program, call) in both {
        let mut out = [FILL; ROOM];
        let result = call(&case.key, &case.iv, &case.ad, given, tag_len, &mut out);
        assert_eq!(result, (answer, bytes.len()), "{program}: {place}");
        assert_eq!(out, left, "{program}: {place}");
    }
}

#[test]
fn encrypt_128() {
    check("gcmEncryptExtIV128.rsp", 16, counts(0), encrypt);
}

#[test]
fn encrypt_256() {
    check("gcmEncryptExtIV256.rsp", 32, counts(0), encrypt);
}

#[test]
fn decrypt_128() {
    check("gcmDecrypt128.rsp", 16, counts(2887), decrypt);
}

#[test]
fn decrypt_256() {
    check("gcmDecrypt256.rsp", 32, counts(2780), decrypt);
}
