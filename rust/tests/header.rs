//! The crate and `include/ewplander.h` have one version, and the same number and words for each
//! refusal.

use ewplander::Error;

const HEADER: &str = include_str!("../../include/ewplander.h");

/// Whether a line of the header begins so, but for spaces.
fn has(start: &str) -> bool {
    HEADER.lines().any(|line| line.trim().starts_with(start))
}

#[test]
fn version() {
    let version = env!("CARGO_PKG_VERSION");
    assert!(has(&format!("#define EWPLANDER_VERSION \"{version}\"")));
}

#[test]
fn answers() {
    let named = [
        (Error::KeyLength, "KEY_LENGTH"),
        (Error::IvLength, "IV_LENGTH"),
        (Error::TagLength, "TAG_LENGTH"),
        (Error::AdLong, "AD_LONG"),
        (Error::TextLong, "TEXT_LONG"),
        (Error::SealedShort, "SEALED_SHORT"),
        (Error::OutputShort, "OUTPUT_SHORT"),
        (Error::TagDiffers, "TAG_DIFFERS"),
        (Error::WrongPhase, "WRONG_PHASE"),
        (Error::Stale, "STALE"),
        (Error::Used, "USED"),
    ];
    for ((error, name), number) in named.into_iter().zip(1..) {
        assert_eq!(error.number(), number);
        assert!(has(&format!("EWPLANDER_{name} = {number}")), "{name}");
        let text = format!("case EWPLANDER_{name}: return \"{error}\";");
        assert!(has(&text), "{text}");
    }
}
