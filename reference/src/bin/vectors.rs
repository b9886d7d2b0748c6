//! Answers the records of standard input, as the vector program of rules R13.1 to R13.9 does.

use std::io::{Read, Write};

fn main() -> std::io::Result<()> {
    let mut input = Vec::new();
    std::io::stdin().read_to_end(&mut input)?;
    let output = reference::records::answers(&input);
    std::io::stdout().write_all(output.as_bytes())
}
