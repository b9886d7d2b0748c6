//! Reads NIST's published GCM test vectors (.rsp files).
//!
//! A case is a paragraph of seven lines that begins with `Count`. Comments and the bracketed
//! lengths above a group are passed over: every case shows its lengths by its bytes.

/// One case of a file.
pub struct Case {
    pub key: Vec<u8>,
    pub iv: Vec<u8>,
    pub ad: Vec<u8>,
    /// The text; `None` where the file says FAIL, since the tag is wrong and no text exists.
    pub text: Option<Vec<u8>>,
    pub ciphertext: Vec<u8>,
    pub tag: Vec<u8>,
}

/// All cases of a file in its order, or what is wrong with it.
pub fn cases(file: &str) -> Result<Vec<Case>, String> {
    let lines: Vec<&str> = file.lines().map(str::trim).collect();
    let mut cases = Vec::new();
    for paragraph in lines.split(|line| line.is_empty()) {
        if paragraph.iter().all(|line| line.starts_with(['#', '['])) {
            continue;
        }
        cases.push(case(paragraph).map_err(|wrong| format!("{wrong} in {paragraph:?}"))?);
    }
    Ok(cases)
}

/// The case that a paragraph tells.
fn case(paragraph: &[&str]) -> Result<Case, String> {
    // Six lines are looked up by name below: one more would go unread.
    if paragraph.len() != 7 || !paragraph[0].starts_with("Count = ") {
        return Err("not a count and six lines".to_string());
    }
    let text = if paragraph.contains(&"FAIL") {
        None
    } else {
        Some(field(paragraph, "PT")?)
    };
    Ok(Case {
        key: field(paragraph, "Key")?,
        iv: field(paragraph, "IV")?,
        ad: field(paragraph, "AAD")?,
        text,
        ciphertext: field(paragraph, "CT")?,
        tag: field(paragraph, "Tag")?,
    })
}

/// The bytes of the field called `name`.
fn field(paragraph: &[&str], name: &str) -> Result<Vec<u8>, String> {
    for line in paragraph {
        match line.split_once('=') {
            Some((left, right)) if left.trim() == name => return bytes(right.trim()),
            _ => {}
        }
    }
    Err(format!("no {name}"))
}

/// The bytes that hex digits of either case spell.
pub fn bytes(hex: &str) -> Result<Vec<u8>, String> {
    let digits: Option<Vec<u32>> = hex.chars().map(|c| c.to_digit(16)).collect();
    match digits {
        Some(digits) if digits.len() % 2 == 0 => Ok(digits
            .chunks_exact(2)
            .map(|pair| (16 * pair[0] + pair[1]) as u8)
            .collect()),
        _ => Err(format!("not bytes in hex: {hex}")),
    }
}
