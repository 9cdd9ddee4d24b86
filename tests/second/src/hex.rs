//! Commented hex text to bytes, and bytes to hex text.

use std::fmt::Write;

/// Where and why a text is not commented hex; lines and columns count from 1.
#[derive(Clone, PartialEq, Eq, Debug)]
pub struct BadHex {
    pub line: usize,
    pub column: usize,
    pub why: String,
}

/// Reads hex text: `#` starts a comment up to the line's end, white space is free.
pub fn from_text(text: &str) -> Result<Vec<u8>, BadHex> {
    let mut bytes = Vec::new();
    let mut open: Option<(usize, usize, u8)> = None;
    for (line, content) in (1..).zip(text.lines()) {
        let code = content.split('#').next().unwrap_or_default();
        for (column, sign) in (1..).zip(code.chars()).filter(|(_, sign)| !sign.is_whitespace()) {
            let no_digit = || bad(line, column, format!("{sign:?} is no hex digit"));
            let digit = sign.to_digit(16).ok_or_else(no_digit)? as u8;
            match open.take() {
                None => open = Some((line, column, digit)),
                Some((_, _, high)) => bytes.push(high << 4 | digit),
            }
        }
    }
    match open {
        None => Ok(bytes),
        Some((line, column, _)) => Err(bad(line, column, "the last byte has one digit only".to_string())),
    }
}

/// Shows bytes as hex text.
pub fn to_text(bytes: &[u8]) -> String {
    let mut text = String::with_capacity(2 * bytes.len());
    for byte in bytes {
        write!(text, "{byte:02x}").expect("a string takes all text");
    }
    text
}

/// What is wrong, and where.
fn bad(line: usize, column: usize, why: String) -> BadHex {
    BadHex { line, column, why }
}

#[cfg(test)]
mod tests {
    use super::*;

    #[test]
    fn reads_comments_and_white_space() {
        assert_eq!(from_text("01 03 # start\n\n0\n0 Aff F"), Ok(vec![0x01, 0x03, 0x00, 0xaf, 0xff]));
    }

    #[test]
    fn says_the_place_of_bad_text() {
        let place = |text| from_text(text).map_err(|bad| (bad.line, bad.column)).unwrap_err();
        assert_eq!(place("01\n0x"), (2, 2));
        assert_eq!(place("01\n 0\n"), (2, 2));
    }
}
