//! Lent bytes as a line shows them after a call.

/// In hexadecimal digits, or `-` for no bytes.
pub fn digits(bytes: &[u8]) -> String {
    if bytes.is_empty() {
        return "-".into();
    }
    bytes.iter().map(|byte| format!("{byte:02x}")).collect()
}

/// The bytes that such digits show.
pub fn bytes(digits: &str) -> Option<Vec<u8>> {
    if digits == "-" {
        return Some(vec![]);
    }
    let pairs = digits.as_bytes().chunks(2);
    pairs.map(|pair| u8::from_str_radix(std::str::from_utf8(pair).ok()?, 16).ok()).collect()
}
