//! Places of a text as people find them.

/// The line of a byte, from 1.
pub fn line_of(text: &[u8], at: usize) -> usize {
    1 + text.iter().take(at).filter(|&&byte| byte == b'\n').count()
}

/// The first byte of the line of a byte.
pub fn line_begin(text: &[u8], at: usize) -> usize {
    text.iter().take(at).rposition(|&byte| byte == b'\n').map_or(0, |feed| feed + 1)
}

/// What there is to say of a byte, after where it stands.
pub fn at_place(text: &[u8], at: usize, says: &str) -> String {
    format!("line {}, column {} (byte {at}): {says}", line_of(text, at), at - line_begin(text, at) + 1)
}
