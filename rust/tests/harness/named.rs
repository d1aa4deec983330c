//! Names in a text by their places.

/// The name that begins at this byte.
pub fn name_at(text: &[u8], place: u32) -> &str {
    let rest = &text[place as usize..];
    let len = rest.iter().take_while(|&&byte| byte.is_ascii_alphanumeric() || byte == b'_').count();
    std::str::from_utf8(&rest[..len]).expect("letters")
}
