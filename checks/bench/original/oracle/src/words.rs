//! The words of a line.

/// The words, between single blanks.
pub fn of(line: &[u8]) -> Vec<&[u8]> {
    line.split(|byte| *byte == b' ').collect()
}

/// A number of 64 bits, without a sign or a 0 in front.
pub fn number(word: &[u8]) -> Option<u64> {
    let leads_with_0 = word.len() > 1 && word[0] == b'0';
    if word.is_empty() || leads_with_0 || !word.iter().all(u8::is_ascii_digit) {
        return None;
    }
    std::str::from_utf8(word).ok()?.parse().ok()
}

/// A receiver's name: a small letter, and up to 15 small letters or digits after it.
pub fn name(word: &[u8]) -> Option<&[u8]> {
    let (first, rest) = word.split_first()?;
    let fits = rest.len() < 16
        && first.is_ascii_lowercase()
        && rest
            .iter()
            .all(|byte| byte.is_ascii_lowercase() || byte.is_ascii_digit());
    fits.then_some(word)
}

/// Whether a setting is to be on.
pub fn switch(word: &[u8]) -> Option<bool> {
    match word {
        b"on" => Some(true),
        b"off" => Some(false),
        _ => None,
    }
}

/// The capacity of a first line.
pub fn capacity(line: &[u8]) -> Option<usize> {
    match of(line).as_slice() {
        [b"cap", count] => usize::try_from(number(count)?)
            .ok()
            .filter(|count| *count > 0),
        _ => None,
    }
}
