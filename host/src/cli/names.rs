//! How names and numbers are shown in messages.

use std::ffi::OsStr;

/// A name as it is or, where it has bytes that are no text or that a terminal would obey, with those bytes written out.
pub fn shown(name: impl AsRef<OsStr>) -> String {
    let name = name.as_ref();
    match name.to_str() {
        Some(text) if !text.is_empty() && !text.chars().any(char::is_control) => text.to_string(),
        _ => format!("{name:?}"),
    }
}

/// A word that looks like the name of a command or option. Another one may hold a key, and is not repeated in a message.
pub fn harmless(word: &[u8]) -> Option<&str> {
    let fits = word.len() <= 20 && word.iter().all(|&byte| byte.is_ascii_lowercase() || byte == b'-');
    std::str::from_utf8(word).ok().filter(|_| fits)
}

/// A number with its thousands marked.
pub fn grouped(number: usize) -> String {
    match number {
        0..1_000 => number.to_string(),
        _ => format!("{},{:03}", grouped(number / 1_000), number % 1_000),
    }
}

/// A number of things, with their name in the right form.
pub fn counted(number: usize, thing: &str) -> String {
    format!("{} {thing}{}", grouped(number), if number == 1 { "" } else { "s" })
}
