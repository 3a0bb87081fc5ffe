//! Bytes as hexadecimal digits, two to a byte.

use std::fmt;

/// The text is not made of pairs of hexadecimal digits.
///
/// ```
/// use balzenoh::hex::{decode, NotHex};
///
/// assert_eq!(decode("0G"), Err(NotHex));
/// ```
#[derive(Clone, Copy, Debug, PartialEq, Eq)]
pub struct NotHex;

impl fmt::Display for NotHex {
    fn fmt(&self, f: &mut fmt::Formatter<'_>) -> fmt::Result {
        f.write_str("not pairs of hexadecimal digits")
    }
}

impl std::error::Error for NotHex {}

/// Reads pairs of digits, upper or lower case, with nothing between them.
///
/// # Errors
///
/// [`NotHex`] for an odd number of characters, or one that is no digit.
///
/// ```
/// assert_eq!(balzenoh::hex::decode("00Ff"), Ok(vec![0, 255]));
/// ```
pub fn decode(text: &str) -> Result<Vec<u8>, NotHex> {
    let digits = text.as_bytes();
    if !digits.len().is_multiple_of(2) {
        return Err(NotHex);
    }
    digits.chunks_exact(2).map(pair).collect()
}

/// Reads the digits of so many bytes straight into their place, so that no copy is left elsewhere.
pub(crate) fn decode_into(text: &str, bytes: &mut [u8]) -> Result<(), NotHex> {
    let digits = text.as_bytes();
    if digits.len() != 2 * bytes.len() {
        return Err(NotHex);
    }
    for (byte, digits) in bytes.iter_mut().zip(digits.chunks_exact(2)) {
        *byte = pair(digits)?;
    }
    Ok(())
}

/// Writes bytes as upper-case digits.
///
/// ```
/// assert_eq!(balzenoh::hex::encode(&[0, 255]), "00FF");
/// ```
pub fn encode(bytes: &[u8]) -> String {
    bytes.iter().map(|byte| format!("{byte:02X}")).collect()
}

fn pair(digits: &[u8]) -> Result<u8, NotHex> {
    match digits {
        [high, low] => Ok(digit(*high)? << 4 | digit(*low)?),
        _ => Err(NotHex),
    }
}

fn digit(character: u8) -> Result<u8, NotHex> {
    match character {
        b'0'..=b'9' => Ok(character - b'0'),
        b'a'..=b'f' => Ok(character - b'a' + 10),
        b'A'..=b'F' => Ok(character - b'A' + 10),
        _ => Err(NotHex),
    }
}

#[cfg(test)]
mod tests {
    use super::{decode, encode, NotHex};

    #[test]
    fn all_bytes_come_back() {
        let bytes: Vec<u8> = (0..=255).collect();
        assert_eq!(decode(&encode(&bytes)), Ok(bytes.clone()));
        assert_eq!(decode(&encode(&bytes).to_lowercase()), Ok(bytes));
    }

    #[test]
    fn other_text_is_refused() {
        for text in ["0", "0G", " 00", "00 ", "+1", "é"] {
            assert_eq!(decode(text), Err(NotHex), "{text:?}");
        }
    }
}
