//! The key: 16 bytes, or 32.

use std::fmt;
use std::str::FromStr;

use crate::hex;
use crate::refusal::Refusal;
use crate::sizes::KEYS;
use crate::wipe::wipe;

/// The bytes of the longest key.
const LONGEST: usize = KEYS[1];

/// A key of AES-128 (16 bytes) or of AES-256 (32 bytes). Its bytes are not printed, and are wiped at its end.
///
/// A key that is moved may leave its bytes where it was: keep it in one place, and lend it. What it was made from is the
/// caller's, and nothing wipes that.
///
/// Sixteen zero bytes are no key, though they are taken as one: with one IV they are refused ([`Refusal::ZeroMask`]), with all
/// others they are not. So it is with 32 bytes of which the first 16 are zeros.
///
/// ```
/// use balzenoh::{Key, Refusal};
///
/// let key: Key = "000102030405060708090A0B0C0D0E0F".parse()?;
/// assert_eq!(format!("{key:?}"), "Key(..)");
/// # Ok::<(), Refusal>(())
/// ```
#[derive(Clone)]
pub struct Key {
    bytes: [u8; LONGEST],
    length: usize,
}

impl Key {
    /// Takes 16 bytes, or 32.
    ///
    /// # Errors
    ///
    /// [`Refusal::KeyLength`] for any other number of bytes, as the library would.
    ///
    /// ```
    /// use balzenoh::{Key, Refusal};
    ///
    /// assert!(Key::from_slice(&[7; 16]).is_ok() && Key::from_slice(&[7; 32]).is_ok());
    /// assert_eq!(Key::from_slice(&[7; 24]).unwrap_err(), Refusal::KeyLength);
    /// ```
    pub fn from_slice(bytes: &[u8]) -> Result<Self, Refusal> {
        let mut key = Self::zeros(bytes.len())?;
        key.bytes_mut().copy_from_slice(bytes);
        Ok(key)
    }

    /// The bytes: 16, or 32.
    ///
    /// ```
    /// use balzenoh::Key;
    ///
    /// assert_eq!(Key::from([7; 16]).as_bytes(), [7; 16]);
    /// assert_eq!(Key::from([7; 32]).as_bytes(), [7; 32]);
    /// ```
    pub fn as_bytes(&self) -> &[u8] {
        &self.bytes[..self.length]
    }

    fn bytes_mut(&mut self) -> &mut [u8] {
        &mut self.bytes[..self.length]
    }

    /// So many zeros, for the bytes to be put there.
    fn zeros(length: usize) -> Result<Self, Refusal> {
        if !KEYS.contains(&length) {
            return Err(Refusal::KeyLength);
        }
        Ok(Self { bytes: [0; LONGEST], length })
    }
}

impl From<[u8; 16]> for Key {
    fn from(bytes: [u8; 16]) -> Self {
        let mut key = Self { bytes: [0; LONGEST], length: bytes.len() };
        key.bytes_mut().copy_from_slice(&bytes);
        key
    }
}

impl From<[u8; 32]> for Key {
    fn from(bytes: [u8; 32]) -> Self {
        Self { bytes, length: bytes.len() }
    }
}

impl TryFrom<&[u8]> for Key {
    type Error = Refusal;

    fn try_from(bytes: &[u8]) -> Result<Self, Refusal> {
        Self::from_slice(bytes)
    }
}

impl AsRef<[u8]> for Key {
    fn as_ref(&self) -> &[u8] {
        self.as_bytes()
    }
}

/// Reads 32 hexadecimal digits, or 64. Any other text is refused as a wrong number of bytes is.
impl FromStr for Key {
    type Err = Refusal;

    fn from_str(text: &str) -> Result<Self, Refusal> {
        let mut key = Self::zeros(text.len() / 2)?;
        hex::decode_into(text, key.bytes_mut()).map_err(|_| Refusal::KeyLength)?;
        Ok(key)
    }
}

impl Drop for Key {
    fn drop(&mut self) {
        wipe(&mut self.bytes);
    }
}

impl fmt::Debug for Key {
    fn fmt(&self, f: &mut fmt::Formatter<'_>) -> fmt::Result {
        f.write_str("Key(..)")
    }
}

#[cfg(test)]
mod tests {
    use super::Key;

    #[test]
    fn a_wrong_length_gets_its_number() {
        for length in (0..80).filter(|length| ![16, 32].contains(length)) {
            assert_eq!(Key::from_slice(&vec![0; length]).unwrap_err().number(), 1);
            assert_eq!("0".repeat(2 * length).parse::<Key>().unwrap_err().number(), 1);
            assert_eq!("0".repeat(2 * length + 1).parse::<Key>().unwrap_err().number(), 1);
        }
    }

    #[test]
    fn a_key_does_not_show_its_bytes() {
        assert_eq!(format!("{:?}", Key::from([0xAB; 16])), "Key(..)");
        assert_eq!(format!("{:#?}", Key::from([0xAB; 32])), "Key(..)");
    }
}
