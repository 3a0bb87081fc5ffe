//! A tag by either finish: 16 bytes, or 20.

use std::fmt;
use std::str::FromStr;

use crate::finish::Finish;
use crate::hex;
use crate::refusal::Refusal;
use crate::sizes::{BLOCK, DIGEST};
use crate::values::Tag;

/// A tag by either finish: 16 bytes by the cipher, 20 by SHA-1. To see whether it is right, use [`test_with`](crate::test_with).
///
/// ```
/// use balzenoh::{seal_with, AnyTag, Finish, Iv, Key, Refusal};
///
/// let sealed = seal_with(Finish::Sha1, &Key::from([7; 16]), &Iv::from([1; 16]), b"parcel 4711 -> cage 12")?;
/// let tag = AnyTag::try_from(&sealed[sealed.len() - 20..])?;
/// assert_eq!(tag.finish(), Finish::Sha1);
/// # Ok::<(), Refusal>(())
/// ```
#[derive(Clone, Copy, PartialEq, Eq)]
pub struct AnyTag {
    /// Zeros stand behind a short tag.
    bytes: [u8; DIGEST],
    finish: Finish,
}

impl AnyTag {
    /// Takes 16 bytes, or 20.
    ///
    /// # Errors
    ///
    /// [`Refusal::Length`] for any other number of bytes.
    ///
    /// ```
    /// use balzenoh::{AnyTag, Refusal};
    ///
    /// assert!(AnyTag::from_slice(&[7; 16]).is_ok() && AnyTag::from_slice(&[7; 20]).is_ok());
    /// assert_eq!(AnyTag::from_slice(&[7; 19]).unwrap_err(), Refusal::Length);
    /// ```
    pub fn from_slice(bytes: &[u8]) -> Result<Self, Refusal> {
        let mut tag = Self::zeros(bytes.len())?;
        tag.bytes_mut().copy_from_slice(bytes);
        Ok(tag)
    }

    /// The bytes: 16, or 20.
    ///
    /// ```
    /// use balzenoh::AnyTag;
    ///
    /// assert_eq!(AnyTag::from([7; 16]).as_bytes(), [7; 16]);
    /// assert_eq!(AnyTag::from([7; 20]).as_bytes(), [7; 20]);
    /// ```
    pub fn as_bytes(&self) -> &[u8] {
        &self.bytes[..self.finish.tag_length()]
    }

    /// The finish that gives tags of this length.
    ///
    /// ```
    /// use balzenoh::{AnyTag, Finish};
    ///
    /// assert_eq!(AnyTag::from([7; 16]).finish(), Finish::Cipher);
    /// ```
    pub fn finish(&self) -> Finish {
        self.finish
    }

    fn bytes_mut(&mut self) -> &mut [u8] {
        &mut self.bytes[..self.finish.tag_length()]
    }

    /// So many zeros, for the bytes to be put there.
    fn zeros(length: usize) -> Result<Self, Refusal> {
        let finish = Finish::ALL.into_iter().find(|finish| finish.tag_length() == length).ok_or(Refusal::Length)?;
        Ok(Self { bytes: [0; DIGEST], finish })
    }
}

impl From<[u8; BLOCK]> for AnyTag {
    fn from(bytes: [u8; BLOCK]) -> Self {
        let mut tag = Self { bytes: [0; DIGEST], finish: Finish::Cipher };
        tag.bytes_mut().copy_from_slice(&bytes);
        tag
    }
}

impl From<[u8; DIGEST]> for AnyTag {
    fn from(bytes: [u8; DIGEST]) -> Self {
        Self { bytes, finish: Finish::Sha1 }
    }
}

impl From<Tag> for AnyTag {
    fn from(tag: Tag) -> Self {
        Self::from(*tag.as_bytes())
    }
}

impl TryFrom<&[u8]> for AnyTag {
    type Error = Refusal;

    fn try_from(bytes: &[u8]) -> Result<Self, Refusal> {
        Self::from_slice(bytes)
    }
}

impl AsRef<[u8]> for AnyTag {
    fn as_ref(&self) -> &[u8] {
        self.as_bytes()
    }
}

/// Reads 32 hexadecimal digits, or 40. Any other text is refused as a wrong number of bytes is.
impl FromStr for AnyTag {
    type Err = Refusal;

    fn from_str(text: &str) -> Result<Self, Refusal> {
        let mut tag = Self::zeros(text.len() / 2)?;
        hex::decode_into(text, tag.bytes_mut()).map_err(|_| Refusal::Length)?;
        Ok(tag)
    }
}

impl fmt::Debug for AnyTag {
    fn fmt(&self, f: &mut fmt::Formatter<'_>) -> fmt::Result {
        write!(f, "AnyTag({})", hex::encode(self.as_bytes()))
    }
}

#[cfg(test)]
mod tests {
    use super::AnyTag;

    #[test]
    fn a_wrong_length_gets_its_number() {
        for length in (0..50).filter(|length| ![16, 20].contains(length)) {
            assert_eq!(AnyTag::from_slice(&vec![0; length]).unwrap_err().number(), 3);
            assert_eq!("0".repeat(2 * length).parse::<AnyTag>().unwrap_err().number(), 3);
            assert_eq!("0".repeat(2 * length + 1).parse::<AnyTag>().unwrap_err().number(), 3);
        }
    }

    #[test]
    fn it_shows_its_bytes() {
        assert_eq!(format!("{:?}", AnyTag::from([0xAB; 16])), format!("AnyTag({})", "AB".repeat(16)));
        assert_eq!(format!("{:?}", AnyTag::from([0xAB; 20])), format!("AnyTag({})", "AB".repeat(20)));
    }

    /// A short tag is not a long one that ends in zeros.
    #[test]
    fn lengths_are_told_apart() {
        assert_ne!(AnyTag::from([0; 16]), AnyTag::from([0; 20]));
    }
}
