//! How a tag is made.

use crate::sizes::{BLOCK, DIGEST};

/// How the tag of a list is made: the two finishes of the mode's paper. Runs and their records do not know it.
///
/// Nothing in a sealed record says which finish made it: those who seal and those who open must agree on it. A record of one
/// finish has a length that the other refuses, and so has a tag.
///
/// ```
/// use balzenoh::{open_with, seal_with, Finish, Iv, Key, Refusal};
///
/// let (key, iv) = (Key::from([7; 16]), Iv::from([1; 16]));
/// let sealed = seal_with(Finish::Sha1, &key, &iv, b"parcel 4711 -> cage 12")?;
/// assert_eq!(open_with(Finish::Sha1, &key, &sealed)?, b"parcel 4711 -> cage 12");
/// assert_eq!(open_with(Finish::Cipher, &key, &sealed), Err(Refusal::Length));
/// assert_eq!(Finish::default(), Finish::Cipher);
/// # Ok::<(), Refusal>(())
/// ```
#[derive(Clone, Copy, Debug, Default, PartialEq, Eq, Hash)]
pub enum Finish {
    /// By AES: the tag has 16 bytes.
    #[default]
    Cipher,
    /// By SHA-1 of the whole key, the pre-authenticator and the mask after the last block: the tag has 20 bytes. No claim is made
    /// for the strength of SHA-1.
    Sha1,
}

impl Finish {
    /// Both, the usual one first.
    pub const ALL: [Self; 2] = [Self::Cipher, Self::Sha1];

    /// The bytes of a tag.
    ///
    /// ```
    /// assert_eq!(balzenoh::Finish::ALL.map(|finish| finish.tag_length()), [16, 20]);
    /// ```
    pub const fn tag_length(self) -> usize {
        match self {
            Self::Cipher => BLOCK,
            Self::Sha1 => DIGEST,
        }
    }
}
