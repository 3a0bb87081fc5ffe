//! The two ways to make a tag, and what ticket P4 says of their lengths.

pub use balzenoh::Finish;

pub const FINISHES: [Finish; 2] = [Finish::Cipher, Finish::Sha1];

/// The bytes of a tag.
pub fn tag_length(finish: Finish) -> usize {
    match finish {
        Finish::Cipher => 16,
        Finish::Sha1 => 20,
    }
}

/// What a sealed record has beside its ciphertext: the IV and the tag.
pub fn around(finish: Finish) -> usize {
    16 + tag_length(finish)
}

/// The length of the ciphertext in a sealed record of this length: 16 to 16,777,216 bytes, whole blocks. Nothing where no
/// record is so long.
pub fn ciphertext_length(finish: Finish, sealed: usize) -> Option<usize> {
    sealed.checked_sub(around(finish)).filter(|length| (16..=16_777_216).contains(length) && length % 16 == 0)
}

/// The finish that this one is not.
pub fn other(finish: Finish) -> Finish {
    match finish {
        Finish::Cipher => Finish::Sha1,
        Finish::Sha1 => Finish::Cipher,
    }
}
