//! SHA-1.

use crate::raw;
use crate::refusal::Refusal;
use crate::sizes::DIGEST;

/// SHA-1 of a text of up to 64,032 bytes, as FIPS 180-4 has it. No claim is made for its strength: it is here for the hash
/// finish, and for those who check that.
///
/// # Errors
///
/// [`Refusal::Length`] for a longer text.
///
/// ```
/// use balzenoh::{hex, sha1, Refusal};
///
/// assert_eq!(hex::encode(&sha1(b"abc")?), "A9993E364706816ABA3E25717850C26C9CD0D89D");
/// assert_eq!(sha1(&[0; 64_033]), Err(Refusal::Length));
/// # Ok::<(), Refusal>(())
/// ```
pub fn sha1(text: &[u8]) -> Result<[u8; DIGEST], Refusal> {
    let mut digest = [0; DIGEST];
    raw::sha1(text, &mut digest)?;
    Ok(digest)
}
