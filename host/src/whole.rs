//! Sealing and opening whole lists.

use crate::finish::Finish;
use crate::key::Key;
use crate::raw;
use crate::refusal::Refusal;
use crate::sizes::{open_room_with, sealed_room_with};
use crate::values::Iv;

/// Seals a message of up to 16,777,215 bytes. The sealed record is the IV, the ciphertext and the tag.
///
/// # Errors
///
/// [`Refusal::Length`] for a longer message, [`Refusal::ZeroMask`] for a key whose first 16 bytes are zeros with the one IV under
/// which nothing would be masked.
///
/// ```
/// use balzenoh::{seal, Iv, Key, Refusal};
///
/// let (key, iv) = (Key::from([7; 16]), Iv::from([1; 16]));
/// assert_eq!(seal(&key, &iv, b"parcel 4711 -> cage 12")?.len(), 16 + 32 + 16);
/// assert_eq!(seal(&key, &iv, &vec![0; 16_777_216]), Err(Refusal::Length));
/// let (no_key, its_iv) = (Key::from([0; 16]), "140F0F1011B5223D79587717FFD9EC3A".parse()?);
/// assert_eq!(seal(&no_key, &its_iv, b"parcel 4711 -> cage 12"), Err(Refusal::ZeroMask));
/// let (no_key, its_iv) = (Key::from([0; 32]), "67671CE1FA91DDEB0F8FBBB366B531B4".parse()?);
/// assert_eq!(seal(&no_key, &its_iv, b"parcel 4711 -> cage 12"), Err(Refusal::ZeroMask));
/// # Ok::<(), Refusal>(())
/// ```
pub fn seal(key: &Key, iv: &Iv, message: &[u8]) -> Result<Vec<u8>, Refusal> {
    seal_with(Finish::Cipher, key, iv, message)
}

/// Seals a message of up to 16,777,215 bytes with this finish. The sealed record is the IV, the ciphertext and the tag.
///
/// # Errors
///
/// Those of [`seal`].
///
/// ```
/// use balzenoh::{seal, seal_with, Finish, Iv, Key, Refusal};
///
/// let (key, iv, list) = (Key::from([7; 16]), Iv::from([1; 16]), b"parcel 4711 -> cage 12");
/// let sealed = seal_with(Finish::Sha1, &key, &iv, list)?;
/// assert_eq!(sealed.len(), 16 + 32 + 20);
/// // The ciphertext is the same with either finish.
/// assert_eq!(sealed[..48], seal(&key, &iv, list)?[..48]);
/// assert_eq!(seal_with(Finish::Cipher, &key, &iv, list), seal(&key, &iv, list));
/// # Ok::<(), Refusal>(())
/// ```
pub fn seal_with(finish: Finish, key: &Key, iv: &Iv, message: &[u8]) -> Result<Vec<u8>, Refusal> {
    let mut out = vec![0; sealed_room_with(finish, message.len())];
    let length = seal_into_with(finish, key, iv, message, &mut out)?;
    out.truncate(length);
    Ok(out)
}

/// Seals into a lent output and returns the sealed record's length. All bytes beyond it are zero; on a refusal all are.
///
/// # Errors
///
/// Those of [`seal`], and [`Refusal::OutputTooShort`] for an output below [`sealed_room`](crate::sizes::sealed_room) of the message.
///
/// ```
/// use balzenoh::{seal_into, Iv, Key, Refusal};
///
/// let (key, iv) = (Key::from([7; 16]), Iv::from([1; 16]));
/// let mut out = [0xA5; 100];
/// assert_eq!(seal_into(&key, &iv, b"parcel 4711 -> cage 12", &mut out), Ok(64));
/// assert_eq!(out[64..], [0; 36]);
/// assert_eq!(seal_into(&key, &iv, b"parcel 4711 -> cage 12", &mut out[..63]), Err(Refusal::OutputTooShort));
/// assert_eq!(out[..63], [0; 63]);
/// ```
pub fn seal_into(key: &Key, iv: &Iv, message: &[u8], out: &mut [u8]) -> Result<usize, Refusal> {
    seal_into_with(Finish::Cipher, key, iv, message, out)
}

/// Seals with this finish into a lent output and returns the sealed record's length. All bytes beyond it are zero; on a refusal
/// all are.
///
/// # Errors
///
/// Those of [`seal`], and [`Refusal::OutputTooShort`] for an output below
/// [`sealed_room_with`](crate::sizes::sealed_room_with) of finish and message.
///
/// ```
/// use balzenoh::{seal_into_with, Finish, Iv, Key, Refusal};
///
/// let (key, iv) = (Key::from([7; 16]), Iv::from([1; 16]));
/// let mut out = [0xA5; 100];
/// assert_eq!(seal_into_with(Finish::Sha1, &key, &iv, b"parcel 4711 -> cage 12", &mut out), Ok(68));
/// assert_eq!(out[68..], [0; 32]);
/// ```
pub fn seal_into_with(finish: Finish, key: &Key, iv: &Iv, message: &[u8], out: &mut [u8]) -> Result<usize, Refusal> {
    raw::seal_with(finish, key.as_bytes(), iv.as_bytes(), message, out)
}

/// Opens a sealed record.
///
/// # Errors
///
/// [`Refusal::Length`] for a record that is below 48 bytes, above 16,777,248 or no multiple of 16, [`Refusal::ZeroMask`] where key
/// and IV are the pair that [`seal`] refuses, [`Refusal::TagDiffers`] where it is not as it was sealed or the key is another one,
/// [`Refusal::Padding`] where the message does not end as messages do.
///
/// ```
/// use balzenoh::{open, seal, Iv, Key, Refusal};
///
/// let key = Key::from([7; 16]);
/// let mut sealed = seal(&key, &Iv::from([1; 16]), b"parcel 4711 -> cage 12")?;
/// assert_eq!(open(&key, &sealed)?, b"parcel 4711 -> cage 12");
/// sealed[20] ^= 1;
/// assert_eq!(open(&key, &sealed), Err(Refusal::TagDiffers));
/// # Ok::<(), Refusal>(())
/// ```
pub fn open(key: &Key, sealed: &[u8]) -> Result<Vec<u8>, Refusal> {
    open_with(Finish::Cipher, key, sealed)
}

/// Opens a sealed record with this finish.
///
/// # Errors
///
/// Those of [`open`]; [`Refusal::Length`] with [`Finish::Sha1`] for a record that is below 52 bytes, above 16,777,252 or not 36
/// over a multiple of 16.
///
/// ```
/// use balzenoh::{open_with, seal_with, Finish, Iv, Key, Refusal};
///
/// let key = Key::from([7; 16]);
/// let mut sealed = seal_with(Finish::Sha1, &key, &Iv::from([1; 16]), b"parcel 4711 -> cage 12")?;
/// assert_eq!(open_with(Finish::Sha1, &key, &sealed)?, b"parcel 4711 -> cage 12");
/// assert_eq!(open_with(Finish::Cipher, &key, &sealed), Err(Refusal::Length));
/// sealed[20] ^= 1;
/// assert_eq!(open_with(Finish::Sha1, &key, &sealed), Err(Refusal::TagDiffers));
/// # Ok::<(), Refusal>(())
/// ```
pub fn open_with(finish: Finish, key: &Key, sealed: &[u8]) -> Result<Vec<u8>, Refusal> {
    let mut out = vec![0; open_room_with(finish, sealed.len())];
    let length = open_into_with(finish, key, sealed, &mut out)?;
    out.truncate(length);
    Ok(out)
}

/// Opens into a lent output, which needs room for the message, and returns the message's length. All bytes beyond it are zero; on a
/// refusal all are. Nothing of the message is written before tag and padding were found right.
///
/// Who does not know the message's length lends [`open_room`](crate::sizes::open_room) of the record, which always suffices.
///
/// # Errors
///
/// Those of [`open`], and where there are none of those, [`Refusal::OutputTooShort`] for an output shorter than the message.
///
/// ```
/// use balzenoh::sizes::open_room;
/// use balzenoh::{open_into, seal, Iv, Key, Refusal};
///
/// let (key, list) = (Key::from([7; 16]), b"parcel 4711 -> cage 12");
/// let sealed = seal(&key, &Iv::from([1; 16]), list)?;
///
/// // The lists of this board have 22 bytes.
/// let mut out = [0xA5; 22];
/// assert_eq!(open_into(&key, &sealed, &mut out), Ok(22));
/// assert_eq!(out, *list);
/// assert_eq!(open_into(&Key::from([8; 16]), &sealed, &mut out), Err(Refusal::TagDiffers));
/// assert_eq!(out, [0; 22]);
/// assert_eq!(open_into(&key, &sealed, &mut out[..21]), Err(Refusal::OutputTooShort));
///
/// // A list of any length.
/// let mut out = vec![0xA5; open_room(sealed.len())];
/// let length = open_into(&key, &sealed, &mut out)?;
/// assert_eq!(out[..length], *list);
/// # Ok::<(), Refusal>(())
/// ```
pub fn open_into(key: &Key, sealed: &[u8], out: &mut [u8]) -> Result<usize, Refusal> {
    open_into_with(Finish::Cipher, key, sealed, out)
}

/// Opens with this finish into a lent output, which needs room for the message, and returns the message's length. All bytes beyond it
/// are zero; on a refusal all are. Nothing of the message is written before tag and padding were found right.
///
/// Who does not know the message's length lends [`open_room_with`](crate::sizes::open_room_with) of finish and record, which always
/// suffices.
///
/// # Errors
///
/// Those of [`open_with`], and where there are none of those, [`Refusal::OutputTooShort`] for an output shorter than the message.
///
/// ```
/// use balzenoh::{open_into_with, seal_with, Finish, Iv, Key, Refusal};
///
/// let key = Key::from([7; 16]);
/// let sealed = seal_with(Finish::Sha1, &key, &Iv::from([1; 16]), b"parcel 4711 -> cage 12")?;
/// let mut out = [0xA5; 22];
/// assert_eq!(open_into_with(Finish::Sha1, &key, &sealed, &mut out), Ok(22));
/// assert_eq!(out, *b"parcel 4711 -> cage 12");
/// assert_eq!(open_into_with(Finish::Sha1, &key, &sealed, &mut out[..21]), Err(Refusal::OutputTooShort));
/// # Ok::<(), Refusal>(())
/// ```
pub fn open_into_with(finish: Finish, key: &Key, sealed: &[u8], out: &mut [u8]) -> Result<usize, Refusal> {
    raw::open_with(finish, key.as_bytes(), sealed, out)
}
