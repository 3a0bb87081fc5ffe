//! The calls on plain slices, exactly as the proved library has them. Those with a [`Finish`] are two functions in the library, one
//! by the cipher and one by the hash.
//!
//! Nothing is checked here: a key of 15 bytes goes to the library, and the library refuses it. On success the answer stands at
//! the start of the lent output and zeros follow to its end. On a refusal every lent output is zero from end to end.
//!
//! Where several refusals hold, the one that a call names first is given.

use crate::ffi;
use crate::finish::Finish;
use crate::refusal::Refusal;

/// Seals a whole message. The answer is IV, ciphertext and tag; its length is returned.
///
/// # Errors
///
/// [`KeyLength`](Refusal::KeyLength), [`IvLength`](Refusal::IvLength), [`Length`](Refusal::Length) for a message above
/// 16,777,215 bytes, [`ZeroMask`](Refusal::ZeroMask), [`OutputTooShort`](Refusal::OutputTooShort).
///
/// ```
/// use balzenoh::{raw, Refusal};
///
/// let mut out = [0xA5; 48];
/// assert_eq!(raw::seal(&[7; 16], &[1; 16], b"cage 12", &mut out), Ok(48));
/// assert_eq!(raw::seal(&[7; 32], &[1; 16], b"cage 12", &mut out), Ok(48));
/// assert_eq!(raw::seal(&[7; 15], &[1; 16], b"cage 12", &mut out), Err(Refusal::KeyLength));
/// assert_eq!(out, [0; 48]);
/// ```
pub fn seal(key: &[u8], iv: &[u8], message: &[u8], out: &mut [u8]) -> Result<usize, Refusal> {
    seal_with(Finish::Cipher, key, iv, message, out)
}

/// Seals a whole message with this finish. The answer is IV, ciphertext and tag; its length is returned.
///
/// # Errors
///
/// [`KeyLength`](Refusal::KeyLength), [`IvLength`](Refusal::IvLength), [`Length`](Refusal::Length) for a message above
/// 16,777,215 bytes, [`ZeroMask`](Refusal::ZeroMask), [`OutputTooShort`](Refusal::OutputTooShort).
///
/// ```
/// use balzenoh::{raw, Finish, Refusal};
///
/// let mut out = [0xA5; 52];
/// assert_eq!(raw::seal_with(Finish::Sha1, &[7; 16], &[1; 16], b"cage 12", &mut out), Ok(52));
/// assert_eq!(raw::seal_with(Finish::Sha1, &[7; 16], &[1; 16], b"cage 12", &mut out[..51]), Err(Refusal::OutputTooShort));
/// ```
pub fn seal_with(finish: Finish, key: &[u8], iv: &[u8], message: &[u8], out: &mut [u8]) -> Result<usize, Refusal> {
    with_length(ffi::seal(finish, key, iv, message, out))
}

/// Opens a sealed record. `out` must have room for the message, whose length is returned.
///
/// # Errors
///
/// [`KeyLength`](Refusal::KeyLength), [`Length`](Refusal::Length) for a record below 48 bytes, above 16,777,248 or no multiple of
/// 16, [`ZeroMask`](Refusal::ZeroMask) with the record's IV, [`TagDiffers`](Refusal::TagDiffers), [`Padding`](Refusal::Padding),
/// [`OutputTooShort`](Refusal::OutputTooShort).
///
/// ```
/// use balzenoh::{raw, Refusal};
///
/// let (mut sealed, mut out) = ([0; 48], [0xA5; 16]);
/// raw::seal(&[7; 16], &[1; 16], b"cage 12", &mut sealed)?;
/// assert_eq!(raw::open(&[7; 16], &sealed, &mut out[..7]), Ok(7));
/// assert_eq!(out[..7], *b"cage 12");
/// assert_eq!(raw::open(&[7; 16], &sealed, &mut out), Ok(7));
/// assert_eq!(out, *b"cage 12\0\0\0\0\0\0\0\0\0");
/// assert_eq!(raw::open(&[7; 16], &sealed, &mut out[..6]), Err(Refusal::OutputTooShort));
/// # Ok::<(), Refusal>(())
/// ```
pub fn open(key: &[u8], sealed: &[u8], out: &mut [u8]) -> Result<usize, Refusal> {
    open_with(Finish::Cipher, key, sealed, out)
}

/// Opens a sealed record with this finish. `out` must have room for the message, whose length is returned.
///
/// # Errors
///
/// [`KeyLength`](Refusal::KeyLength), [`Length`](Refusal::Length) for a record that is as long as no record with this finish,
/// [`ZeroMask`](Refusal::ZeroMask) with the record's IV, [`TagDiffers`](Refusal::TagDiffers), [`Padding`](Refusal::Padding),
/// [`OutputTooShort`](Refusal::OutputTooShort).
///
/// ```
/// use balzenoh::{raw, Finish, Refusal};
///
/// let (mut sealed, mut out) = ([0; 52], [0xA5; 16]);
/// raw::seal_with(Finish::Sha1, &[7; 16], &[1; 16], b"cage 12", &mut sealed)?;
/// assert_eq!(raw::open_with(Finish::Sha1, &[7; 16], &sealed, &mut out), Ok(7));
/// assert_eq!(raw::open_with(Finish::Cipher, &[7; 16], &sealed, &mut out), Err(Refusal::Length));
/// assert_eq!(out, [0; 16]);
/// # Ok::<(), Refusal>(())
/// ```
pub fn open_with(finish: Finish, key: &[u8], sealed: &[u8], out: &mut [u8]) -> Result<usize, Refusal> {
    with_length(ffi::open(finish, key, sealed, out))
}

/// Seals a run of blocks. The ciphertext goes to `out`, its length is returned, and the run's record goes to `run`.
///
/// # Errors
///
/// [`KeyLength`](Refusal::KeyLength), [`IvLength`](Refusal::IvLength), [`Length`](Refusal::Length) for a run that is not the last
/// and no multiple of 16 bytes, [`BeyondLimit`](Refusal::BeyondLimit), [`ZeroMask`](Refusal::ZeroMask) for an empty run too,
/// [`OutputTooShort`](Refusal::OutputTooShort) for either output.
///
/// ```
/// use balzenoh::raw;
///
/// let (mut out, mut run) = ([0; 16], [0; 24]);
/// assert_eq!(raw::seal_run(&[7; 16], &[1; 16], 5, true, b"cage 12", &mut out, &mut run), Ok(16));
/// assert_eq!(run[..8], [0, 0, 0, 5, 0, 0, 0, 1]);
/// ```
pub fn seal_run(
    key: &[u8],
    iv: &[u8],
    first: u32,
    last: bool,
    bytes: &[u8],
    out: &mut [u8],
    run: &mut [u8],
) -> Result<usize, Refusal> {
    with_length(ffi::seal_run(key, iv, first, last, bytes, out, run))
}

/// Checks a run of ciphertext: `run` gets the record that sealing the run would give.
///
/// # Errors
///
/// [`KeyLength`](Refusal::KeyLength), [`IvLength`](Refusal::IvLength), [`Length`](Refusal::Length) for a run that is no multiple
/// of 16 bytes, [`BeyondLimit`](Refusal::BeyondLimit), [`ZeroMask`](Refusal::ZeroMask) for an empty run too,
/// [`OutputTooShort`](Refusal::OutputTooShort).
///
/// ```
/// use balzenoh::{raw, Refusal};
///
/// let (mut out, mut sealed, mut checked) = ([0; 16], [0; 24], [0; 24]);
/// raw::seal_run(&[7; 16], &[1; 16], 5, true, b"cage 12", &mut out, &mut sealed)?;
/// raw::check_run(&[7; 16], &[1; 16], 5, &out, &mut checked)?;
/// assert_eq!(checked, sealed);
/// # Ok::<(), Refusal>(())
/// ```
pub fn check_run(key: &[u8], iv: &[u8], first: u32, ciphertext: &[u8], run: &mut [u8]) -> Result<(), Refusal> {
    refused(ffi::check_run(key, iv, first, ciphertext, run))
}

/// Joins the records of two runs, the second of which starts where the first one ends.
///
/// # Errors
///
/// [`RecordLength`](Refusal::RecordLength), [`BeyondLimit`](Refusal::BeyondLimit), [`NotNeighbours`](Refusal::NotNeighbours),
/// [`OutputTooShort`](Refusal::OutputTooShort).
///
/// ```
/// use balzenoh::{raw, Refusal};
///
/// let (mut left, mut right, mut joined) = ([0; 24], [0; 24], [0; 24]);
/// raw::check_run(&[7; 16], &[1; 16], 0, &[0; 16], &mut left)?;
/// raw::check_run(&[7; 16], &[1; 16], 1, &[0; 32], &mut right)?;
/// raw::join(&left, &right, &mut joined)?;
/// assert_eq!(joined[..8], [0, 0, 0, 0, 0, 0, 0, 3]);
/// # Ok::<(), Refusal>(())
/// ```
pub fn join(left: &[u8], right: &[u8], run: &mut [u8]) -> Result<(), Refusal> {
    refused(ffi::join(left, right, run))
}

/// Joins records, their bytes one after the other, in message order.
///
/// # Errors
///
/// [`RecordLength`](Refusal::RecordLength) for bytes that are no multiple of 24, [`BeyondLimit`](Refusal::BeyondLimit),
/// [`NotNeighbours`](Refusal::NotNeighbours), [`NotWhole`](Refusal::NotWhole) for no record at all,
/// [`OutputTooShort`](Refusal::OutputTooShort).
///
/// ```
/// use balzenoh::{raw, Refusal};
///
/// let (mut records, mut joined) = ([0; 48], [0; 24]);
/// raw::check_run(&[7; 16], &[1; 16], 0, &[0; 16], &mut records[..24])?;
/// raw::check_run(&[7; 16], &[1; 16], 1, &[0; 32], &mut records[24..])?;
/// raw::join_list(&records, &mut joined)?;
/// assert_eq!(joined[..8], [0, 0, 0, 0, 0, 0, 0, 3]);
/// # Ok::<(), Refusal>(())
/// ```
pub fn join_list(records: &[u8], run: &mut [u8]) -> Result<(), Refusal> {
    refused(ffi::join_list(records, run))
}

/// Closes the record of a whole message into its tag.
///
/// # Errors
///
/// [`RecordLength`](Refusal::RecordLength), [`KeyLength`](Refusal::KeyLength), [`IvLength`](Refusal::IvLength),
/// [`BeyondLimit`](Refusal::BeyondLimit), [`NotWhole`](Refusal::NotWhole), [`ZeroMask`](Refusal::ZeroMask),
/// [`OutputTooShort`](Refusal::OutputTooShort).
///
/// ```
/// use balzenoh::{raw, Refusal};
///
/// let (mut sealed, mut run, mut tag) = ([0; 48], [0; 24], [0; 16]);
/// raw::seal(&[7; 16], &[1; 16], b"cage 12", &mut sealed)?;
/// raw::check_run(&[7; 16], &[1; 16], 0, &sealed[16..32], &mut run)?;
/// raw::close(&[7; 16], &[1; 16], &run, &mut tag)?;
/// assert_eq!(tag, sealed[32..]);
/// # Ok::<(), Refusal>(())
/// ```
pub fn close(key: &[u8], iv: &[u8], run: &[u8], tag: &mut [u8]) -> Result<(), Refusal> {
    close_with(Finish::Cipher, key, iv, run, tag)
}

/// Closes the record of a whole message into its tag by this finish.
///
/// # Errors
///
/// [`RecordLength`](Refusal::RecordLength), [`KeyLength`](Refusal::KeyLength), [`IvLength`](Refusal::IvLength),
/// [`BeyondLimit`](Refusal::BeyondLimit), [`NotWhole`](Refusal::NotWhole), [`ZeroMask`](Refusal::ZeroMask),
/// [`OutputTooShort`](Refusal::OutputTooShort).
///
/// ```
/// use balzenoh::{raw, Finish, Refusal};
///
/// let (mut sealed, mut run, mut tag) = ([0; 52], [0; 24], [0; 20]);
/// raw::seal_with(Finish::Sha1, &[7; 16], &[1; 16], b"cage 12", &mut sealed)?;
/// raw::check_run(&[7; 16], &[1; 16], 0, &sealed[16..32], &mut run)?;
/// raw::close_with(Finish::Sha1, &[7; 16], &[1; 16], &run, &mut tag)?;
/// assert_eq!(tag, sealed[32..]);
/// # Ok::<(), Refusal>(())
/// ```
pub fn close_with(finish: Finish, key: &[u8], iv: &[u8], run: &[u8], tag: &mut [u8]) -> Result<(), Refusal> {
    refused(ffi::close(finish, key, iv, run, tag))
}

/// Tests a tag against the record of a whole message.
///
/// # Errors
///
/// [`RecordLength`](Refusal::RecordLength), [`KeyLength`](Refusal::KeyLength), [`IvLength`](Refusal::IvLength),
/// [`Length`](Refusal::Length) for a tag that is not 16 bytes, [`BeyondLimit`](Refusal::BeyondLimit),
/// [`NotWhole`](Refusal::NotWhole), [`ZeroMask`](Refusal::ZeroMask), [`TagDiffers`](Refusal::TagDiffers).
///
/// ```
/// use balzenoh::{raw, Refusal};
///
/// let (mut sealed, mut run) = ([0; 48], [0; 24]);
/// raw::seal(&[7; 16], &[1; 16], b"cage 12", &mut sealed)?;
/// raw::check_run(&[7; 16], &[1; 16], 0, &sealed[16..32], &mut run)?;
/// assert_eq!(raw::test(&[7; 16], &[1; 16], &run, &sealed[32..]), Ok(()));
/// assert_eq!(raw::test(&[7; 16], &[1; 16], &run, &[0; 16]), Err(Refusal::TagDiffers));
/// # Ok::<(), Refusal>(())
/// ```
pub fn test(key: &[u8], iv: &[u8], run: &[u8], tag: &[u8]) -> Result<(), Refusal> {
    test_with(Finish::Cipher, key, iv, run, tag)
}

/// Tests a tag by this finish against the record of a whole message.
///
/// # Errors
///
/// [`RecordLength`](Refusal::RecordLength), [`KeyLength`](Refusal::KeyLength), [`IvLength`](Refusal::IvLength),
/// [`Length`](Refusal::Length) for a tag that is as long as none with this finish, [`BeyondLimit`](Refusal::BeyondLimit),
/// [`NotWhole`](Refusal::NotWhole), [`ZeroMask`](Refusal::ZeroMask), [`TagDiffers`](Refusal::TagDiffers).
///
/// ```
/// use balzenoh::{raw, Finish, Refusal};
///
/// let (mut sealed, mut run) = ([0; 52], [0; 24]);
/// raw::seal_with(Finish::Sha1, &[7; 16], &[1; 16], b"cage 12", &mut sealed)?;
/// raw::check_run(&[7; 16], &[1; 16], 0, &sealed[16..32], &mut run)?;
/// assert_eq!(raw::test_with(Finish::Sha1, &[7; 16], &[1; 16], &run, &sealed[32..]), Ok(()));
/// assert_eq!(raw::test_with(Finish::Sha1, &[7; 16], &[1; 16], &run, &sealed[32..48]), Err(Refusal::Length));
/// # Ok::<(), Refusal>(())
/// ```
pub fn test_with(finish: Finish, key: &[u8], iv: &[u8], run: &[u8], tag: &[u8]) -> Result<(), Refusal> {
    refused(ffi::test(finish, key, iv, run, tag))
}

/// Jumps a mask by a number of blocks: forward, or back where it is negative.
///
/// # Errors
///
/// [`Length`](Refusal::Length) for a mask that is not 16 bytes, [`BeyondLimit`](Refusal::BeyondLimit) for a number below
/// -1,048,576 or above 1,048,576, [`OutputTooShort`](Refusal::OutputTooShort).
///
/// ```
/// use balzenoh::{raw, Refusal};
///
/// let mut out = [0xA5; 16];
/// assert_eq!(raw::jump(&[9; 16], -1_200, &mut out), Ok(()));
/// let back = out;
/// assert_eq!(raw::jump(&back, 1_200, &mut out), Ok(()));
/// assert_eq!(out, [9; 16]);
/// assert_eq!(raw::jump(&[9; 16], -1_048_577, &mut out), Err(Refusal::BeyondLimit));
/// assert_eq!(out, [0; 16]);
/// ```
pub fn jump(mask: &[u8], distance: i32, out: &mut [u8]) -> Result<(), Refusal> {
    refused(ffi::jump(mask, distance, out))
}

/// SHA-1 of a text. The digest is 20 bytes.
///
/// # Errors
///
/// [`Length`](Refusal::Length) for a text above 64,032 bytes, [`OutputTooShort`](Refusal::OutputTooShort).
///
/// ```
/// use balzenoh::{raw, Refusal};
///
/// let mut out = [0xA5; 24];
/// assert_eq!(raw::sha1(b"abc", &mut out), Ok(()));
/// assert_eq!((out[..3].to_vec(), out[20..].to_vec()), (vec![0xA9, 0x99, 0x3E], vec![0; 4]));
/// assert_eq!(raw::sha1(b"abc", &mut out[..19]), Err(Refusal::OutputTooShort));
/// ```
pub fn sha1(text: &[u8], out: &mut [u8]) -> Result<(), Refusal> {
    refused(ffi::sha1(text, out))
}

fn with_length((number, length): (u8, usize)) -> Result<usize, Refusal> {
    refused(number)?;
    Ok(length)
}

fn refused(number: u8) -> Result<(), Refusal> {
    match number {
        0 => Ok(()),
        number => Err(Refusal::from_number(number)),
    }
}
