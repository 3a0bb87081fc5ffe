//! Sealing and checking runs: consecutive blocks of a list, each run by itself.

use crate::key::Key;
use crate::raw;
use crate::record::RunRecord;
use crate::refusal::Refusal;
use crate::sizes::{run_room, RECORD};
use crate::values::Iv;
use crate::wipe::Wiped;

/// Whether other runs follow.
///
/// ```
/// use balzenoh::{seal_run, Iv, Key, Kind, Refusal};
///
/// let (key, iv) = (Key::from([7; 16]), Iv::from([1; 16]));
/// assert_eq!(seal_run(&key, &iv, 0, Kind::Middle, &[0; 16])?.0.len(), 16);
/// assert_eq!(seal_run(&key, &iv, 1, Kind::Last, &[0; 16])?.0.len(), 32);
/// # Ok::<(), Refusal>(())
/// ```
#[derive(Clone, Copy, Debug, PartialEq, Eq)]
pub enum Kind {
    /// Whole blocks, zero allowed.
    Middle,
    /// Any length; it gets the padding.
    Last,
}

/// Seals the run that starts at block `first`. The answer is its ciphertext and its record.
///
/// # Errors
///
/// [`Refusal::Length`] for a middle run that is no multiple of 16 bytes, [`Refusal::BeyondLimit`] for one that ends beyond the
/// limit of 1,048,576 blocks, [`Refusal::ZeroMask`] where key and IV are the pair that [`seal`](crate::seal) refuses, for an empty
/// run too.
///
/// ```
/// use balzenoh::{close, seal, seal_run, Iv, Key, Kind, Refusal};
///
/// let (key, iv) = (Key::from([7; 16]), Iv::from([1; 16]));
/// let (start, left) = seal_run(&key, &iv, 0, Kind::Middle, b"parcel 4711 -> c")?;
/// let (end, right) = seal_run(&key, &iv, 1, Kind::Last, b"age 12")?;
/// let tag = close(&key, &iv, &left.join(&right)?)?;
/// let together = [iv.as_ref(), &start, &end, tag.as_ref()].concat();
/// assert_eq!(together, seal(&key, &iv, b"parcel 4711 -> cage 12")?);
/// # Ok::<(), Refusal>(())
/// ```
pub fn seal_run(key: &Key, iv: &Iv, first: u32, kind: Kind, bytes: &[u8]) -> Result<(Vec<u8>, RunRecord), Refusal> {
    let mut out = vec![0; run_room(bytes.len(), kind == Kind::Last)];
    let (length, record) = seal_run_into(key, iv, first, kind, bytes, &mut out)?;
    out.truncate(length);
    Ok((out, record))
}

/// Seals a run into a lent output and returns the ciphertext's length and the record. All bytes beyond it are zero; on a refusal
/// all are.
///
/// # Errors
///
/// Those of [`seal_run`], and [`Refusal::OutputTooShort`] for an output below [`run_room`](crate::sizes::run_room) of the run.
///
/// ```
/// use balzenoh::{seal_run_into, Iv, Key, Kind, Refusal};
///
/// let (key, iv) = (Key::from([7; 16]), Iv::from([1; 16]));
/// let mut out = [0xA5; 48];
/// let (length, record) = seal_run_into(&key, &iv, 9, Kind::Last, b"parcel 4711 -> cage 12", &mut out)?;
/// assert_eq!((length, record.first, record.count), (32, 9, 2));
/// assert_eq!(out[32..], [0; 16]);
/// # Ok::<(), Refusal>(())
/// ```
pub fn seal_run_into(
    key: &Key,
    iv: &Iv,
    first: u32,
    kind: Kind,
    bytes: &[u8],
    out: &mut [u8],
) -> Result<(usize, RunRecord), Refusal> {
    let last = kind == Kind::Last;
    let mut record = Wiped([0; RECORD]);
    let length = raw::seal_run(key.as_bytes(), iv.as_bytes(), first, last, bytes, out, &mut *record)?;
    Ok((length, RunRecord::from_bytes(&*record)?))
}

/// Checks a run of ciphertext: its record, as sealing the run would give it, and no plaintext.
///
/// # Errors
///
/// [`Refusal::Length`] for a run that is no multiple of 16 bytes, [`Refusal::BeyondLimit`] for one that ends beyond the limit of
/// 1,048,576 blocks, [`Refusal::ZeroMask`] where key and IV are the pair that [`seal`](crate::seal) refuses, for an empty run too.
///
/// ```
/// use balzenoh::{check_run, seal_run, Iv, Key, Kind, Refusal};
///
/// let (key, iv) = (Key::from([7; 16]), Iv::from([1; 16]));
/// let (ciphertext, record) = seal_run(&key, &iv, 9, Kind::Last, b"parcel 4711 -> cage 12")?;
/// assert_eq!(check_run(&key, &iv, 9, &ciphertext), Ok(record));
/// # Ok::<(), Refusal>(())
/// ```
pub fn check_run(key: &Key, iv: &Iv, first: u32, ciphertext: &[u8]) -> Result<RunRecord, Refusal> {
    let mut record = Wiped([0; RECORD]);
    raw::check_run(key.as_bytes(), iv.as_bytes(), first, ciphertext, &mut *record)?;
    RunRecord::from_bytes(&*record)
}
