//! Run records: joining them, closing one into its tag, testing a tag.

use std::fmt;
use std::str::FromStr;

use crate::any_tag::AnyTag;
use crate::finish::Finish;
use crate::hex;
use crate::key::Key;
use crate::raw;
use crate::refusal::Refusal;
use crate::sizes::{BLOCK, DIGEST, RECORD};
use crate::values::{Iv, Tag};
use crate::wipe::{wipe, Wiped};

/// What is kept of a run: where it starts, how many blocks it has, and the pre-authenticator of the run alone.
///
/// The mode counts on pre-authenticators never being seen: keep records where the key is kept. The pre-authenticator is not
/// printed, and is wiped at the record's end. A record that is moved may leave its bytes where it was.
///
/// ```
/// use balzenoh::{check_run, Iv, Key, Refusal, RunRecord};
///
/// let record = check_run(&Key::from([7; 16]), &Iv::from([1; 16]), 5, &[0; 32])?;
/// assert_eq!((record.first, record.count), (5, 2));
/// assert_eq!(format!("{record:?}"), "RunRecord { first: 5, count: 2, .. }");
/// # Ok::<(), Refusal>(())
/// ```
#[derive(Clone, PartialEq, Eq)]
pub struct RunRecord {
    /// The number of its first block, from 0.
    pub first: u32,
    /// The number of its blocks.
    pub count: u32,
    /// The pre-authenticator, begun from zero.
    pub preauthenticator: [u8; BLOCK],
}

impl RunRecord {
    /// The 24 bytes: first block and count as big-endian numbers, then the pre-authenticator.
    ///
    /// The bytes are the caller's, and nothing wipes them.
    ///
    /// ```
    /// use balzenoh::RunRecord;
    ///
    /// let record = RunRecord { first: 5, count: 2, preauthenticator: [9; 16] };
    /// assert_eq!(record.to_bytes()[..9], [0, 0, 0, 5, 0, 0, 0, 2, 9]);
    /// ```
    pub fn to_bytes(&self) -> [u8; RECORD] {
        *self.encoded()
    }

    /// The 24 bytes, wiped at their end.
    fn encoded(&self) -> Wiped<[u8; RECORD]> {
        let mut bytes = Wiped([0; RECORD]);
        bytes[..4].copy_from_slice(&self.first.to_be_bytes());
        bytes[4..8].copy_from_slice(&self.count.to_be_bytes());
        bytes[8..].copy_from_slice(&self.preauthenticator);
        bytes
    }

    /// Takes 24 bytes.
    ///
    /// # Errors
    ///
    /// [`Refusal::RecordLength`] for any other number of bytes.
    ///
    /// ```
    /// use balzenoh::{Refusal, RunRecord};
    ///
    /// let record = RunRecord { first: 5, count: 2, preauthenticator: [9; 16] };
    /// assert_eq!(RunRecord::from_bytes(&record.to_bytes()), Ok(record));
    /// assert_eq!(RunRecord::from_bytes(&[0; 23]), Err(Refusal::RecordLength));
    /// ```
    pub fn from_bytes(bytes: &[u8]) -> Result<Self, Refusal> {
        let bytes: &[u8; RECORD] = bytes.try_into().map_err(|_| Refusal::RecordLength)?;
        let number = |at: usize| u32::from_be_bytes([bytes[at], bytes[at + 1], bytes[at + 2], bytes[at + 3]]);
        let mut record = Self { first: number(0), count: number(4), preauthenticator: [0; BLOCK] };
        record.preauthenticator.copy_from_slice(&bytes[8..]);
        Ok(record)
    }

    /// Joins this record with its right neighbour's.
    ///
    /// # Errors
    ///
    /// [`Refusal::BeyondLimit`] where a record reaches beyond the limit of 1,048,576 blocks, [`Refusal::NotNeighbours`] where the
    /// right one does not start at the block where this one ends.
    ///
    /// ```
    /// use balzenoh::{seal_run, Iv, Key, Kind, Refusal};
    ///
    /// let (key, iv) = (Key::from([7; 16]), Iv::from([1; 16]));
    /// let (_, left) = seal_run(&key, &iv, 0, Kind::Middle, b"parcel 4711 -> c")?;
    /// let (_, right) = seal_run(&key, &iv, 1, Kind::Last, b"age 12")?;
    /// assert_eq!(left.join(&right)?.count, 2);
    /// assert_eq!(right.join(&left), Err(Refusal::NotNeighbours));
    /// # Ok::<(), Refusal>(())
    /// ```
    pub fn join(&self, right: &Self) -> Result<Self, Refusal> {
        let mut joined = Wiped([0; RECORD]);
        raw::join(&*self.encoded(), &*right.encoded(), &mut *joined)?;
        Self::from_bytes(&*joined)
    }
}

impl TryFrom<&[u8]> for RunRecord {
    type Error = Refusal;

    fn try_from(bytes: &[u8]) -> Result<Self, Refusal> {
        Self::from_bytes(bytes)
    }
}

/// Reads 48 hexadecimal digits. Any other text is refused as a wrong number of bytes is.
impl FromStr for RunRecord {
    type Err = Refusal;

    fn from_str(text: &str) -> Result<Self, Refusal> {
        let mut bytes = Wiped([0; RECORD]);
        hex::decode_into(text, &mut *bytes).map_err(|_| Refusal::RecordLength)?;
        Self::from_bytes(&*bytes)
    }
}

impl Drop for RunRecord {
    fn drop(&mut self) {
        wipe(&mut self.preauthenticator);
    }
}

impl fmt::Debug for RunRecord {
    fn fmt(&self, f: &mut fmt::Formatter<'_>) -> fmt::Result {
        f.debug_struct("RunRecord").field("first", &self.first).field("count", &self.count).finish_non_exhaustive()
    }
}

/// Joins records that stand in message order. A list of one gives that record. Runs of one length are joined faster so than two at
/// a time.
///
/// # Errors
///
/// [`Refusal::BeyondLimit`] where a record reaches beyond the limit of 1,048,576 blocks, [`Refusal::NotNeighbours`] where one does
/// not
/// start at the block where the one before it ends, [`Refusal::NotWhole`] for an empty list.
///
/// ```
/// use balzenoh::{check_run, join_list, Iv, Key, Refusal};
///
/// let (key, iv) = (Key::from([7; 16]), Iv::from([1; 16]));
/// let runs = [check_run(&key, &iv, 0, &[0; 16])?, check_run(&key, &iv, 1, &[0; 32])?, check_run(&key, &iv, 3, &[0; 16])?];
/// assert_eq!(join_list(&runs), check_run(&key, &iv, 0, &[0; 64]));
/// assert_eq!(join_list(&[]), Err(Refusal::NotWhole));
/// # Ok::<(), Refusal>(())
/// ```
pub fn join_list(records: &[RunRecord]) -> Result<RunRecord, Refusal> {
    // With room for all from the start, no bytes are left in a place that was too small.
    let mut bytes = Wiped(Vec::with_capacity(records.len() * RECORD));
    for record in records {
        bytes.extend_from_slice(&*record.encoded());
    }
    let mut joined = Wiped([0; RECORD]);
    raw::join_list(&bytes, &mut *joined)?;
    RunRecord::from_bytes(&*joined)
}

/// Closes the record of a whole list into its tag.
///
/// # Errors
///
/// [`Refusal::BeyondLimit`] where the record reaches beyond the limit of 1,048,576 blocks, [`Refusal::NotWhole`] where it does not
/// start at block 0 or has no block, [`Refusal::ZeroMask`] where key and IV are the pair that [`seal`](crate::seal) refuses.
///
/// ```
/// use balzenoh::{close, seal, seal_run, Iv, Key, Kind, Refusal};
///
/// let (key, iv, list) = (Key::from([7; 16]), Iv::from([1; 16]), b"parcel 4711 -> cage 12");
/// let (_, record) = seal_run(&key, &iv, 0, Kind::Last, list)?;
/// assert!(seal(&key, &iv, list)?.ends_with(close(&key, &iv, &record)?.as_bytes()));
/// # Ok::<(), Refusal>(())
/// ```
pub fn close(key: &Key, iv: &Iv, record: &RunRecord) -> Result<Tag, Refusal> {
    let mut tag = [0; BLOCK];
    raw::close(key.as_bytes(), iv.as_bytes(), &*record.encoded(), &mut tag)?;
    Ok(Tag::from(tag))
}

/// Closes the record of a whole list into its tag by this finish. A record does not know the finish, and closes with either.
///
/// # Errors
///
/// Those of [`close`].
///
/// ```
/// use balzenoh::{close_with, seal_run, seal_with, Finish, Iv, Key, Kind, Refusal};
///
/// let (key, iv, list) = (Key::from([7; 16]), Iv::from([1; 16]), b"parcel 4711 -> cage 12");
/// let (_, record) = seal_run(&key, &iv, 0, Kind::Last, list)?;
/// for finish in Finish::ALL {
///     assert!(seal_with(finish, &key, &iv, list)?.ends_with(close_with(finish, &key, &iv, &record)?.as_bytes()));
/// }
/// # Ok::<(), Refusal>(())
/// ```
pub fn close_with(finish: Finish, key: &Key, iv: &Iv, record: &RunRecord) -> Result<AnyTag, Refusal> {
    let mut tag = [0; DIGEST];
    raw::close_with(finish, key.as_bytes(), iv.as_bytes(), &*record.encoded(), &mut tag)?;
    AnyTag::from_slice(&tag[..finish.tag_length()])
}

/// Tests a tag against the record of a whole list: it passes if closing gives that tag.
///
/// # Errors
///
/// Those of [`close`], and [`Refusal::TagDiffers`].
///
/// ```
/// use balzenoh::{check_run, seal, test, Iv, Key, Refusal, Tag};
///
/// let (key, iv) = (Key::from([7; 16]), Iv::from([1; 16]));
/// let sealed = seal(&key, &iv, b"parcel 4711 -> cage 12")?;
/// let record = check_run(&key, &iv, 0, &sealed[16..48])?;
/// assert_eq!(test(&key, &iv, &record, &Tag::try_from(&sealed[48..])?), Ok(()));
/// assert_eq!(test(&key, &iv, &record, &Tag::from([0; 16])), Err(Refusal::TagDiffers));
/// # Ok::<(), Refusal>(())
/// ```
pub fn test(key: &Key, iv: &Iv, record: &RunRecord, tag: &Tag) -> Result<(), Refusal> {
    raw::test(key.as_bytes(), iv.as_bytes(), &*record.encoded(), tag.as_bytes())
}

/// Tests a tag by this finish against the record of a whole list: it passes if closing with it gives that tag.
///
/// # Errors
///
/// Those of [`close`], [`Refusal::Length`] for a tag by the other finish, and [`Refusal::TagDiffers`].
///
/// ```
/// use balzenoh::{check_run, seal_with, test_with, AnyTag, Finish, Iv, Key, Refusal};
///
/// let (key, iv) = (Key::from([7; 16]), Iv::from([1; 16]));
/// let sealed = seal_with(Finish::Sha1, &key, &iv, b"parcel 4711 -> cage 12")?;
/// let record = check_run(&key, &iv, 0, &sealed[16..48])?;
/// let tag = AnyTag::try_from(&sealed[48..])?;
/// assert_eq!(test_with(Finish::Sha1, &key, &iv, &record, &tag), Ok(()));
/// assert_eq!(test_with(Finish::Cipher, &key, &iv, &record, &tag), Err(Refusal::Length));
/// assert_eq!(test_with(Finish::Sha1, &key, &iv, &record, &AnyTag::from([0; 20])), Err(Refusal::TagDiffers));
/// # Ok::<(), Refusal>(())
/// ```
pub fn test_with(finish: Finish, key: &Key, iv: &Iv, record: &RunRecord, tag: &AnyTag) -> Result<(), Refusal> {
    raw::test_with(finish, key.as_bytes(), iv.as_bytes(), &*record.encoded(), tag.as_bytes())
}
