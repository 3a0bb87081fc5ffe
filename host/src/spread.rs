//! One list spread over several threads.
//!
//! The list is cut into runs of whole blocks. Each thread takes one run after the other and seals it straight into its place in
//! one output. The records are then joined and closed. It is proved of the library that no cut makes a difference.
//!
//! A thread that cannot be started is done without: the others, of which the calling one is always there, take its runs.

use std::ops::Range;
use std::panic::resume_unwind;
use std::sync::{Mutex, PoisonError};
use std::thread::{self, Builder};

use crate::any_tag::AnyTag;
use crate::finish::Finish;
use crate::key::Key;
use crate::record::{close_with, join_list, test_with, RunRecord};
use crate::refusal::Refusal;
use crate::run::{check_run, seal_run_into, Kind};
use crate::sizes::{around, padded_blocks, sealed_room_with, BLOCK, LIMIT, LONGEST_MESSAGE};
use crate::values::Iv;

/// Seals a message in runs, on threads, and gives the very bytes of [`seal`](crate::seal).
///
/// There are at most as many runs as blocks and as many threads as runs, and at least one of each. The calling thread is one;
/// where others cannot be started there are fewer.
///
/// # Errors
///
/// Those of [`seal`](crate::seal).
///
/// ```
/// use balzenoh::{seal, seal_in_runs, Iv, Key};
///
/// let (key, iv, list) = (Key::from([7; 16]), Iv::from([1; 16]), b"parcel 4711 -> cage 12");
/// assert_eq!(seal_in_runs(&key, &iv, list, 2, 2), seal(&key, &iv, list));
/// ```
pub fn seal_in_runs(key: &Key, iv: &Iv, message: &[u8], runs: usize, threads: usize) -> Result<Vec<u8>, Refusal> {
    seal_in_runs_with(Finish::Cipher, key, iv, message, runs, threads)
}

/// Seals a message in runs, on threads, with this finish, and gives the very bytes of [`seal_with`](crate::seal_with). Runs and
/// threads are as many as in [`seal_in_runs`].
///
/// # Errors
///
/// Those of [`seal`](crate::seal).
///
/// ```
/// use balzenoh::{seal_in_runs_with, seal_with, Finish, Iv, Key};
///
/// let (key, iv, list) = (Key::from([7; 16]), Iv::from([1; 16]), b"parcel 4711 -> cage 12");
/// assert_eq!(seal_in_runs_with(Finish::Sha1, &key, &iv, list, 2, 2), seal_with(Finish::Sha1, &key, &iv, list));
/// ```
pub fn seal_in_runs_with(
    finish: Finish,
    key: &Key,
    iv: &Iv,
    message: &[u8],
    runs: usize,
    threads: usize,
) -> Result<Vec<u8>, Refusal> {
    seal_in_runs_watched(finish, key, iv, message, runs, threads, |_| ())
}

/// The same as [`seal_in_runs_with`], for a program that shows how far it is. Each time a run is sealed, `done` is called with the
/// number of its blocks, on the thread that sealed it, so perhaps on several threads at once. The runs have all blocks of the list
/// together: one for each 16 bytes of the message, and one more ([`padded_blocks`]).
///
/// # Errors
///
/// Those of [`seal`](crate::seal).
///
/// ```
/// use balzenoh::{seal_in_runs_watched, Finish, Iv, Key, Refusal};
/// use std::sync::atomic::{AtomicUsize, Ordering};
///
/// let (key, iv, list) = (Key::from([7; 16]), Iv::from([1; 16]), [b'x'; 1_000]);
/// let sealed = AtomicUsize::new(0);
/// let done = |blocks| {
///     let now = sealed.fetch_add(blocks, Ordering::Relaxed) + blocks;
///     println!("{now} of 63 blocks");
/// };
/// seal_in_runs_watched(Finish::Cipher, &key, &iv, &list, 8, 2, done)?;
/// assert_eq!(sealed.into_inner(), 63);
/// # Ok::<(), Refusal>(())
/// ```
pub fn seal_in_runs_watched(
    finish: Finish,
    key: &Key,
    iv: &Iv,
    message: &[u8],
    runs: usize,
    threads: usize,
    done: impl Fn(usize) + Sync,
) -> Result<Vec<u8>, Refusal> {
    if message.len() > LONGEST_MESSAGE {
        return Err(Refusal::Length);
    }
    let blocks = padded_blocks(message.len());
    let mut sealed = vec![0; sealed_room_with(finish, message.len())];
    let ciphertext = &mut sealed[BLOCK..][..blocks * BLOCK];
    let mut jobs = sealing_jobs(message, ciphertext, &cut(blocks, runs));
    let records = share_out(&mut jobs, threads, |job| {
        let (_, record) = seal_run_into(key, iv, job.first, job.kind, job.bytes, job.out)?;
        done(record.count as usize);
        Ok(record)
    })?;
    let tag = close_with(finish, key, iv, &join_list(&records)?)?;
    sealed[..BLOCK].copy_from_slice(iv.as_bytes());
    sealed[(blocks + 1) * BLOCK..].copy_from_slice(tag.as_bytes());
    Ok(sealed)
}

/// Checks a sealed record in runs, on threads. It passes where [`open`](crate::open) gives a message, or refuses for the padding
/// alone ([`Refusal::Padding`]): checking sees no plaintext. Runs and threads are as many as in [`seal_in_runs`].
///
/// # Errors
///
/// Those of [`open`](crate::open) but [`Refusal::Padding`].
///
/// ```
/// use balzenoh::{check_in_runs, seal, Iv, Key, Refusal};
///
/// let key = Key::from([7; 16]);
/// let sealed = seal(&key, &Iv::from([1; 16]), b"parcel 4711 -> cage 12")?;
/// assert_eq!(check_in_runs(&key, &sealed, 2, 2), Ok(()));
/// assert_eq!(check_in_runs(&Key::from([8; 16]), &sealed, 2, 2), Err(Refusal::TagDiffers));
/// # Ok::<(), Refusal>(())
/// ```
pub fn check_in_runs(key: &Key, sealed: &[u8], runs: usize, threads: usize) -> Result<(), Refusal> {
    check_in_runs_with(Finish::Cipher, key, sealed, runs, threads)
}

/// Checks a sealed record in runs, on threads, with this finish. It passes where [`open_with`](crate::open_with) gives a message,
/// or refuses for the padding alone. Runs and threads are as many as in [`seal_in_runs`].
///
/// # Errors
///
/// Those of [`open_with`](crate::open_with) but [`Refusal::Padding`].
///
/// ```
/// use balzenoh::{check_in_runs_with, seal_with, Finish, Iv, Key, Refusal};
///
/// let key = Key::from([7; 16]);
/// let sealed = seal_with(Finish::Sha1, &key, &Iv::from([1; 16]), b"parcel 4711 -> cage 12")?;
/// assert_eq!(check_in_runs_with(Finish::Sha1, &key, &sealed, 2, 2), Ok(()));
/// assert_eq!(check_in_runs_with(Finish::Cipher, &key, &sealed, 2, 2), Err(Refusal::Length));
/// # Ok::<(), Refusal>(())
/// ```
pub fn check_in_runs_with(finish: Finish, key: &Key, sealed: &[u8], runs: usize, threads: usize) -> Result<(), Refusal> {
    check_in_runs_watched(finish, key, sealed, runs, threads, |_| ())
}

/// The same as [`check_in_runs_with`], for a program that shows how far it is: `done` is called as that of [`seal_in_runs_watched`]
/// is.
///
/// # Errors
///
/// Those of [`open_with`](crate::open_with) but [`Refusal::Padding`].
///
/// ```
/// use balzenoh::{check_in_runs_watched, seal, Finish, Iv, Key, Refusal};
/// use std::sync::atomic::{AtomicUsize, Ordering};
///
/// let key = Key::from([7; 16]);
/// let sealed = seal(&key, &Iv::from([1; 16]), &[b'x'; 1_000])?;
/// let checked = AtomicUsize::new(0);
/// let done = |blocks| {
///     checked.fetch_add(blocks, Ordering::Relaxed);
/// };
/// check_in_runs_watched(Finish::Cipher, &key, &sealed, 8, 2, done)?;
/// assert_eq!(checked.into_inner(), 63);
/// # Ok::<(), Refusal>(())
/// ```
pub fn check_in_runs_watched(
    finish: Finish,
    key: &Key,
    sealed: &[u8],
    runs: usize,
    threads: usize,
    done: impl Fn(usize) + Sync,
) -> Result<(), Refusal> {
    let ciphertext = sealed.len().saturating_sub(around(finish));
    let blocks = ciphertext / BLOCK;
    if !ciphertext.is_multiple_of(BLOCK) || blocks == 0 || blocks > LIMIT {
        return Err(Refusal::Length);
    }
    let iv = Iv::from_slice(&sealed[..BLOCK])?;
    let tag = AnyTag::from_slice(&sealed[(blocks + 1) * BLOCK..])?;
    let ciphertext = &sealed[BLOCK..][..blocks * BLOCK];
    let records = share_out(&mut cut(blocks, runs), threads, |run| {
        let record = check_run(key, &iv, run.start as u32, &ciphertext[run.start * BLOCK..run.end * BLOCK])?;
        done(run.len());
        Ok(record)
    })?;
    test_with(finish, key, &iv, &join_list(&records)?, &tag)
}

/// A run to seal: what is read, and the part of the output that is its own.
struct Job<'a> {
    first: u32,
    kind: Kind,
    bytes: &'a [u8],
    out: &'a mut [u8],
}

/// Cuts blocks into runs that are as even as can be.
fn cut(blocks: usize, runs: usize) -> Vec<Range<usize>> {
    let runs = runs.clamp(1, blocks);
    (0..runs).map(|run| run * blocks / runs..(run + 1) * blocks / runs).collect()
}

/// Gives each run its bytes of the message and its part of the ciphertext.
fn sealing_jobs<'a>(message: &'a [u8], ciphertext: &'a mut [u8], runs: &[Range<usize>]) -> Vec<Job<'a>> {
    let mut rest = ciphertext;
    let mut jobs = Vec::with_capacity(runs.len());
    for (index, run) in runs.iter().enumerate() {
        let (out, after) = rest.split_at_mut(run.len() * BLOCK);
        rest = after;
        // The last run has the rest of the message, which is less than its blocks: the padding is added in sealing.
        let last = index + 1 == runs.len();
        let kind = if last { Kind::Last } else { Kind::Middle };
        let end = if last { message.len() } else { run.end * BLOCK };
        jobs.push(Job { first: run.start as u32, kind, bytes: &message[run.start * BLOCK..end], out });
    }
    jobs
}

/// Does the jobs on threads, the calling one among them, and gives their records in order, or the first refusal.
fn share_out<J: Send>(
    jobs: &mut [J],
    threads: usize,
    work: impl Fn(&mut J) -> Result<RunRecord, Refusal> + Sync,
) -> Result<Vec<RunRecord>, Refusal> {
    let others = threads.min(jobs.len()).saturating_sub(1);
    let waiting = Mutex::new(jobs.iter_mut().enumerate());
    let next = || waiting.lock().unwrap_or_else(PoisonError::into_inner).next();
    let take_jobs = || std::iter::from_fn(next).map(|(place, job)| (place, work(job))).collect::<Vec<_>>();
    let mut done = thread::scope(|scope| {
        let start = |_| Builder::new().spawn_scoped(scope, take_jobs).ok();
        let started: Vec<_> = (0..others).map_while(start).collect();
        let mut done = take_jobs();
        for thread in started {
            done.extend(thread.join().unwrap_or_else(|panic| resume_unwind(panic)));
        }
        done
    });
    done.sort_by_key(|(place, _)| *place);
    done.into_iter().map(|(_, record)| record).collect()
}
