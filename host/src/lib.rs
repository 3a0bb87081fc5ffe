//! Sealed route lists: Cipher-State mode over AES-128, or over AES-256 under a key of 32 bytes.
//!
//! The work is done by a static library in which every function is proved to meet its contract. This crate is a thin layer over
//! it and is not proved itself: it hands slices over, turns the numbers of refusals into [`Refusal`], and spreads a list over
//! threads.
//!
//! A list of up to 16,777,215 bytes is sealed under a key and an IV. Opening gives the list back, or refuses: nothing of a list
//! whose tag differs is handed out, or written to a lent output. An IV must not be used twice under one key: two lists under one IV
//! show in which blocks they differ.
//!
//! ```
//! use balzenoh::{open, seal, Iv, Key, Refusal};
//!
//! let key = Key::from([7; 16]);
//! let iv = Iv::from([1; 16]);
//! let list = b"parcel 4711 -> cage 12";
//!
//! let mut sealed = seal(&key, &iv, list)?;
//! assert_eq!(open(&key, &sealed)?, list);
//!
//! // One bit on the way is enough.
//! sealed[20] ^= 1;
//! assert_eq!(open(&key, &sealed), Err(Refusal::TagDiffers));
//! # Ok::<(), Refusal>(())
//! ```
//!
//! A tag is made by the cipher, or by SHA-1 for verifiers that expect the paper's tag of 20 bytes: [`Finish`] says which, in the
//! functions whose names end in `_with`. The others go by the cipher.
//!
//! A [`Key`] and the pre-authenticator of a [`RunRecord`] are not printed, and are wiped at their end.
//!
//! | call | on typed values | on plain slices |
//! |---|---|---|
//! | seal a list | [`seal`], [`seal_into`], [`seal_in_runs`] | [`raw::seal`] |
//! | the same with a finish | [`seal_with`], [`seal_into_with`], [`seal_in_runs_with`], [`seal_in_runs_watched`] | [`raw::seal_with`] |
//! | open it | [`open`], [`open_into`] | [`raw::open`] |
//! | the same with a finish | [`open_with`], [`open_into_with`] | [`raw::open_with`] |
//! | seal a run of its blocks | [`seal_run`], [`seal_run_into`] | [`raw::seal_run`] |
//! | check a run of its ciphertext, or all of it in runs | [`check_run`], [`check_in_runs`], [`check_in_runs_with`], [`check_in_runs_watched`] | [`raw::check_run`] |
//! | join run records | [`RunRecord::join`], [`join_list`] | [`raw::join`], [`raw::join_list`] |
//! | close a record into its tag | [`close`], [`close_with`] | [`raw::close`], [`raw::close_with`] |
//! | test a tag | [`test`](fn@test), [`test_with`] | [`raw::test`], [`raw::test_with`] |
//! | jump a mask, forward or back | [`jump`] | [`raw::jump`] |
//! | SHA-1 of a text | [`sha1`] | [`raw::sha1`] |

#![deny(unsafe_code)]
#![warn(missing_docs)]

mod abi;
mod any_tag;
mod digest;
#[allow(unsafe_code)]
mod ffi;
mod finish;
pub mod hex;
mod key;
mod mask;
pub mod raw;
mod record;
mod refusal;
mod run;
pub mod sizes;
mod spread;
mod values;
mod whole;
#[allow(unsafe_code)]
mod wipe;

pub use any_tag::AnyTag;
pub use digest::sha1;
pub use finish::Finish;
pub use key::Key;
pub use mask::jump;
pub use record::{close, close_with, join_list, test, test_with, RunRecord};
pub use refusal::{Refusal, UnknownNumber};
pub use run::{check_run, seal_run, seal_run_into, Kind};
pub use spread::{check_in_runs, check_in_runs_watched, check_in_runs_with};
pub use spread::{seal_in_runs, seal_in_runs_watched, seal_in_runs_with};
pub use values::{Iv, Tag};
pub use whole::{open, open_into, open_into_with, open_with, seal, seal_into, seal_into_with, seal_with};
