//! The calls of the library, held against other implementations.
//!
//! All topics are modules of one program, so that they run beside each other on all cores. `cargo test -- --nocapture` prints how
//! many calls each topic made.

#[path = "../support/mod.rs"]
mod support;

#[cfg(bare_cipher)]
mod bare_cipher;
mod c_interface;
mod changes;
mod closing;
mod cuts;
mod damage;
mod documentation;
mod finishes;
mod groups;
mod joining;
mod jumping;
mod keys;
mod longest;
mod masks;
#[cfg(not(bare_cipher))]
mod no_bare_cipher;
mod opening;
mod opening_rooms;
mod runs;
mod sealing;
mod secrets;
mod sha1;
mod spread;
mod start_mask;
mod stored;
mod typed;
mod vectors;
mod words;
mod zero_mask;
mod zero_mask_rows;
