//! The masks that the library adds. No call gives a mask. But what a call gives was made from something plus the mask, and the cipher
//! run the other way shows it.

use balzenoh::{check_run, close, seal_run, Iv, Key, Kind, RunRecord};

use super::cipher::Cipher;
use super::mode::{number, Mode};
use super::pairs::Pair;

/// The library under one key and IV, and the cipher to look behind it with.
pub struct Masks<C> {
    key: Key,
    iv: Iv,
    cipher: C,
    /// Step 1, by the mode alone.
    pub start_mask: u128,
}

impl<C: Cipher> Masks<C> {
    pub fn new((key, iv): &Pair) -> Self {
        let Mode { cipher, start_mask, .. } = Mode::new(key, iv);
        Self { key: Key::from_slice(key).expect("a key"), iv: Iv::from(*iv), cipher, start_mask }
    }

    /// The mask that was added to this block, sealed as a run of its own.
    pub fn of_sealing(&self, first: u32, block: &[u8; 16]) -> u128 {
        let (_, record) = seal_run(&self.key, &self.iv, first, Kind::Middle, block).expect("one block within the limit");
        self.cipher.first_half_back(middletext(&record)) ^ number(block)
    }

    /// The same of a block of ciphertext that is checked.
    pub fn of_checking(&self, first: u32, block: &[u8; 16]) -> u128 {
        let record = check_run(&self.key, &self.iv, first, block).expect("one block within the limit");
        self.cipher.second_half(middletext(&record)) ^ number(block)
    }

    /// The mask that closing adds to this pre-authenticator of so many blocks.
    pub fn of_closing(&self, count: u32, preauthenticator: [u8; 16]) -> u128 {
        let record = RunRecord { first: 0, count, preauthenticator };
        let tag = close(&self.key, &self.iv, &record).expect("the record of a whole list");
        let preauthenticator = number(&preauthenticator);
        self.cipher.decrypt(number(tag.as_bytes()) ^ preauthenticator) ^ preauthenticator
    }
}

/// The record of one block has its middletext.
fn middletext(record: &RunRecord) -> u128 {
    u128::from_be_bytes(record.preauthenticator)
}
