//! Back to the start mask: from the first mask of a run and from the mask of closing, as the library itself used them.
//!
//! No call gives a mask. But what a call gives was made from something plus the mask, and the cipher run the other way shows it.

use balzenoh::{check_run, close, jump, seal_run, Iv, Key, Kind, RunRecord};

use crate::support::cipher::Cipher;
use crate::support::fips197::Fips197;
use crate::support::mode::{number, Mode};
use crate::support::pairs;
use crate::support::random::Random;

/// A mask, jumped back by so many blocks, is the start mask.
fn must_lead_back(mask: u128, blocks: u32, start_mask: u128) {
    assert_eq!(jump(&mask.to_be_bytes(), -(blocks as i32)), Ok(start_mask.to_be_bytes()), "back by {blocks}");
}

/// The record of one block has its middletext.
fn middletext(record: &RunRecord) -> u128 {
    u128::from_be_bytes(record.preauthenticator)
}

#[test]
fn a_runs_first_mask_jumped_back_by_its_first_block() {
    let mut random = Random::new(53);
    for first in (0..4_000).chain(1_048_476..1_048_576) {
        let ((key, iv), block) = (pairs::sealing(&mut random), random.block());
        let Mode { cipher, start_mask, .. } = Mode::<Fips197>::new(&key, &iv);
        let (key, iv) = (Key::from_slice(&key).expect("a key"), Iv::from(iv));
        let (ciphertext, record) = seal_run(&key, &iv, first, Kind::Middle, &block).expect("one block within the limit");
        must_lead_back(cipher.first_half_back(middletext(&record)) ^ number(&block), first, start_mask);
        let record = check_run(&key, &iv, first, &ciphertext).expect("one block within the limit");
        must_lead_back(cipher.second_half(middletext(&record)) ^ number(&ciphertext), first, start_mask);
    }
}

#[test]
fn the_mask_of_closing_jumped_back_by_the_count() {
    let mut random = Random::new(54);
    for count in (1..=4_000).chain(1_048_477..=1_048_576) {
        let ((key, iv), preauthenticator) = (pairs::sealing(&mut random), random.block());
        let Mode { cipher, start_mask, .. } = Mode::<Fips197>::new(&key, &iv);
        let record = RunRecord { first: 0, count, preauthenticator };
        let key = Key::from_slice(&key).expect("a key");
        let tag = close(&key, &Iv::from(iv), &record).expect("the record of a whole list");
        let preauthenticator = number(&preauthenticator);
        must_lead_back(cipher.decrypt(number(tag.as_bytes()) ^ preauthenticator) ^ preauthenticator, count, start_mask);
    }
}
