//! Step 1 that comes to zero. Every key has one IV for that, and its first 16 bytes then replace the start mask. Where they are
//! zeros, they replace it by zero: a mask of nothing, under which every call with a key refuses with 10.

use crate::support::aesni::{self, AesNi};
use crate::support::bench::Bench;
use crate::support::call::Call;
use crate::support::cipher::Cipher;
use crate::support::finish::FINISHES;
use crate::support::fips197::Fips197;
use crate::support::mode::{iv_of_zero_mask, Mode};
use crate::support::openssl::{openssl, Way};
use crate::support::pairs::{self, Pair, KEY_LENGTHS, NO_KEYS};
use crate::support::plan;
use crate::support::sealed_list::SealedList;

/// Every call with a key, on a short list under a pair that is taken.
fn every_call_succeeds(bench: &mut Bench, pair: Pair) {
    let length = bench.random.below(100);
    for call in SealedList::new(&mut bench.random, pair, length).calls() {
        assert_eq!(bench.check(&call).number, 0, "{call:02X?}");
    }
}

#[test]
fn the_key_replaces_a_start_mask_of_zero() {
    let mut bench = Bench::new(plan::REPLACED_MASKS);
    for (round, length) in (0..plan::REPLACED_MASKS.calls / 20).flat_map(|round| KEY_LENGTHS.map(|length| (round, length))) {
        let lent = if round < 128 { pairs::one_bit(round as usize) } else { bench.random.block() };
        let (key, iv) = pairs::replaced(&pairs::lending(&mut bench.random, lent, length));
        assert_eq!(Mode::<Fips197>::new(&key, &iv).start_mask.to_be_bytes(), lent);
        every_call_succeeds(&mut bench, (key, iv));
    }
    bench.finish();
}

/// A long key whose last 16 bytes are zeros, with the IV under which it would mask nothing if it lent those.
#[test]
fn the_last_bytes_of_a_long_key_are_not_lent() {
    let mut bench = Bench::new(plan::LAST_BYTES);
    for round in 0..plan::LAST_BYTES.calls / 10 {
        let lent = if round < 128 { pairs::one_bit(round as usize) } else { bench.random.block() };
        let key = [lent, [0; 16]].concat();
        let iv = Fips197::new(&key).decrypt(0).to_be_bytes();
        every_call_succeeds(&mut bench, (key, iv));
    }
    bench.finish();
}

/// By both ciphers run backwards, and by OpenSSL both ways.
#[test]
fn the_iv_of_a_mask_of_nothing() {
    for (key, iv) in NO_KEYS.map(pairs::replaced) {
        assert_eq!(Mode::<Fips197>::new(&key, &iv).start_mask, 0);
        if aesni::available() {
            assert_eq!(iv_of_zero_mask::<AesNi>(&key), iv);
        }
        match openssl(Way::Decrypt, &key, &[0; 16]) {
            Some(found) => {
                assert_eq!(found, iv);
                assert_eq!(openssl(Way::Encrypt, &key, &iv), Some(vec![0; 16]));
            }
            None => println!("no openssl program here: skipped"),
        }
    }
}

#[test]
fn every_call_with_a_key_refuses_a_mask_of_nothing() {
    let mut bench = Bench::new(plan::NO_MASK);
    for round in 0..plan::NO_MASK.calls / 12 {
        let length = match round {
            0 => 63_999,
            1..100 => round as usize - 1,
            _ => bench.random.below(1_000),
        };
        let pair = pairs::of_nothing(&mut bench.random);
        let list = SealedList::new(&mut bench.random, pair, length);
        for call in list.calls() {
            bench.refuses(10, &call);
        }
        the_others_do_not(&mut bench, &list);
    }
    bench.finish();
}

/// Records join, whatever their mask was, and a mask of zero jumps.
fn the_others_do_not(bench: &mut Bench, list: &SealedList) {
    let cut = bench.random.within(0, list.blocks());
    let (left, right) = (&list.record_of(0, cut), &list.record_of(cut, list.blocks()));
    assert_eq!(bench.check(&Call::Join { left, right, record_room: 24 }).record, list.record);
    let distance = bench.random.within(0, 2_097_152) as i32 - 1_048_576;
    let jumped = bench.check(&Call::Jump { mask: &[0; 16], distance, room: 16 });
    assert_eq!((jumped.number, &jumped.out[..]), (0, &[0; 16][..]));
}

/// A run of no block too, from before the first block of a list to behind its last.
#[test]
fn empty_runs_are_refused_too() {
    let mut bench = Bench::new(plan::NO_MASK_EMPTY);
    for first in (0..=4_001).chain(1_048_570..=1_048_577).chain([1 << 31, u32::MAX]) {
        let (key, iv) = &pairs::of_nothing(&mut bench.random);
        let number = if first > 1_048_576 { 4 } else { 10 };
        for record_room in [0, 23, 24] {
            let sealing = Call::SealRun { key, iv, first, last: false, bytes: &[], room: 0, record_room };
            bench.refuses(number, &sealing);
            bench.refuses(number, &Call::CheckRun { key, iv, first, bytes: &[], record_room });
        }
    }
    bench.finish();
}

/// Under keys that lend zeros with every IV that is one bit off, under every key that is, and under such keys with any IV.
#[test]
fn next_to_a_mask_of_nothing_lists_are_sealed() {
    let mut bench = Bench::new(plan::NEAR_NO_MASK);
    for key in NO_KEYS {
        for at in 0..128 {
            every_call_succeeds(&mut bench, pairs::one_bit_from_the_iv(key, at));
            damaged_to_a_mask_of_nothing(&mut bench, key, at);
            let another_iv = bench.random.block();
            every_call_succeeds(&mut bench, (key.to_vec(), another_iv));
        }
        for at in 0..8 * key.len() {
            every_call_succeeds(&mut bench, pairs::one_bit_from_the_key(key, at));
        }
    }
    bench.finish();
}

/// A list that is sealed under a key that lends zeros, with its IV then damaged in one bit: 10, and not 6.
fn damaged_to_a_mask_of_nothing(bench: &mut Bench, key: &[u8], at: usize) {
    let list = SealedList::new(&mut bench.random, pairs::one_bit_from_the_iv(key, at), 50);
    for finish in FINISHES {
        let mut sealed = list.sealed(finish).to_vec();
        sealed[..16].copy_from_slice(&pairs::replaced(key).1);
        bench.refuses(10, &Call::Open { finish, key, sealed: &sealed, room: sealed.len() });
    }
}
