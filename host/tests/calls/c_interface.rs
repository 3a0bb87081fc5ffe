//! What only a caller in C sees: the reported length after a refusal, every value of `last`, null pointers, and the register of a
//! distance.

#[allow(dead_code)]
#[path = "../../src/abi.rs"]
mod abi;

use std::ptr::{null, null_mut};

use abi::{
    balzenoh_check_run, balzenoh_close, balzenoh_close_sha1, balzenoh_join_list, balzenoh_open, balzenoh_open_sha1, balzenoh_seal,
};
use abi::{balzenoh_seal_run, balzenoh_seal_sha1, balzenoh_sha1, balzenoh_test, balzenoh_test_sha1};

use crate::support::call::Call;
use crate::support::finish::{Finish, FINISHES};
use crate::support::fips197::Fips197;
use crate::support::mode::{padded, Mode};
use crate::support::pairs;
use crate::support::random::Random;
use crate::support::reference;
use crate::support::sealed_list::record;

/// A length that no answer has.
const NOISE: usize = 0x5A5A_5A5A;

type Seal = unsafe extern "C" fn(*const u8, usize, *const u8, usize, *const u8, usize, *mut u8, usize, *mut usize) -> u8;
type Open = unsafe extern "C" fn(*const u8, usize, *const u8, usize, *mut u8, usize, *mut usize) -> u8;

/// The function with this finish.
fn by<F>(finish: Finish, cipher: F, hash: F) -> F {
    match finish {
        Finish::Cipher => cipher,
        Finish::Sha1 => hash,
    }
}

/// Makes one of the calls that report a length. Gives number, length and both outputs.
#[rustfmt::skip]
fn answer(call: &Call, last: u8, random: &mut Random) -> (u8, usize, Vec<u8>, Vec<u8>) {
    let (room, record_room) = call.rooms();
    let (mut out, mut run, mut length) = (random.bytes(room), random.bytes(record_room), NOISE);
    // SAFETY: slices valid for their lengths, the outputs distinct.
    let number = unsafe {
        match *call {
            Call::Seal { finish, key, iv, message, .. } => by(finish, balzenoh_seal as Seal, balzenoh_seal_sha1)(
                key.as_ptr(), key.len(), iv.as_ptr(), iv.len(), message.as_ptr(), message.len(),
                out.as_mut_ptr(), out.len(), &mut length,
            ),
            Call::Open { finish, key, sealed, .. } => by(finish, balzenoh_open as Open, balzenoh_open_sha1)(
                key.as_ptr(), key.len(), sealed.as_ptr(), sealed.len(), out.as_mut_ptr(), out.len(), &mut length,
            ),
            Call::SealRun { key, iv, first, bytes, .. } => balzenoh_seal_run(
                key.as_ptr(), key.len(), iv.as_ptr(), iv.len(), first, last, bytes.as_ptr(), bytes.len(),
                out.as_mut_ptr(), out.len(), &mut length, run.as_mut_ptr(), run.len(),
            ),
            _ => unreachable!("this call reports no length"),
        }
    };
    (number, length, out, run)
}

fn check(call: &Call, last: u8, random: &mut Random) {
    let expected = reference::answer::<Fips197>(call);
    let given = answer(call, last, random);
    assert_eq!(given, (expected.number, expected.length, expected.out, expected.record), "{call:02X?}, last {last}");
}

#[test]
fn the_length_is_0_after_a_refusal() {
    let mut random = Random::new(31);
    for _ in 0..5_000 {
        let right = random.pick(&pairs::KEY_LENGTHS);
        let key_length = random.mostly(right, 49);
        let ((key, iv), length) = (pairs::of_lengths(&mut random, [key_length, 16]), random.below(70));
        let (bytes, room, record_room) = (random.bytes(length), random.below(140), random.within(20, 28));
        let mode = Mode::<Fips197>::new(&random.block(), &random.block());
        for finish in FINISHES {
            let sealed = mode.seal_blocks(finish, &iv, &padded(&bytes));
            check(&Call::Seal { finish, key: &key, iv: &iv, message: &bytes, room }, 0, &mut random);
            check(&Call::Open { finish, key: &key, sealed: &sealed, room }, 0, &mut random);
        }
        let (first, last) = (random.edge(), random.next() as u8);
        let call = Call::SealRun { key: &key, iv: &iv, first, last: last != 0, bytes: &bytes, room, record_room };
        check(&call, last, &mut random);
    }
}

#[test]
fn anything_but_0_is_a_last_run() {
    let mut random = Random::new(32);
    for last in 0..=255 {
        let (key, iv, bytes) = (random.block(), random.block(), random.bytes(32));
        let call = Call::SealRun { key: &key, iv: &iv, first: 7, last: last != 0, bytes: &bytes, room: 48, record_room: 24 };
        check(&call, last, &mut random);
    }
}

extern "C" {
    /// The jump with the whole register in which the distance is handed over.
    #[allow(clashing_extern_declarations)]
    #[link_name = "balzenoh_jump"]
    fn jump_by_register(mask: *const u8, mask_len: usize, distance: u64, out: *mut u8, out_len: usize) -> u8;
}

/// A caller may leave any bits in the upper half of the register.
#[test]
fn a_distance_is_the_lower_half_of_its_register() {
    let mut random = Random::new(33);
    for distance in [i32::MIN, -1_048_577, -1_048_576, -128, -1, 0, 1, 128, 1_048_576, 1_048_577, i32::MAX] {
        for upper in [0, 1, 0x7FFF_FFFF, 0x8000_0000, 0xFFFF_FFFF] {
            let (mask, mut out) = (random.block(), [0xA5; 16]);
            let register = upper << 32 | u64::from(distance as u32);
            // SAFETY: pointers valid for their lengths, and the function takes its distance from the lower half.
            let number = unsafe { jump_by_register(mask.as_ptr(), 16, register, out.as_mut_ptr(), 16) };
            let expected = reference::answer::<Fips197>(&Call::Jump { mask: &mask, distance, room: 16 });
            assert_eq!((number, &out[..]), (expected.number, &expected.out[..]), "{distance}, upper half {upper:X}");
        }
    }
}

/// An empty message and empty runs, with null pointers wherever a length is 0; the empty message is opened too. The last two have a
/// mask of nothing.
#[test]
#[rustfmt::skip]
fn a_null_pointer_of_length_0_is_answered() {
    let (key, iv, no) = ([7; 16], [9; 16], null::<u8>());
    let (no_key, its_iv) = pairs::replaced(pairs::NO_KEYS[0]);
    let (mut out, mut run, mut length) = ([0xA5; 48], [0xA5; 24], NOISE);
    let (key, iv, out, run) = (key.as_ptr(), iv.as_ptr(), out.as_mut_ptr(), run.as_mut_ptr());
    let (no_key, its_iv) = (no_key.as_ptr(), its_iv.as_ptr());
    // SAFETY: pointers valid for their lengths, or null where the length is 0; the outputs are distinct.
    let numbers = unsafe {
        [
            balzenoh_seal(no, 0, no, 0, no, 0, null_mut(), 0, &mut length),
            balzenoh_seal(key, 16, iv, 16, no, 0, null_mut(), 0, &mut length),
            balzenoh_seal(key, 16, iv, 16, no, 0, out, 48, &mut length),
            balzenoh_open(key, 16, out, 48, null_mut(), 0, &mut length),
            balzenoh_open(key, 16, no, 0, null_mut(), 0, &mut length),
            balzenoh_seal_run(key, 16, iv, 16, 5, 0, no, 0, null_mut(), 0, &mut length, run, 24),
            balzenoh_seal_run(key, 16, iv, 16, 5, 0, no, 0, null_mut(), 0, &mut length, null_mut(), 0),
            balzenoh_check_run(key, 16, iv, 16, 5, no, 0, run, 24),
            balzenoh_join_list(no, 0, run, 24),
            balzenoh_seal_run(no_key, 16, its_iv, 16, 5, 0, no, 0, null_mut(), 0, &mut length, null_mut(), 0),
            balzenoh_check_run(no_key, 16, its_iv, 16, 5, no, 0, null_mut(), 0),
        ]
    };
    assert_eq!(numbers, [1, 5, 0, 0, 3, 0, 5, 0, 9, 10, 10]);
}

/// The same with the hash finish, and with an empty text; tags and outputs for tags of length 0 with either finish.
#[test]
#[rustfmt::skip]
fn a_null_pointer_of_length_0_is_answered_by_the_hash_finish() {
    let (key, iv, no, record) = ([7; 16], [9; 16], null::<u8>(), record([0, 1], &[5; 16]));
    let (no_key, its_iv) = pairs::replaced(pairs::NO_KEYS[0]);
    let (mut out, mut length) = ([0xA5; 52], NOISE);
    let (key, iv, record, out) = (key.as_ptr(), iv.as_ptr(), record.as_ptr(), out.as_mut_ptr());
    let (no_key, its_iv) = (no_key.as_ptr(), its_iv.as_ptr());
    // SAFETY: pointers valid for their lengths, or null where the length is 0; the outputs are distinct.
    let numbers = unsafe {
        [
            balzenoh_seal_sha1(no, 0, no, 0, no, 0, null_mut(), 0, &mut length),
            balzenoh_seal_sha1(key, 16, iv, 16, no, 0, null_mut(), 0, &mut length),
            balzenoh_seal_sha1(key, 16, iv, 16, no, 0, out, 52, &mut length),
            balzenoh_open_sha1(key, 16, out, 52, null_mut(), 0, &mut length),
            balzenoh_seal_sha1(no_key, 16, its_iv, 16, no, 0, null_mut(), 0, &mut length),
            balzenoh_open_sha1(no, 0, no, 0, null_mut(), 0, &mut length),
            balzenoh_open_sha1(key, 16, no, 0, null_mut(), 0, &mut length),
            balzenoh_close_sha1(no, 0, no, 0, no, 0, null_mut(), 0),
            balzenoh_close_sha1(key, 16, iv, 16, record, 24, null_mut(), 0),
            balzenoh_close(key, 16, iv, 16, record, 24, null_mut(), 0),
            balzenoh_test_sha1(no, 0, no, 0, no, 0, no, 0),
            balzenoh_test_sha1(key, 16, iv, 16, record, 24, no, 0),
            balzenoh_test(key, 16, iv, 16, record, 24, no, 0),
            balzenoh_sha1(no, 0, null_mut(), 0),
            balzenoh_sha1(no, 0, out, 20),
        ]
    };
    assert_eq!(numbers, [1, 5, 0, 0, 10, 1, 3, 24, 5, 5, 24, 3, 3, 5, 0]);
}
