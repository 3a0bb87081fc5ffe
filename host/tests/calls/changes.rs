//! Ticket P11: every change felt. Two messages under one key and IV that differ in exactly one padded block: their ciphertexts differ in that
//! block and in no other, and their pre-authenticators differ. Nothing is asked of the tags.

use crate::support::bench::Bench;
use crate::support::call::{Answer, Call};
use crate::support::finish::{around, FINISHES};
use crate::support::mode::padded;
use crate::support::pairs::{self, Pair};
use crate::support::plan;
use crate::support::random::Random;

/// The numbers of the blocks in which two texts of one length differ.
fn differing(one: &[u8], other: &[u8]) -> Vec<usize> {
    assert_eq!(one.len(), other.len());
    let pairs = one.chunks(16).zip(other.chunks(16));
    pairs.enumerate().filter(|(_, (one, other))| one != other).map(|(at, _)| at).collect()
}

/// The message with other bytes in its part of a block: one bit, one byte or all of them.
fn changed(random: &mut Random, message: &[u8], block: usize) -> Vec<u8> {
    let mut other = message.to_vec();
    let end = message.len().min(16 * block + 16);
    let part = &mut other[16 * block..end];
    match random.below(3) {
        0 => part[random.below(part.len())] ^= 1 << random.below(8),
        1 => part[random.below(part.len())] ^= random.within(1, 255) as u8,
        _ => part.iter_mut().for_each(|byte| *byte ^= random.within(1, 255) as u8),
    }
    other
}

/// A message that ends in another place of the same last block, and is the same before that block.
fn ended_elsewhere(random: &mut Random, message: &[u8]) -> Vec<u8> {
    let start = message.len() / 16 * 16;
    let length = (message.len() % 16 + random.within(1, 15)) % 16;
    [&message[..start], &random.bytes(length)].concat()
}

/// Both messages sealed, by either finish.
fn sealed(bench: &mut Bench, (key, iv): &Pair, messages: [&[u8]; 2], block: usize) {
    for finish in FINISHES {
        let [one, other] = messages.map(|message| {
            let room = padded(message).len() + around(finish);
            let answer = bench.check(&Call::Seal { finish, key, iv, message, room });
            assert_eq!((answer.number, answer.length), (0, room));
            answer.out[..room - around(finish) + 16].to_vec()
        });
        assert_eq!(differing(&one, &other), [block + 1], "the IV, and then the blocks of the ciphertext");
    }
}

/// Both messages as a last run, which is sealed and then checked, from any block on; at block 0 its record is that of the whole message.
fn sealed_as_run(bench: &mut Bench, (key, iv): &Pair, messages: [&[u8]; 2], block: usize) {
    let blocks = padded(messages[0]).len() / 16;
    let first = if bench.random.once_in(2) { 0 } else { bench.random.within(0, 1_048_576 - blocks) as u32 };
    let (room, record_room) = (16 * blocks, 24);
    let [one, other] = messages.map(|bytes| bench.check(&Call::SealRun { key, iv, first, last: true, bytes, room, record_room }));
    assert_eq!(differing(&one.out, &other.out), [block]);
    must_differ_in_preauthenticator(&one, &other);
    let [one, other] = [one, other].map(|run| bench.check(&Call::CheckRun { key, iv, first, bytes: &run.out, record_room }));
    must_differ_in_preauthenticator(&one, &other);
}

fn must_differ_in_preauthenticator(one: &Answer, other: &Answer) {
    assert_eq!((one.number, other.number, &one.record[..8]), (0, 0, &other.record[..8]), "first block and count");
    assert_ne!(one.record[8..], other.record[8..]);
}

fn compare(bench: &mut Bench, messages: [&[u8]; 2], block: usize) {
    let [one, other] = messages.map(padded);
    assert_eq!(differing(&one, &other), [block]);
    let pair = pairs::sealing(&mut bench.random);
    sealed(bench, &pair, messages, block);
    sealed_as_run(bench, &pair, messages, block);
}

#[test]
fn one_block_of_a_message() {
    let mut bench = Bench::new(plan::CHANGES);
    for length in (1..=600).chain([1_000, 5_000, 32_000]) {
        let message = bench.random.bytes(length);
        let blocks = length.div_ceil(16);
        for _ in 0..4 {
            let block = bench.random.below(blocks);
            let other = changed(&mut bench.random, &message, block);
            compare(&mut bench, [&message, &other], block);
        }
        let other = ended_elsewhere(&mut bench.random, &message);
        compare(&mut bench, [&message, &other], length / 16);
    }
    bench.finish();
}

/// The first block, the last, and any between.
#[test]
fn one_block_of_the_longest_message() {
    let mut bench = Bench::new(plan::LONGEST_CHANGES);
    let message = bench.random.bytes(16_777_215);
    let any = bench.random.below(1_048_576);
    for finish in FINISHES {
        let (key, iv) = pairs::sealing(&mut bench.random);
        let mut ciphertext = |message: &[u8]| {
            let answer = bench.check_long(&Call::Seal { finish, key: &key, iv: &iv, message, room: 16_777_216 + around(finish) });
            assert_eq!(answer.number, 0);
            answer.out[16..][..16_777_216].to_vec()
        };
        let before = ciphertext(&message);
        for block in [0, any, 1_048_575] {
            let mut other = message.clone();
            other[16 * block] ^= 1;
            assert_eq!(differing(&before, &ciphertext(&other)), [block]);
        }
    }
    bench.finish();
}
