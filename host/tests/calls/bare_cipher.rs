//! The bare cipher of the library against the `openssl` program and against both other ciphers.

use crate::support::aesni::{self, AesNi};
use crate::support::cipher::Cipher;
use crate::support::fips197::Fips197;
use crate::support::mode::number;
use crate::support::openssl::{openssl, Way};
use crate::support::pairs::KEY_LENGTHS;
use crate::support::random::Random;

#[rustfmt::skip]
extern "C" {
    fn aes_blocks_encrypt(
        key: *const u8, key_len: usize, blocks: *const u8, blocks_len: usize, out: *mut u8, out_len: usize,
    ) -> u8;
    fn aes_blocks_decrypt(
        key: *const u8, key_len: usize, blocks: *const u8, blocks_len: usize, out: *mut u8, out_len: usize,
    ) -> u8;
}

const WAYS: [Way; 2] = [Way::Encrypt, Way::Decrypt];

fn library(way: Way, key: &[u8], blocks: &[u8], out: &mut [u8]) -> u8 {
    let function = if way == Way::Encrypt { aes_blocks_encrypt } else { aes_blocks_decrypt };
    // SAFETY: slices valid for their lengths, `out` borrowed exclusively; all lengths are answered.
    unsafe { function(key.as_ptr(), key.len(), blocks.as_ptr(), blocks.len(), out.as_mut_ptr(), out.len()) }
}

fn other<C: Cipher>(way: Way, key: &[u8], blocks: &[u8]) -> Vec<u8> {
    let cipher = C::new(key);
    let one = |block: &[u8]| match way {
        Way::Encrypt => cipher.encrypt(number(block)),
        Way::Decrypt => cipher.decrypt(number(block)),
    };
    blocks.chunks(16).flat_map(|block| one(block).to_be_bytes()).collect()
}

#[test]
fn openssl_gives_the_same_blocks() {
    let mut random = Random::new(21);
    for (round, key_length) in (0..40).flat_map(|round| KEY_LENGTHS.map(|length| (round, length))) {
        let (key, blocks) = (random.bytes(key_length), random.bytes(16 * 2_000));
        for way in WAYS {
            let Some(expected) = openssl(way, &key, &blocks) else {
                println!("no openssl program here: skipped");
                return;
            };
            let mut out = random.bytes(blocks.len());
            assert_eq!(library(way, &key, &blocks, &mut out), 0);
            assert!(out == expected, "round {round}, key {key_length}");
        }
    }
}

#[test]
fn both_other_ciphers_give_the_same_blocks() {
    let mut random = Random::new(22);
    for (round, key_length) in (0..2_000).flat_map(|round| KEY_LENGTHS.map(|length| (round, length))) {
        // Every number of blocks up to 140 first, so that groups of 32 end everywhere.
        let count = if round <= 140 { round } else { random.below(40) };
        let (key, blocks) = (random.bytes(key_length), random.bytes(16 * count));
        for way in WAYS {
            let expected = other::<Fips197>(way, &key, &blocks);
            assert!(!aesni::available() || other::<AesNi>(way, &key, &blocks) == expected);
            let beyond = random.below(20);
            let mut out = random.bytes(blocks.len() + beyond);
            assert_eq!(library(way, &key, &blocks, &mut out), 0);
            assert!(out == [expected, vec![0; beyond]].concat(), "round {round}, key {key_length}");
        }
    }
}

#[test]
fn wrong_lengths_are_refused() {
    let mut random = Random::new(23);
    for (key_length, length) in (0..=48).flat_map(|key| (0..=70).map(move |length| (key, length))) {
        let (key, blocks, room) = (random.bytes(key_length), random.bytes(length), random.below(70));
        let expected = match (key_length, length % 16, room) {
            (16 | 32, 0, room) if room >= length => 0,
            (16 | 32, 0, _) => 5,
            (16 | 32, _, _) => 3,
            _ => 1,
        };
        for way in WAYS {
            let mut out = random.bytes(room);
            assert_eq!(library(way, &key, &blocks, &mut out), expected, "key {key_length}, blocks {length}, room {room}");
            assert!(expected == 0 || out.iter().all(|&byte| byte == 0));
        }
    }
}
