//! Keys with IVs. Most are random; with some step 1 comes to zero, and with some little is missing for that.

use super::fips197::Fips197;
use super::mode::iv_of_zero_mask;
use super::random::Random;

/// A key, of 16 bytes or of 32, and an IV.
pub type Pair = (Vec<u8>, [u8; 16]);

/// The bytes that a key has.
pub const KEY_LENGTHS: [usize; 2] = [16, 32];

/// Numbers of bytes that no key has.
pub fn wrong_key_lengths() -> impl Iterator<Item = usize> {
    (0..=48).filter(|length| !KEY_LENGTHS.contains(length))
}

/// What is loaded before there is a key, and a long key that has only its first half from that. Each lends zeros to the start mask.
pub const NO_KEYS: [&[u8]; 3] =
    [&[0; 16], &[0; 32], &[0, 0, 0, 0, 0, 0, 0, 0, 0, 0, 0, 0, 0, 0, 0, 0, 0, 1, 2, 3, 4, 5, 6, 7, 8, 9, 10, 11, 12, 13, 14, 15]];

/// A key, and the IV under which its first 16 bytes replace the start mask. Where they are zeros every call refuses this pair.
pub fn replaced(key: &[u8]) -> Pair {
    (key.to_vec(), iv_of_zero_mask::<Fips197>(key))
}

/// A block with one bit.
pub fn one_bit(at: usize) -> [u8; 16] {
    (1_u128 << at).to_be_bytes()
}

/// A key whose first 16 bytes are these, and the others anything.
pub fn lending(random: &mut Random, lent: [u8; 16], length: usize) -> Vec<u8> {
    [&lent[..], &random.bytes(length - 16)].concat()
}

/// A key of this length that lends zeros: more zeros stand behind them, or anything.
fn no_key(random: &mut Random, length: usize) -> Vec<u8> {
    if random.once_in(2) {
        vec![0; length]
    } else {
        lending(random, [0; 16], length)
    }
}

/// A key that lends zeros, and the IV with which it is refused, but for one bit of the IV.
pub fn one_bit_from_the_iv(key: &[u8], at: usize) -> Pair {
    let (key, iv) = replaced(key);
    (key, std::array::from_fn(|byte| iv[byte] ^ one_bit(at)[byte]))
}

/// The same, but for one bit of the key.
pub fn one_bit_from_the_key(key: &[u8], at: usize) -> Pair {
    let (mut key, iv) = replaced(key);
    key[at / 8] ^= 0x80 >> (at % 8);
    (key, iv)
}

/// A pair under which lists are sealed, with a key of this length.
pub fn sealing_of(random: &mut Random, length: usize) -> Pair {
    let (key, no_key) = (random.bytes(length), no_key(random, length));
    match random.below(16) {
        0 => replaced(&key),
        1 => {
            let lent = one_bit(random.below(128));
            replaced(&lending(random, lent, length))
        }
        2 => (no_key, random.block()),
        3 => one_bit_from_the_iv(&no_key, random.below(128)),
        4 => one_bit_from_the_key(&no_key, random.below(8 * length)),
        _ => (key, random.block()),
    }
}

/// A pair under which lists are sealed.
pub fn sealing(random: &mut Random) -> Pair {
    let length = random.pick(&KEY_LENGTHS);
    sealing_of(random, length)
}

/// A pair that is refused.
pub fn of_nothing(random: &mut Random) -> Pair {
    let length = random.pick(&KEY_LENGTHS);
    replaced(&no_key(random, length))
}

/// Any pair with a key of this length, now and then one that is refused.
fn any_of(random: &mut Random, length: usize) -> Pair {
    if random.once_in(8) {
        replaced(&no_key(random, length))
    } else {
        sealing_of(random, length)
    }
}

/// Any pair, now and then one that is refused.
pub fn any(random: &mut Random) -> Pair {
    let length = random.pick(&KEY_LENGTHS);
    any_of(random, length)
}

/// Any pair, cut short or with zeros behind it: key and IV of these lengths.
pub fn of_lengths(random: &mut Random, [key_length, iv_length]: [usize; 2]) -> (Vec<u8>, Vec<u8>) {
    let length = if key_length < 24 { 16 } else { 32 };
    let (mut key, iv) = any_of(random, length);
    let mut iv = iv.to_vec();
    key.resize(key_length, 0);
    iv.resize(iv_length, 0);
    (key, iv)
}
