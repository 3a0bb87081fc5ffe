//! Ticket P11: every block its own mask. All masks of the longest list, as the calls used them; and the numbers on which the proof rests,
//! by another arithmetic.

use crate::support::fips197::Fips197;
use crate::support::masks::Masks;
use crate::support::mode::{product, times_x};
use crate::support::pairs::{self, KEY_LENGTHS};
use crate::support::random::Random;

const LIMIT: u32 = 1_048_576;

/// Of each block, taken from sealing or from checking by turns, and behind the last one that of closing. The turns of the two lengths of a
/// key are not the same, so that each block is both sealed and checked.
fn masks_used(random: &mut Random, key_length: usize) -> Vec<u128> {
    let masks = Masks::<Fips197>::new(&pairs::sealing_of(random, key_length));
    let of_block = |first: u32, block: [u8; 16]| {
        if (first + key_length as u32 / 32).is_multiple_of(2) {
            masks.of_sealing(first, &block)
        } else {
            masks.of_checking(first, &block)
        }
    };
    let mut used: Vec<u128> = (0..LIMIT).map(|first| of_block(first, random.block())).collect();
    used.push(masks.of_closing(LIMIT, random.block()));
    used
}

#[test]
fn every_block_up_to_the_limit_has_its_own() {
    let mut random = Random::new(57);
    for key_length in KEY_LENGTHS {
        let mut used = masks_used(&mut random, key_length);
        assert!(used.windows(2).all(|pair| pair[1] == times_x(pair[0])), "each is the one before it times the variable");
        used.sort_unstable();
        assert!(used[0] != 0 && used.windows(2).all(|pair| pair[0] < pair[1]), "not zero, and no two alike");
    }
}

/// The prime factors of 2^128 - 1.
const FACTORS: [u128; 9] = [3, 5, 17, 257, 641, 65_537, 274_177, 6_700_417, 67_280_421_310_721];
/// The one that the proof takes: a limit of so many blocks would be beyond it.
const PRIME: u128 = 6_700_417;
const POWER: u128 = 0xB34F_959A_F912_795F_3236_A7C5_C9B5_B422;
const INVERSE: u128 = 0xFB90_43B5_B964_D0D4_4CE8_9147_BF2B_6A67;

/// A power of the variable, the bits of the exponent from the top.
fn power_of_x(exponent: u128) -> u128 {
    (0..128).rev().fold(1, |power, bit| {
        let square = product(power, power);
        if exponent >> bit & 1 == 1 {
            times_x(square)
        } else {
            square
        }
    })
}

#[test]
fn the_numbers_of_the_argument() {
    assert!((2..2_589).all(|divisor| PRIME % divisor != 0) && 2_589 * 2_589 > PRIME, "a prime");
    assert!(u128::from(LIMIT) < PRIME);
    let part = u128::MAX / PRIME;
    assert_eq!((part * PRIME, part), (u128::MAX, 50_785_252_159_819_077_448_966_923_615_615));
    assert_eq!((power_of_x(u128::MAX), power_of_x(part), product(INVERSE, POWER ^ 1)), (1, POWER, 1));
}

/// More than the proof says: no power of the variable below 2^128 - 1 is 1, since none with a prime less in the exponent is.
#[test]
fn values_come_again_after_a_full_turn_and_no_sooner() {
    assert_eq!(FACTORS.iter().product::<u128>(), u128::MAX);
    for factor in FACTORS {
        assert_ne!(power_of_x(u128::MAX / factor), 1, "{factor}");
    }
}
