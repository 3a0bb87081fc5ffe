//! AES-128 and AES-256 by the processor's own instructions.

use std::arch::x86_64::*;

use super::cipher::Cipher;
use super::mode::number;

pub struct AesNi {
    rounds: usize,
    round_keys: Vec<__m128i>,
    /// The round keys after the inverse of MixColumns, as the backward instructions want them.
    mixed_back: Vec<__m128i>,
}

/// Whether this processor has the instructions.
pub fn available() -> bool {
    is_x86_feature_detected!("aes")
}

impl Cipher for AesNi {
    fn new(key: &[u8]) -> Self {
        assert!(available(), "the processor has no AES instructions");
        // SAFETY: the processor has the instructions.
        unsafe { expand(key) }
    }

    fn first_half(&self, block: u128) -> u128 {
        // SAFETY: `new` has seen that the processor has the instructions. So below.
        unsafe { self.forward_first(block) }
    }

    fn second_half(&self, middletext: u128) -> u128 {
        // SAFETY: as above.
        unsafe { self.forward_second(middletext) }
    }

    fn first_half_back(&self, middletext: u128) -> u128 {
        // SAFETY: as above.
        unsafe { self.backward_first(middletext) }
    }

    fn second_half_back(&self, block: u128) -> u128 {
        // SAFETY: as above.
        unsafe { self.backward_second(block) }
    }

    fn round_key(&self, round: usize) -> u128 {
        store(self.round_keys[round])
    }
}

impl AesNi {
    /// The number of the first half's last round.
    fn half(&self) -> usize {
        self.rounds / 2
    }

    #[target_feature(enable = "aes")]
    fn forward_first(&self, block: u128) -> u128 {
        let start = _mm_xor_si128(load(block), self.round_keys[0]);
        store(self.round_keys[1..=self.half()].iter().fold(start, |state, key| _mm_aesenc_si128(state, *key)))
    }

    #[target_feature(enable = "aes")]
    fn forward_second(&self, middletext: u128) -> u128 {
        let start = load(middletext);
        let keys = self.round_keys[self.half() + 1..self.rounds].iter();
        let state = keys.fold(start, |state, key| _mm_aesenc_si128(state, *key));
        store(_mm_aesenclast_si128(state, self.round_keys[self.rounds]))
    }

    /// A backward step undoes a round's substitution and shift and the mixing of the round before, which commutes with adding its
    /// key. The mixing of the half's last round is undone at the start.
    #[target_feature(enable = "aes")]
    fn backward_first(&self, middletext: u128) -> u128 {
        let start = _mm_aesimc_si128(_mm_xor_si128(load(middletext), self.round_keys[self.half()]));
        let keys = self.mixed_back[1..self.half()].iter().rev();
        let state = keys.fold(start, |state, key| _mm_aesdec_si128(state, *key));
        store(_mm_aesdeclast_si128(state, self.round_keys[0]))
    }

    /// The last step undoes the substitution and shift of the half's first round, with no key.
    #[target_feature(enable = "aes")]
    fn backward_second(&self, block: u128) -> u128 {
        let start = _mm_xor_si128(load(block), self.round_keys[self.rounds]);
        let keys = self.mixed_back[self.half() + 1..self.rounds].iter().rev();
        let state = keys.fold(start, |state, key| _mm_aesdec_si128(state, *key));
        store(_mm_aesdeclast_si128(state, _mm_setzero_si128()))
    }
}

/// The key schedule, a round key at a time. It is made from the one as far before it as the key is long, and from the last word of
/// the one just before it, which the instruction gives substituted: turned in its highest word, as it was in the next one.
#[target_feature(enable = "aes")]
fn expand(key: &[u8]) -> AesNi {
    let mut round_keys: Vec<_> = key.chunks(16).map(|part| load(number(part))).collect();
    let parts = round_keys.len();
    let rounds = 4 * parts + 6;
    let mut constants = [1, 2, 4, 8, 16, 32, 64, 128, 0x1B, 0x36].into_iter();
    for round in parts..=rounds {
        let assisted = _mm_aeskeygenassist_si128::<0>(round_keys[round - 1]);
        let added = if round % parts == 0 {
            let constant = constants.next().expect("ten at most");
            _mm_xor_si128(_mm_shuffle_epi32::<0xFF>(assisted), _mm_set1_epi32(constant))
        } else {
            _mm_shuffle_epi32::<0xAA>(assisted)
        };
        let old = round_keys[round - parts];
        let mut sums = old;
        for _ in 0..3 {
            sums = _mm_xor_si128(old, _mm_slli_si128::<4>(sums));
        }
        round_keys.push(_mm_xor_si128(sums, added));
    }
    let mixed_back = round_keys.iter().map(|key| _mm_aesimc_si128(*key)).collect();
    AesNi { rounds, round_keys, mixed_back }
}

fn load(block: u128) -> __m128i {
    // SAFETY: the 16 bytes are there, and the instruction asks for no alignment.
    unsafe { _mm_loadu_si128(block.to_be_bytes().as_ptr().cast()) }
}

fn store(state: __m128i) -> u128 {
    let mut bytes = [0; 16];
    // SAFETY: there is room for the 16 bytes, and the instruction asks for no alignment.
    unsafe { _mm_storeu_si128(bytes.as_mut_ptr().cast(), state) };
    u128::from_be_bytes(bytes)
}
