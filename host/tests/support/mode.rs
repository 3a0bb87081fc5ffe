//! Cipher-State mode as its paper has it, over any cipher in two halves, with both finishes. What a long key lends to the start mask
//! is ticket P8's rule, and that the hash finish takes all of it.

use super::cipher::Cipher;
use super::finish::Finish;
use super::sha1::sha1;

/// Multiplies by the polynomial's variable: a shift to the left, and 87 for the bit that falls out.
pub fn times_x(block: u128) -> u128 {
    (block << 1) ^ if block >> 127 == 1 { 0x87 } else { 0 }
}

/// Multiplies by the variable as often as that.
pub fn times_x_power(block: u128, power: u32) -> u128 {
    if power < FEW_STEPS {
        return (0..power).fold(block, |block, _| times_x(block));
    }
    times_power_of(block, 2, power)
}

/// Divides by the variable: where the low bit is set the polynomial is added first, then comes a shift to the right. Of the
/// polynomial, 87 is within the block; the 128th power is above it, and comes in at the top with the shift.
pub fn divided_by_x(block: u128) -> u128 {
    if block & 1 == 1 {
        (block ^ 0x87) >> 1 | 1 << 127
    } else {
        block >> 1
    }
}

/// Divides by the variable as often as that.
pub fn divided_by_x_power(block: u128, power: u32) -> u128 {
    if power < FEW_STEPS {
        return (0..power).fold(block, |block, _| divided_by_x(block));
    }
    times_power_of(block, divided_by_x(1), power)
}

/// Fewer steps than this are taken one by one.
const FEW_STEPS: u32 = 1_000;

/// Multiplies by a block as often as that: by its square half as often, and once by itself where the number is odd.
fn times_power_of(block: u128, base: u128, power: u32) -> u128 {
    if power == 0 {
        return block;
    }
    let block = if power % 2 == 1 { product(block, base) } else { block };
    times_power_of(block, product(base, base), power / 2)
}

/// The product of two polynomials: one of them, times each power of the variable that stands in the other.
pub fn product(one: u128, other: u128) -> u128 {
    (0..128).rev().fold(0, |sum, power| times_x(sum) ^ if other >> power & 1 == 1 { one } else { 0 })
}

/// Many steps at once are as many single ones.
#[test]
fn powers_are_steps() {
    let block = 0x0123_4567_89AB_CDEF_0123_4567_89AB_CDEF;
    let (mut forward, mut back) = (block, block);
    for power in 0..=1_048_600 {
        if power < 5_000 || power % 997 == 0 || power >= 1_048_570 {
            assert_eq!((times_x_power(block, power), divided_by_x_power(block, power)), (forward, back), "{power}");
        }
        (forward, back) = (times_x(forward), divided_by_x(back));
    }
}

/// The mode under one key and IV.
pub struct Mode<C> {
    key: Vec<u8>,
    pub cipher: C,
    pub start_mask: u128,
}

/// One block's step: what it yields.
pub struct Step {
    pub middletext: u128,
    pub other: u128,
}

impl<C: Cipher> Mode<C> {
    pub fn new(key: &[u8], iv: &[u8; 16]) -> Self {
        let (cipher, lent) = (C::new(key), lent(key));
        let mask = cipher.encrypt(u128::from_be_bytes(*iv) ^ lent) ^ lent;
        Self { key: key.to_vec(), cipher, start_mask: if mask == 0 { lent } else { mask } }
    }

    /// From a block of plaintext: middletext and ciphertext.
    pub fn forward(&self, block: u128, mask: u128) -> Step {
        let middletext = self.cipher.first_half(block ^ mask);
        Step { middletext, other: self.cipher.second_half(middletext) ^ mask }
    }

    /// From a block of ciphertext: middletext and plaintext.
    pub fn backward(&self, block: u128, mask: u128) -> Step {
        let middletext = self.cipher.second_half_back(block ^ mask);
        Step { middletext, other: self.cipher.first_half_back(middletext) ^ mask }
    }

    /// Takes blocks, numbered from `first` on, through a step each. Gives the other text, and the pre-authenticator begun from
    /// zero.
    pub fn run(&self, first: u32, text: &[u8], step: fn(&Self, u128, u128) -> Step) -> (Vec<u8>, u128) {
        let mut mask = times_x_power(self.start_mask, first);
        let mut preauthenticator = 0;
        let mut other = Vec::with_capacity(text.len());
        for block in text.chunks_exact(16) {
            let step = step(self, number(block), mask);
            preauthenticator = times_x(preauthenticator) ^ step.middletext;
            other.extend(step.other.to_be_bytes());
            mask = times_x(mask);
        }
        (other, preauthenticator)
    }

    /// The tag, from the mask after the last block: by the cipher, or the hash of key, pre-authenticator and mask.
    pub fn tag_after(&self, finish: Finish, preauthenticator: u128, mask_after: u128) -> Vec<u8> {
        let block = |number: u128| number.to_be_bytes().to_vec();
        match finish {
            Finish::Cipher => block(self.cipher.encrypt(preauthenticator ^ mask_after) ^ preauthenticator),
            Finish::Sha1 => sha1(&[self.key.clone(), block(preauthenticator), block(mask_after)].concat()).to_vec(),
        }
    }

    /// The tag of a list of that many blocks.
    pub fn tag(&self, finish: Finish, blocks: u32, preauthenticator: u128) -> Vec<u8> {
        self.tag_after(finish, preauthenticator, times_x_power(self.start_mask, blocks))
    }

    /// IV, ciphertext and tag of whole blocks, to which no padding is added.
    pub fn seal_blocks(&self, finish: Finish, iv: &[u8], blocks: &[u8]) -> Vec<u8> {
        let (ciphertext, preauthenticator) = self.run(0, blocks, Self::forward);
        let tag = self.tag(finish, (blocks.len() / 16) as u32, preauthenticator);
        [iv, &ciphertext, &tag].concat()
    }

    /// IV, ciphertext and the right tag of any ciphertext.
    pub fn vouch_for(&self, finish: Finish, iv: &[u8], ciphertext: &[u8]) -> Vec<u8> {
        let (_, preauthenticator) = self.run(0, ciphertext, Self::backward);
        let tag = self.tag(finish, (ciphertext.len() / 16) as u32, preauthenticator);
        [iv, ciphertext, &tag].concat()
    }
}

/// What a key adds to blocks, and what replaces a start mask of zero: its first 16 bytes.
pub fn lent(key: &[u8]) -> u128 {
    number(&key[..16])
}

/// The one IV under which step 1 comes to zero, so that what the key lends replaces the start mask: IV plus that encrypts to that.
/// The cipher run backwards finds it.
pub fn iv_of_zero_mask<C: Cipher>(key: &[u8]) -> [u8; 16] {
    (C::new(key).decrypt(lent(key)) ^ lent(key)).to_be_bytes()
}

/// 16 bytes as a number.
pub fn number(block: &[u8]) -> u128 {
    u128::from_be_bytes(block.try_into().expect("a block of 16 bytes"))
}

/// A message with a byte 80 and zeros to the next multiple of 16.
pub fn padded(message: &[u8]) -> Vec<u8> {
    let mut blocks = message.to_vec();
    blocks.push(0x80);
    blocks.resize(blocks.len().next_multiple_of(16), 0);
    blocks
}

/// The message that is padded to these blocks, if any.
pub fn unpadded(blocks: &[u8]) -> Option<&[u8]> {
    let last = blocks.iter().rposition(|&byte| byte != 0)?;
    (blocks[last] == 0x80 && blocks.len() - last <= 16).then(|| &blocks[..last])
}
