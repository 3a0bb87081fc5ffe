//! Masks and pre-authenticators in two 64-bit words, from the text of ticket P12. Only the cipher works on other numbers: it is
//! handed the bytes.

use super::cipher::Cipher;
use super::finish::Finish;
use super::mode::number;
use super::sha1::sha1;

/// Sixteen bytes: the first eight are the upper word, most significant byte first.
#[derive(Clone, Copy, Debug, PartialEq, Eq)]
pub struct Words {
    pub upper: u64,
    pub lower: u64,
}

impl Words {
    pub fn read(bytes: &[u8]) -> Self {
        let word = |at: usize| u64::from_be_bytes(bytes[at..at + 8].try_into().expect("8 bytes"));
        assert_eq!(bytes.len(), 16);
        Self { upper: word(0), lower: word(8) }
    }

    pub fn written(self) -> [u8; 16] {
        let mut bytes = [0; 16];
        bytes[..8].copy_from_slice(&self.upper.to_be_bytes());
        bytes[8..].copy_from_slice(&self.lower.to_be_bytes());
        bytes
    }

    pub fn plus(self, other: Self) -> Self {
        Self { upper: self.upper ^ other.upper, lower: self.lower ^ other.lower }
    }

    /// The lower word's top bit moves into the upper word; for the upper word's own, 87 comes into the lower word.
    pub fn times_x(self) -> Self {
        let reduction = if self.upper >> 63 == 1 { 0x87 } else { 0 };
        Self { upper: self.upper << 1 | self.lower >> 63, lower: self.lower << 1 ^ reduction }
    }

    /// The upper word's low bit moves into the lower word. Where the lower word's own is set 87 is taken off first, and the 128th
    /// power that goes with it becomes the upper word's top bit.
    pub fn over_x(self) -> Self {
        let odd = self.lower & 1;
        let lower = if odd == 1 { self.lower ^ 0x87 } else { self.lower };
        Self { upper: self.upper >> 1 | odd << 63, lower: lower >> 1 | self.upper << 63 }
    }

    /// As many single steps as the distance says, forward or back.
    pub fn jumped(self, distance: i32) -> Self {
        let step = if distance < 0 { Self::over_x } else { Self::times_x };
        (0..distance.unsigned_abs()).fold(self, |words, _| step(words))
    }

    /// The words after a part of the cipher, which goes by bytes.
    fn through(self, part: impl Fn(u128) -> u128) -> Self {
        Self::read(&part(number(&self.written())).to_be_bytes())
    }
}

/// A run record with its pre-authenticator in words.
#[derive(Clone, Copy, Debug, PartialEq, Eq)]
pub struct Record {
    pub first: u32,
    pub count: u32,
    pub preauthenticator: Words,
}

impl Record {
    /// From the 24 bytes.
    pub fn read(bytes: &[u8]) -> Self {
        let half = |at: usize| u32::from_be_bytes(bytes[at..at + 4].try_into().expect("4 bytes"));
        Self { first: half(0), count: half(4), preauthenticator: Words::read(&bytes[8..]) }
    }

    pub fn written(self) -> Vec<u8> {
        let numbers = [self.first.to_be_bytes(), self.count.to_be_bytes()].concat();
        [&numbers[..], &self.preauthenticator.written()].concat()
    }

    /// With its right neighbour.
    pub fn joined(self, right: Self) -> Self {
        let moved = self.preauthenticator.jumped(right.count as i32);
        Self { first: self.first, count: self.count + right.count, preauthenticator: moved.plus(right.preauthenticator) }
    }
}

/// The mode under one key and IV, in words.
pub struct WordMode<C> {
    key: Vec<u8>,
    cipher: C,
    start_mask: Words,
}

impl<C: Cipher> WordMode<C> {
    pub fn new(key: &[u8], iv: &[u8; 16]) -> Self {
        let (cipher, lent, iv) = (C::new(key), Words::read(&key[..16]), Words::read(iv));
        let mask = iv.plus(lent).through(|block| cipher.encrypt(block)).plus(lent);
        let start_mask = if mask.upper | mask.lower == 0 { lent } else { mask };
        Self { key: key.to_vec(), cipher, start_mask }
    }

    /// Whole blocks from block `first` on: the ciphertext, and the record.
    pub fn seal_run(&self, first: u32, text: &[u8]) -> (Vec<u8>, Record) {
        let mut ciphertext = Vec::with_capacity(text.len());
        let record = self.run(first, text, |block, mask| {
            let middletext = block.plus(mask).through(|block| self.cipher.first_half(block));
            ciphertext.extend(middletext.through(|block| self.cipher.second_half(block)).plus(mask).written());
            middletext
        });
        (ciphertext, record)
    }

    /// The record from the ciphertext.
    pub fn check_run(&self, first: u32, ciphertext: &[u8]) -> Record {
        self.run(first, ciphertext, |block, mask| block.plus(mask).through(|block| self.cipher.second_half_back(block)))
    }

    /// Takes the middletext of each block, under its mask, into the pre-authenticator.
    fn run(&self, first: u32, text: &[u8], mut middletext: impl FnMut(Words, Words) -> Words) -> Record {
        let mut mask = self.start_mask.jumped(first as i32);
        let mut preauthenticator = Words { upper: 0, lower: 0 };
        for block in text.chunks(16) {
            preauthenticator = preauthenticator.times_x().plus(middletext(Words::read(block), mask));
            mask = mask.times_x();
        }
        Record { first, count: (text.len() / 16) as u32, preauthenticator }
    }

    /// The tag that the record of a whole list is closed into.
    pub fn tag(&self, finish: Finish, record: Record) -> Vec<u8> {
        let Record { count, preauthenticator, .. } = record;
        let mask_after = self.start_mask.jumped(count as i32);
        match finish {
            Finish::Cipher => {
                let encrypted = preauthenticator.plus(mask_after).through(|block| self.cipher.encrypt(block));
                encrypted.plus(preauthenticator).written().to_vec()
            }
            Finish::Sha1 => sha1(&[&self.key[..], &preauthenticator.written(), &mask_after.written()].concat()).to_vec(),
        }
    }
}
