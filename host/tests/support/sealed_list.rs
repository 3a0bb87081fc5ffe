//! A list sealed by the mode alone, and the calls with a key that can be made on it.

use super::call::Call;
use super::finish::{around, tag_length, Finish, FINISHES};
use super::fips197::Fips197;
use super::mode::{padded, Mode};
use super::pairs::Pair;
use super::random::Random;

/// A list, and what the mode makes of it under a pair that the calls take or refuse.
pub struct SealedList {
    pub key: Vec<u8>,
    pub iv: [u8; 16],
    pub message: Vec<u8>,
    /// By each finish.
    sealed: [Vec<u8>; 2],
    /// The record of all blocks.
    pub record: Vec<u8>,
    /// Where the list stands when it is taken for a run.
    first: u32,
}

impl SealedList {
    pub fn new(random: &mut Random, (key, iv): Pair, length: usize) -> Self {
        let message = random.bytes(length);
        let mode = Mode::<Fips197>::new(&key, &iv);
        let sealed = FINISHES.map(|finish| mode.seal_blocks(finish, &iv, &padded(&message)));
        let mut list = Self { key, iv, message, sealed, record: Vec::new(), first: 0 };
        list.first = random.within(0, 1_048_576 - list.blocks()) as u32;
        list.record = list.record_of(0, list.blocks());
        list
    }

    pub fn blocks(&self) -> usize {
        self.ciphertext().len() / 16
    }

    pub fn sealed(&self, finish: Finish) -> &[u8] {
        &self.sealed[finish as usize]
    }

    /// The same by either finish.
    pub fn ciphertext(&self) -> &[u8] {
        let sealed = self.sealed(Finish::Cipher);
        &sealed[16..][..sealed.len() - around(Finish::Cipher)]
    }

    pub fn tag(&self, finish: Finish) -> &[u8] {
        let sealed = self.sealed(finish);
        &sealed[sealed.len() - tag_length(finish)..]
    }

    /// The record of the blocks from `first` on to before `end`.
    pub fn record_of(&self, first: usize, end: usize) -> Vec<u8> {
        let mode = Mode::<Fips197>::new(&self.key, &self.iv);
        let (_, preauthenticator) = mode.run(first as u32, &self.ciphertext()[16 * first..16 * end], Mode::backward);
        record([first as u32, (end - first) as u32], &preauthenticator.to_be_bytes())
    }

    /// The calls with a key, with what the mode gives and outputs that just suffice: only the pair can be refused.
    pub fn calls(&self) -> Vec<Call<'_>> {
        let Self { key, iv, message, first, .. } = self;
        let (first, bytes) = (*first, self.ciphertext());
        let (room, record_room) = (bytes.len(), 24);
        let runs = [
            Call::SealRun { key, iv, first, last: true, bytes: message, room, record_room },
            Call::CheckRun { key, iv, first, bytes, record_room },
        ];
        FINISHES.into_iter().flat_map(|finish| self.finished_calls(finish)).chain(runs).collect()
    }

    /// Those of them that have a finish.
    fn finished_calls(&self, finish: Finish) -> [Call<'_>; 4] {
        let Self { key, iv, message, record, .. } = self;
        let (sealed, tag) = (self.sealed(finish), self.tag(finish));
        [
            Call::Seal { finish, key, iv, message, room: sealed.len() },
            Call::Open { finish, key, sealed, room: message.len() },
            Call::Close { finish, key, iv, record, room: tag.len() },
            Call::Test { finish, key, iv, record, tag },
        ]
    }
}

/// A record of these numbers, first block and count, and this pre-authenticator.
pub fn record(numbers: [u32; 2], preauthenticator: &[u8]) -> Vec<u8> {
    [&numbers.map(u32::to_be_bytes).concat(), preauthenticator].concat()
}
