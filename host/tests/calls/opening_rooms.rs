//! Opening into outputs of every size. The output is compared with the message, and only where tag and padding are right.

use crate::support::bench::Bench;
use crate::support::call::Call;
use crate::support::finish::{around, tag_length, Finish, FINISHES};
use crate::support::fips197::Fips197;
use crate::support::mode::{padded, Mode};
use crate::support::pairs::{self, Pair, KEY_LENGTHS};
use crate::support::plan;
use crate::support::reference;

/// Long messages, about the edge of the last block.
const LONG: [usize; 3] = [63_983, 63_984, 63_999];

/// A finish, and the length of a key.
type Way = (Finish, usize);

fn ways() -> impl Iterator<Item = Way> {
    FINISHES.into_iter().flat_map(|finish| KEY_LENGTHS.map(|key_length| (finish, key_length)))
}

/// A list, and what it is sealed with.
struct Sealed {
    finish: Finish,
    pair: Pair,
    message: Vec<u8>,
}

impl Sealed {
    fn new(bench: &mut Bench, (finish, key_length): Way, length: usize) -> Self {
        let pair = pairs::sealing_of(&mut bench.random, key_length);
        Self { finish, pair, message: bench.random.bytes(length) }
    }

    /// IV, ciphertext and tag of whole blocks.
    fn blocks(&self, blocks: &[u8]) -> Vec<u8> {
        let (key, iv) = &self.pair;
        Mode::<Fips197>::new(key, iv).seal_blocks(self.finish, iv, blocks)
    }

    /// The blocks of the message with its padding.
    fn padded(&self) -> Vec<u8> {
        padded(&self.message)
    }

    /// Without the byte 80 of the padding; and with a byte behind it that is not zero, where the padding has room for one.
    fn unpadded(&self, bench: &mut Bench) -> [Vec<u8>; 2] {
        let (mut without, mut more) = (self.padded(), self.padded());
        let (end, last) = (self.message.len(), more.len() - 1);
        without[end] = 0x81;
        more[last] = 0x01 + bench.random.below(0x7F) as u8;
        [without, more].map(|blocks| self.blocks(&blocks))
    }

    /// With one bit of the ciphertext or the tag changed, whatever its end is.
    fn damaged(&self, bench: &mut Bench, sealed: &[u8]) -> Vec<u8> {
        let mut damaged = sealed.to_vec();
        let at = bench.random.within(16, damaged.len() - 1);
        damaged[at] ^= 1 << bench.random.below(8);
        damaged
    }

    /// Opens a record into a room, holds the refusal to this one, and the answer to document 01's where the ciphertext has room.
    fn opens(&self, bench: &mut Bench, sealed: &[u8], room: usize, number: u8) {
        let call = Call::Open { finish: self.finish, key: &self.pair.0, sealed, room };
        let answer = bench.check(&call);
        assert_eq!(answer.number, number, "{call:02X?}");
        let (length, given) = if number == 0 { (self.message.len(), &self.message[..]) } else { (0, &[][..]) };
        assert!(answer.length == length && answer.out.starts_with(given), "{call:02X?}");
        assert!(answer.out[length..].iter().all(|&byte| byte == 0), "{call:02X?}");
        if room >= sealed.len() - around(self.finish) {
            assert_eq!(answer, reference::answer_by_document_01::<Fips197>(&call), "{call:02X?}");
        }
    }

    /// The genuine record.
    fn opens_into(&self, bench: &mut Bench, sealed: &[u8], room: usize) {
        let number = if room < self.message.len() { 5 } else { 0 };
        self.opens(bench, sealed, room, number);
    }

    /// About the message's length, about the ciphertext's, none, and more than enough.
    fn rooms(&self) -> [usize; 8] {
        let (message, ciphertext) = (self.message.len(), self.padded().len());
        let shorter = message.saturating_sub(1);
        [0, shorter, message, message + 1, ciphertext - 1, ciphertext, ciphertext + 1, ciphertext + 100]
    }
}

#[test]
fn every_room_for_short_lists() {
    let mut bench = Bench::new(plan::OPENING_EVERY_ROOM);
    for (length, way) in (0..=130).flat_map(|length| ways().map(move |way| (length, way))) {
        let list = Sealed::new(&mut bench, way, length);
        let sealed = list.blocks(&list.padded());
        for room in 0..=sealed.len() {
            list.opens_into(&mut bench, &sealed, room);
        }
    }
    bench.finish();
}

#[test]
fn a_short_output_is_told_last() {
    let mut bench = Bench::new(plan::OPENING_ROOMS);
    for (length, way) in (0..=130).chain(LONG).flat_map(|length| ways().map(move |way| (length, way))) {
        let list = Sealed::new(&mut bench, way, length);
        let sealed = list.blocks(&list.padded());
        let [without, more] = list.unpadded(&mut bench);
        let damaged = [&sealed, &without].map(|sealed| list.damaged(&mut bench, sealed));
        for room in list.rooms() {
            list.opens_into(&mut bench, &sealed, room);
            list.opens(&mut bench, &without, room, 7);
            list.opens(&mut bench, &more, room, 7);
            damaged.iter().for_each(|damaged| list.opens(&mut bench, damaged, room, 6));
        }
    }
    bench.finish();
}

/// Every bit of a tag counts, whatever is lent.
#[test]
fn a_wrong_tag_is_told_whatever_is_lent() {
    let mut bench = Bench::new(plan::OPENING_TAGS);
    for (length, way) in [0, 15, 16, 40].into_iter().flat_map(|length| ways().map(move |way| (length, way))) {
        let list = Sealed::new(&mut bench, way, length);
        let sealed = list.blocks(&list.padded());
        for bit in 0..8 * tag_length(way.0) {
            let mut damaged = sealed.clone();
            damaged[sealed.len() - 1 - bit / 8] ^= 1 << (bit % 8);
            list.rooms().into_iter().for_each(|room| list.opens(&mut bench, &damaged, room, 6));
        }
    }
    bench.finish();
}
