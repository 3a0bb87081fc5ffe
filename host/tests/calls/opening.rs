//! Opening sealed records.

use crate::support::bench::{rooms_around, Bench};
use crate::support::call::Call;
use crate::support::finish::{around, ciphertext_length, Finish, FINISHES};
use crate::support::fips197::Fips197;
use crate::support::mode::{padded, Mode};
use crate::support::pairs;
use crate::support::plan;
use crate::support::random::Random;

#[test]
fn every_length_with_every_room() {
    let mut bench = Bench::new(plan::OPENING);
    for (length, finish) in (0..=600).flat_map(|length| FINISHES.map(|finish| (length, finish))) {
        let ((key, iv), message) = (pairs::any(&mut bench.random), bench.random.bytes(length));
        let sealed = Mode::<Fips197>::new(&key, &iv).seal_blocks(finish, &iv, &padded(&message));
        for room in rooms_around(length / 16 * 16 + 16) {
            let answer = bench.check(&Call::Open { finish, key: &key, sealed: &sealed, room });
            let number = if room < length { 5 } else { 0 };
            assert!(answer.number == 10 || answer.number == number);
            assert!(answer.number != 0 || answer.out.starts_with(&message));
        }
    }
    bench.finish();
}

#[test]
fn every_size_around_the_edges() {
    let mut bench = Bench::new(plan::OPENING_EDGES);
    for (length, finish) in (0..=100).chain(64_000..=64_060).flat_map(|length| FINISHES.map(|finish| (length, finish))) {
        let ((key, iv), noise) = (pairs::any(&mut bench.random), bench.random.bytes(length));
        let sealed = [&iv, &noise[..]].concat()[..length].to_vec();
        let vouched = with_right_tag(finish, &key, &sealed);
        let needed = length.saturating_sub(around(finish));
        for room in [0, 1, needed.saturating_sub(1), needed, needed + 20] {
            bench.check(&Call::Open { finish, key: &key, sealed: &sealed, room });
            bench.check(&Call::Open { finish, key: &key, sealed: &vouched, room });
        }
    }
    for key_length in 0..=48 {
        let key = bench.random.bytes(key_length);
        for length in [0, 47, 48, 49, 51, 52, 53, 64, 68, 80, 64_033, 64_037] {
            let sealed = bench.random.bytes(length);
            for finish in FINISHES {
                bench.check(&Call::Open { finish, key: &key, sealed: &sealed, room: 48 });
            }
        }
    }
    bench.finish();
}

/// The right tag under any last block: refused with 7, unless the block happens to be padded. The output ends somewhere about the
/// last block.
#[test]
fn every_end_of_a_list() {
    let mut bench = Bench::new(plan::OPENING_ENDS);
    let mut found = [0; 11];
    for _ in 0..plan::OPENING_ENDS.calls {
        let ((key, iv), finish) = (pairs::any(&mut bench.random), bench.random.pick(&FINISHES));
        let mut blocks = random_blocks(&mut bench.random);
        blocks.extend(likely_end(&mut bench.random));
        let sealed = Mode::<Fips197>::new(&key, &iv).seal_blocks(finish, &iv, &blocks);
        let room = blocks.len() + 2 - bench.random.below(19);
        let answer = bench.check(&Call::Open { finish, key: &key, sealed: &sealed, room });
        found[usize::from(answer.number)] += 1;
    }
    println!("ends of lists: {} messages, {} refused with 5, {} with 7, {} with 10", found[0], found[5], found[7], found[10]);
    assert!([0, 5, 7, 10].into_iter().all(|number| found[number] > 1_000));
    bench.finish();
}

/// None to two blocks before the last one.
fn random_blocks(random: &mut Random) -> Vec<u8> {
    let count = random.below(3);
    random.bytes(16 * count)
}

/// A last block that is nearly padded: bytes 80, zeros, and few others.
fn likely_end(random: &mut Random) -> [u8; 16] {
    let mut end = [0; 16];
    let zeros_from = random.within(0, 16);
    for byte in &mut end[..zeros_from] {
        *byte = random.pick(&[0x00, 0x80, 0x80, 0x01, 0x81, 0x40, 0xFF]);
    }
    end
}

/// The same IV and ciphertext with the tag that belongs to them, where the size is one of a sealed record.
fn with_right_tag(finish: Finish, key: &[u8], sealed: &[u8]) -> Vec<u8> {
    let Some(length) = ciphertext_length(finish, sealed.len()) else { return sealed.to_vec() };
    let iv: &[u8; 16] = sealed[..16].try_into().expect("16 bytes");
    Mode::<Fips197>::new(key, iv).vouch_for(finish, iv, &sealed[16..][..length])
}
