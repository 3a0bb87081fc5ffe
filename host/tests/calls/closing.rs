//! Closing records, and testing tags.

use crate::support::bench::Bench;
use crate::support::call::Call;
use crate::support::finish::{tag_length, Finish, FINISHES};
use crate::support::fips197::Fips197;
use crate::support::mode::{number, Mode};
use crate::support::pairs;
use crate::support::plan;
use crate::support::random::Random;

#[test]
fn records_of_any_numbers() {
    let mut bench = Bench::new(plan::CLOSINGS);
    let mut passed = [0; 2];
    for round in 0..plan::CLOSINGS.calls / 2 {
        let finish = FINISHES[round as usize % 2];
        let (key, iv) = pairs::any(&mut bench.random);
        let first = if bench.random.once_in(4) { bench.random.edge() } else { 0 };
        let (count, preauthenticator) = (bench.random.edge(), bench.random.block());
        let record = [&first.to_be_bytes()[..], &count.to_be_bytes(), &preauthenticator].concat();
        let room = bench.random.mostly(tag_length(finish), 40);
        bench.check(&Call::Close { finish, key: &key, iv: &iv, record: &record, room });
        let right = (count <= 1_048_576).then(|| Mode::<Fips197>::new(&key, &iv).tag(finish, count, number(&preauthenticator)));
        let tag = likely_tag(&mut bench.random, finish, right);
        let answer = bench.check(&Call::Test { finish, key: &key, iv: &iv, record: &record, tag: &tag });
        passed[finish as usize] += u32::from(answer.number == 0);
    }
    every_length(&mut bench);
    println!("closing and testing records: {passed:?} tags passed");
    assert!(passed.iter().all(|&passed| passed > 2_500));
    bench.finish();
}

/// The right tag, where there is one, or it with one bit changed, or any.
fn likely_tag(random: &mut Random, finish: Finish, right: Option<Vec<u8>>) -> Vec<u8> {
    let Some(mut tag) = right.filter(|_| !random.once_in(4)) else { return random.bytes(tag_length(finish)) };
    if random.once_in(2) {
        let bit = random.below(8 * tag.len());
        tag[bit / 8] ^= 0x80 >> (bit % 8);
    }
    tag
}

/// Each argument with every length from 0 to 48, the others right or wrong.
fn every_length(bench: &mut Bench) {
    for (length, key) in (0..=48).flat_map(|length| pairs::KEY_LENGTHS.map(|key| (length, key))) {
        for (finish, tag) in FINISHES.map(|finish| (finish, tag_length(finish))) {
            let each =
                [[length, 16, 24, tag], [key, length, 24, tag], [key, 16, length, tag], [key, 16, 24, length], [length; 4]];
            each.into_iter().for_each(|lengths| with_lengths(bench, finish, lengths));
        }
    }
    for _ in 0..1_000 {
        let (key, finish) = (bench.random.pick(&pairs::KEY_LENGTHS), bench.random.pick(&FINISHES));
        let lengths = [key, 16, 24, tag_length(finish)].map(|right| bench.random.mostly(right, 49));
        with_lengths(bench, finish, lengths);
    }
}

fn with_lengths(bench: &mut Bench, finish: Finish, [key_length, iv_length, record_length, tag_length]: [usize; 4]) {
    for numbers in [[0, 1], [0, 1_048_576], [0, 1_048_577], [1, 3], [0, 0]] {
        let (key, iv) = pairs::of_lengths(&mut bench.random, [key_length, iv_length]);
        let mut record: Vec<u8> = numbers.iter().flat_map(|number: &u32| number.to_be_bytes()).collect();
        record.extend(bench.random.bytes(40));
        record.truncate(record_length);
        let tag = bench.random.bytes(tag_length);
        bench.check(&Call::Close { finish, key: &key, iv: &iv, record: &record, room: tag_length });
        bench.check(&Call::Test { finish, key: &key, iv: &iv, record: &record, tag: &tag });
    }
}
