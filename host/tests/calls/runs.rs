//! Sealing and checking runs.

use crate::support::bench::{rooms_around, Bench};
use crate::support::call::Call;
use crate::support::pairs;
use crate::support::plan;
use crate::support::random::Random;

#[test]
fn sealing_every_length_with_every_room() {
    let mut bench = Bench::new(plan::RUNS_SEALED);
    for (length, last) in (0..=600).flat_map(|length| [(length, false), (length, true)]) {
        let ((key, iv), bytes) = (pairs::any(&mut bench.random), bench.random.bytes(length));
        let first = first_block(&mut bench.random, length);
        let needed = (length / 16 + usize::from(last)) * 16;
        for room in rooms_around(needed) {
            let record_room = bench.random.mostly(24, 45);
            bench.check(&Call::SealRun { key: &key, iv: &iv, first, last, bytes: &bytes, room, record_room });
        }
    }
    bench.finish();
}

#[test]
fn checking_every_length_with_every_room() {
    let mut bench = Bench::new(plan::RUNS_CHECKED);
    for length in 0..=600 {
        // Only whole blocks get beyond row 3: most lengths are made of them.
        let length = if length % 4 == 0 { length } else { length / 16 * 16 };
        let ((key, iv), bytes) = (pairs::any(&mut bench.random), bench.random.bytes(length));
        let first = first_block(&mut bench.random, length);
        for record_room in rooms_around(24) {
            bench.check(&Call::CheckRun { key: &key, iv: &iv, first, bytes: &bytes, record_room });
        }
    }
    bench.finish();
}

#[test]
fn first_block_and_count_around_the_limit() {
    let mut bench = Bench::new(plan::RUN_EDGES);
    for first in (3_998..=4_001).chain(1_048_566..=1_048_578).chain([0, 1, 2, 1 << 31, u32::MAX - 1, u32::MAX]) {
        for length in 0..=192 {
            let key_length = bench.random.pick(&pairs::KEY_LENGTHS);
            check_all(&mut bench, [key_length, 16], first, length);
        }
    }
    // Runs of about 4,000 blocks that end about the limit.
    for (first, length) in (1_044_576..=1_044_579).flat_map(|first| (63_982..=64_002).map(move |length| (first, length))) {
        let key_length = bench.random.pick(&pairs::KEY_LENGTHS);
        check_all(&mut bench, [key_length, 16], first, length);
    }
    for (key_length, iv_length) in (0..=48).flat_map(|key| (0..=40).map(move |iv| (key, iv))) {
        for (first, length) in [(0, 16), (1_048_575, 17), (1_048_577, 5)] {
            check_all(&mut bench, [key_length, iv_length], first, length);
        }
    }
    bench.finish();
}

/// The three calls on one run, with rooms that mostly suffice.
fn check_all(bench: &mut Bench, lengths: [usize; 2], first: u32, length: usize) {
    let random = &mut bench.random;
    let ((key, iv), bytes) = (&pairs::of_lengths(random, lengths), &random.bytes(length));
    let record_room = random.mostly(24, 45);
    let room = random.mostly(length + 16, length + 40);
    for last in [false, true] {
        bench.check(&Call::SealRun { key, iv, first, last, bytes, room, record_room });
    }
    bench.check(&Call::CheckRun { key, iv, first, bytes, record_room });
}

/// A first block: any within the limit, or one with which the run just fits or just does not.
fn first_block(random: &mut Random, length: usize) -> u32 {
    let room_left = 1_048_576 - length / 16;
    match random.below(4) {
        0 => random.edge(),
        1 => random.within(room_left - 2, room_left + 1) as u32,
        _ => random.below(room_left) as u32,
    }
}
