//! Sealing whole messages.

use crate::support::bench::{rooms_around, Bench};
use crate::support::call::Call;
use crate::support::finish::{around, FINISHES};
use crate::support::pairs;
use crate::support::plan;

#[test]
fn every_length_with_every_room() {
    let mut bench = Bench::new(plan::SEALING);
    for (length, finish) in (0..=600).flat_map(|length| FINISHES.map(|finish| (length, finish))) {
        let ((key, iv), message) = (pairs::any(&mut bench.random), bench.random.bytes(length));
        for room in rooms_around(length / 16 * 16 + 16 + around(finish)) {
            bench.check(&Call::Seal { finish, key: &key, iv: &iv, message: &message, room });
        }
    }
    bench.finish();
}

#[test]
fn long_messages_and_wrong_lengths() {
    let mut bench = Bench::new(plan::SEALING_EDGES);
    for (length, finish) in (63_984..=64_001).flat_map(|length| FINISHES.map(|finish| (length, finish))) {
        let ((key, iv), message) = (pairs::any(&mut bench.random), bench.random.bytes(length));
        let needed = length / 16 * 16 + 16 + around(finish);
        for room in [0, 1, needed - 16, needed - 4, needed - 1, needed, needed + 1] {
            bench.check(&Call::Seal { finish, key: &key, iv: &iv, message: &message, room });
        }
    }
    let short = bench.random.bytes(15);
    for (key_length, iv_length) in (0..=48).flat_map(|key| (0..=40).map(move |iv| (key, iv))) {
        let (key, iv) = pairs::of_lengths(&mut bench.random, [key_length, iv_length]);
        for room in [47, 48, 51, 52] {
            for finish in FINISHES {
                bench.check(&Call::Seal { finish, key: &key, iv: &iv, message: &short, room });
            }
        }
    }
    bench.finish();
}
