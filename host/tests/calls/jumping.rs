//! Jumping masks, forward and back.

use balzenoh::{jump, Refusal};

use crate::support::bench::Bench;
use crate::support::call::Call;
use crate::support::plan;
use crate::support::random::Random;

/// Distances at which something changes: the limit, the length of a block in bits, zero, and the ends of 32 bits.
#[rustfmt::skip]
const EDGES: [i32; 19] = [
    i32::MIN, i32::MIN + 1, -1_048_577, -1_048_576, -1_048_575, -4_001, -128, -127, -1, 0,
    1, 127, 128, 4_001, 1_048_575, 1_048_576, 1_048_577, i32::MAX - 1, i32::MAX,
];
const LIMIT: i32 = 1_048_576;

/// Every distance that is not far, every 997th up to the limit, and those about the limit: both ways.
fn distances() -> impl Iterator<Item = i32> {
    let one_way = (0..=4_020).chain((4_020..LIMIT).step_by(997)).chain(LIMIT - 20..=LIMIT + 20);
    one_way.flat_map(|distance| [distance, -distance])
}

/// Any distance within the limit.
fn within_limit(random: &mut Random) -> i32 {
    random.within(0, 2 * LIMIT as usize) as i32 - LIMIT
}

#[test]
fn every_distance_length_and_room() {
    let mut bench = Bench::new(plan::JUMPS);
    for distance in distances() {
        for _ in 0..10 {
            let mask = bench.random.block();
            bench.check(&Call::Jump { mask: &mask, distance, room: 16 });
        }
    }
    for (length, room) in (0..=40).flat_map(|length| (0..=40).map(move |room| (length, room))) {
        for distance in EDGES {
            let mask = bench.random.bytes(length);
            bench.check(&Call::Jump { mask: &mask, distance, room });
        }
    }
    // Masks of few ones carry in ways of their own.
    for _ in 0..100_000 {
        let mask = (1_u128 << bench.random.below(128) | 1_u128 << bench.random.below(128)).to_be_bytes();
        let distance =
            if bench.random.once_in(2) { bench.random.within(0, 600) as i32 - 300 } else { bench.random.signed_edge() };
        let room = bench.random.mostly(16, 40);
        bench.check(&Call::Jump { mask: &mask, distance, room });
    }
    bench.finish();
}

/// Forward and then back, back and then forward.
#[test]
fn there_and_back_is_the_identity() {
    let mut random = Random::new(51);
    for distance in distances().filter(|distance| distance.abs() <= LIMIT) {
        let mask = random.block();
        let there = jump(&mask, distance).expect("in range");
        assert_eq!(jump(&there, -distance), Ok(mask), "{distance}");
    }
}

#[test]
fn distances_add() {
    let mut random = Random::new(52);
    let mut in_range = 0;
    for _ in 0..40_000 {
        let (mask, [one, other]) = (random.block(), [(); 2].map(|()| within_limit(&mut random)));
        let in_turn = jump(&jump(&mask, one).expect("in range"), other).expect("in range");
        let at_once = jump(&mask, one + other);
        let fits = (one + other).abs() <= LIMIT;
        assert_eq!(at_once, if fits { Ok(in_turn) } else { Err(Refusal::BeyondLimit) }, "{one} and {other}");
        in_range += u32::from(fits);
    }
    assert!(in_range > 20_000);
}
