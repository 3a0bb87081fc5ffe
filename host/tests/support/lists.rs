//! Lists of records by their counts: equal ones in a row, others between them, empty runs. Joining a list keeps the last power of
//! x for the next record of that count, and in these lists a power that stands for another count would show.

use std::iter::repeat_n;

use super::random::Random;

/// The most blocks that a list of records may reach to.
pub const LIMIT: u32 = 1_048_576;

/// Lists of records are tried with so many blocks together, at most: every count up to that.
pub const SPAN: u32 = 4_000;

/// Counts about which x to that power changes its form: one zero byte less at its front, reduced for the first time or the second,
/// more than fits into a byte.
#[rustfmt::skip]
pub const EDGES: [u32; 26] = [
    0, 1, 2, 7, 8, 9, 15, 16, 17, 63, 64, 65, 119, 120, 121,
    127, 128, 129, 135, 136, 247, 248, 249, 255, 256, 257,
];

/// As many of the counts as fit within the span together.
pub fn fitting(counts: impl IntoIterator<Item = u32>) -> Vec<u32> {
    let mut end = 0;
    let fits = |count: &u32| {
        end += count;
        end <= SPAN
    };
    counts.into_iter().take_while(fits).collect()
}

pub fn equal(count: u32, records: usize) -> Vec<u32> {
    fitting(repeat_n(count, records))
}

/// The two counts in turn, each so many times in a row.
pub fn in_turn(one: u32, other: u32, times: usize, records: usize) -> Vec<u32> {
    fitting((0..records).map(|at| if (at / times).is_multiple_of(2) { one } else { other }))
}

/// Stretches of equal counts, each count one of a few, so that one comes back after another.
pub fn stretches(random: &mut Random, few: &[u32], records: usize) -> Vec<u32> {
    let mut counts = Vec::with_capacity(records + 4);
    while counts.len() < records {
        counts.extend(repeat_n(random.pick(few), random.within(1, 5)));
    }
    fitting(counts)
}

/// Puts empty runs at some places, up to three in a row.
pub fn with_empty_runs(random: &mut Random, mut counts: Vec<u32>) -> Vec<u32> {
    for _ in 0..random.within(1, 3) {
        let at = random.within(0, counts.len());
        counts.splice(at..at, repeat_n(0, random.within(1, 3)));
    }
    counts
}

/// Two counts or three, each at an edge or any that is not long.
pub fn few_counts(random: &mut Random) -> Vec<u32> {
    let count = |random: &mut Random| if random.once_in(2) { random.pick(&EDGES) } else { random.below(400) as u32 };
    (0..random.within(2, 3)).map(|_| count(random)).collect()
}

/// The records of runs with these counts, each the neighbour of the one before it, one after the other as bytes.
pub fn records(random: &mut Random, first: u32, counts: &[u32]) -> Vec<u8> {
    let mut bytes = Vec::with_capacity(24 * counts.len());
    let mut next = first;
    for count in counts {
        bytes.extend([next.to_be_bytes(), count.to_be_bytes()].concat());
        bytes.extend(preauthenticator(random));
        next += count;
    }
    bytes
}

/// Mostly random, sometimes zero or a single bit.
fn preauthenticator(random: &mut Random) -> [u8; 16] {
    match random.below(8) {
        0 => [0; 16],
        1 => (1_u128 << random.below(128)).to_be_bytes(),
        _ => random.block(),
    }
}
