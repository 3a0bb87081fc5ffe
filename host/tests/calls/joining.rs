//! Joining records made by hand.

use crate::support::bench::Bench;
use crate::support::call::Call;
use crate::support::lists::{self, EDGES, LIMIT, SPAN};
use crate::support::plan;
use crate::support::random::Random;

#[test]
fn pairs_and_lists_of_any_numbers() {
    let mut bench = Bench::new(plan::JOINS);
    let mut joined = 0;
    for _ in 0..plan::JOINS.calls / 2 {
        let record_room = bench.random.mostly(24, 45);
        let pair = records(&mut bench.random, 2);
        let (left, right) = pair.split_at(24);
        let answer = bench.check(&Call::Join { left, right, record_room });
        let count = bench.random.below(7);
        let list = records(&mut bench.random, count);
        joined += u32::from(answer.number == 0);
        joined += u32::from(bench.check(&Call::JoinList { records: &list, record_room }).number == 0);
    }
    every_length(&mut bench);
    println!("joining records: {joined} joined");
    assert!(joined > 50_000);
    bench.finish();
}

/// Records of every length from 0 to 40, and lists of every length up to 100.
fn every_length(bench: &mut Bench) {
    for (left_length, right_length) in (0..=40).flat_map(|left| (0..=40).map(move |right| (left, right))) {
        let pair = records(&mut bench.random, 4);
        let (left, right) = (&pair[..left_length], &pair[24..24 + right_length]);
        bench.check(&Call::Join { left, right, record_room: 24 });
    }
    for length in 0..=100 {
        let list = records(&mut bench.random, 5);
        for record_room in [0, 23, 24, 25] {
            bench.check(&Call::JoinList { records: &list[..length], record_room });
        }
    }
}

/// Records in turn, mostly neighbours within the limit, one after the other as bytes.
fn records(random: &mut Random, count: usize) -> Vec<u8> {
    let orderly = !random.once_in(3);
    let mut bytes = Vec::with_capacity(24 * count);
    let mut next = if random.once_in(2) { 0 } else { random.below(1_048_000) as u32 };
    for _ in 0..count {
        let orderly = orderly && !random.once_in(12);
        let first = if orderly { next } else { random.edge() };
        let count = if orderly { random.below(count_bound(first)) as u32 } else { random.edge() };
        next = first.wrapping_add(count);
        bytes.extend([first.to_be_bytes(), count.to_be_bytes()].concat());
        bytes.extend(random.block());
    }
    bytes
}

/// A bound for the count: small steps, so that several records fit below the limit.
fn count_bound(first: u32) -> usize {
    1 + (LIMIT as usize).saturating_sub(first as usize) / 2
}

/// Every count of which two fit within the span, in lists of two, three, some and as many as fit: all of it the same count, the
/// last one shorter, the first one another.
#[test]
fn lists_of_equal_counts() {
    let mut bench = Bench::new(plan::EQUAL_COUNTS);
    for count in 1..=SPAN / 2 {
        let most = (SPAN / count) as usize;
        for records in [2, 3.min(most), bench.random.within(2, most), most] {
            let equal = lists::equal(count, records);
            let (mut last_shorter, mut first_other) = (equal.clone(), equal.clone());
            last_shorter[records - 1] = bench.random.below(count as usize) as u32;
            first_other[0] = bench.random.below(count as usize) as u32;
            join_in_every_way(&mut bench, &equal);
            join_in_every_way(&mut bench, &last_shorter);
            join_in_every_way(&mut bench, &first_other);
        }
    }
    bench.finish();
}

#[test]
fn lists_of_changing_counts() {
    let mut bench = Bench::new(plan::CHANGING_COUNTS);
    for (one, other) in EDGES.iter().flat_map(|&one| EDGES.map(|other| (one, other))) {
        two_counts(&mut bench, one, other);
    }
    for (count, bit) in EDGES.iter().flat_map(|&count| (0..12).map(move |bit| (count, bit))) {
        let other = count ^ 1 << bit;
        join_in_every_way(&mut bench, &lists::fitting([0, count, other, count, other]));
    }
    for (one, other) in (0..=4).flat_map(|one| (0..=4).map(move |other| (one, other))) {
        join_in_every_way(&mut bench, &lists::in_turn(one, other, 1, 1_000));
        join_in_every_way(&mut bench, &lists::in_turn(one, other, 2, 1_000));
    }
    for _ in 0..5_000 {
        stretches_of_few_counts(&mut bench);
    }
    for records in (1..=40).chain([255, 256, 257, 1_000]) {
        join_in_every_way(&mut bench, &lists::equal(0, records));
    }
    bench.finish();
}

/// Two counts in turn and in stretches, with empty runs first on the right, between others and in a row.
fn two_counts(bench: &mut Bench, one: u32, other: u32) {
    join_in_every_way(bench, &lists::in_turn(one, other, 1, 11));
    join_in_every_way(bench, &[one, one, one, other, other, one, other]);
    join_in_every_way(bench, &[one, 0, other, other, 0, 0, other, one, one]);
    join_in_every_way(bench, &[one, other, other, other, other]);
}

fn stretches_of_few_counts(bench: &mut Bench) {
    let records = bench.random.within(3, 40);
    let few = lists::few_counts(&mut bench.random);
    let mut counts = lists::stretches(&mut bench.random, &few, records);
    if bench.random.once_in(3) {
        counts = lists::with_empty_runs(&mut bench.random, counts);
    }
    join_in_every_way(bench, &counts);
}

/// Two runs, of which the right one has every count; and a third of the same count where it fits.
#[test]
fn every_count_on_the_right() {
    let mut bench = Bench::new(plan::EVERY_COUNT);
    for count in 0..=SPAN {
        for _ in 0..3 {
            let left = bench.random.within(0, (SPAN - count) as usize) as u32;
            join_in_every_way(&mut bench, &[left, count]);
            join_in_every_way(&mut bench, &lists::fitting([left, count, count]));
        }
    }
    for count in far_counts() {
        let anywhere = bench.random.within(0, (LIMIT - count) as usize) as u32;
        for left in [0, anywhere, LIMIT - count] {
            let rest = LIMIT - left - count;
            join_in_every_way(&mut bench, &[left, count]);
            join_in_every_way(&mut bench, &[left, count, count.min(rest)]);
        }
    }
    bench.finish();
}

/// About each power of two up to the limit, and any.
fn far_counts() -> impl Iterator<Item = u32> {
    let about = (0..=20).flat_map(|bit| [(1 << bit) - 1, 1 << bit, (1 << bit) + 1]);
    about.chain((0..LIMIT).step_by(9_973)).filter(|&count| count <= LIMIT)
}

/// Joins a list at once, pair by pair from the left and sometimes in groups: the record is the same each time.
fn join_in_every_way(bench: &mut Bench, counts: &[u32]) {
    let highest = LIMIT - counts.iter().sum::<u32>();
    let anywhere = bench.random.within(0, highest as usize) as u32;
    let first = bench.random.pick(&[0, anywhere, highest]);
    let list = lists::records(&mut bench.random, first, counts);
    let record = joined_list(bench, &list);
    assert_eq!(joined_pair_by_pair(bench, &list), record, "{counts:?}");
    if bench.random.once_in(3) {
        assert_eq!(joined_in_groups(bench, &list), record, "{counts:?}");
    }
}

fn joined_list(bench: &mut Bench, records: &[u8]) -> Vec<u8> {
    let answer = bench.check(&Call::JoinList { records, record_room: 24 });
    assert_eq!(answer.number, 0);
    answer.record
}

fn joined_pair_by_pair(bench: &mut Bench, list: &[u8]) -> Vec<u8> {
    let (first, others) = list.split_at(24);
    others.chunks(24).fold(first.to_vec(), |left, right| {
        let answer = bench.check(&Call::Join { left: &left, right, record_room: 24 });
        assert_eq!(answer.number, 0);
        answer.record
    })
}

/// Each group of neighbours is joined as a list, and so are the records of the groups.
fn joined_in_groups(bench: &mut Bench, list: &[u8]) -> Vec<u8> {
    let mut groups = Vec::new();
    let mut rest = list;
    while !rest.is_empty() {
        let records = bench.random.within(1, (rest.len() / 24).min(20));
        let (group, after) = rest.split_at(24 * records);
        groups.extend(joined_list(bench, group));
        rest = after;
    }
    joined_list(bench, &groups)
}

/// A record out of turn among equal counts gives 8, one beyond the limit 4, and both together 4, whichever comes first.
#[test]
fn lists_refused_within() {
    let mut bench = Bench::new(plan::REFUSED_LISTS);
    for _ in 0..plan::REFUSED_LISTS.calls / 4 {
        let (count, records) = (bench.random.within(0, 150) as u32, bench.random.within(2, 24));
        let counts = lists::equal(count, records);
        let list = lists::records(&mut bench.random, 1, &counts);
        joined_list(&mut bench, &list);
        let (one, other) = (bench.random.within(1, records - 1), bench.random.below(records));
        let mut out_of_turn = list.clone();
        put_out_of_turn(&mut bench.random, &mut out_of_turn, one);
        let (mut beyond, mut both) = (list, out_of_turn.clone());
        put_beyond_limit(&mut bench.random, &mut beyond, other);
        put_beyond_limit(&mut bench.random, &mut both, other);
        for (records, number) in [(&out_of_turn, 8), (&beyond, 4), (&both, 4)] {
            assert_eq!(bench.check(&Call::JoinList { records, record_room: 24 }).number, number, "{records:02X?}");
        }
    }
    bench.finish();
}

/// Lets a record start one block early or late.
fn put_out_of_turn(random: &mut Random, list: &mut [u8], at: usize) {
    let first = number_at(list, 24 * at);
    let wrong = if random.once_in(2) { first - 1 } else { first + 1 };
    list[24 * at..24 * at + 4].copy_from_slice(&wrong.to_be_bytes());
}

/// Lets a record end one block beyond the limit, or far beyond it.
fn put_beyond_limit(random: &mut Random, list: &mut [u8], at: usize) {
    let first = number_at(list, 24 * at);
    let wrong = random.pick(&[LIMIT + 1 - first, LIMIT + 1, u32::MAX]);
    list[24 * at + 4..24 * at + 8].copy_from_slice(&wrong.to_be_bytes());
}

fn number_at(list: &[u8], at: usize) -> u32 {
    u32::from_be_bytes(list[at..at + 4].try_into().expect("4 bytes"))
}
