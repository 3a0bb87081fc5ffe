//! Any cut, and any list of calls in any order, refused ones too. After every call the segments are held against the unbroken
//! mode.

use crate::support::bench::Bench;
use crate::support::call::Call;
use crate::support::finish::{around, other, tag_length, Finish, FINISHES};
use crate::support::fips197::Fips197;
use crate::support::mode::{lent, padded, Mode};
use crate::support::pairs;
use crate::support::plan;
use crate::support::random::Random;
use crate::support::segments::{Segments, Text};

#[test]
fn over_messages() {
    let mut bench = Bench::new(plan::CUTS_SEALED);
    for _ in 0..plan::CUTS {
        let (key, iv) = pairs::sealing(&mut bench.random);
        let length = random_length(&mut bench.random);
        let text = Text::Message(bench.random.bytes(length));
        let mut segments = Segments::new(key, iv, text, &mut bench.random);
        work(&mut segments, &mut bench);
        for finish in FINISHES {
            close_as_sealed_whole(&segments, finish, &mut bench);
        }
    }
    bench.finish();
}

#[test]
fn over_sealed_records() {
    let mut bench = Bench::new(plan::CUTS_CHECKED);
    let mut passed = [0; 2];
    for _ in 0..plan::CUTS {
        let finish = bench.random.pick(&FINISHES);
        let (key, sealed) = random_sealed(&mut bench.random, finish);
        let (iv, rest) = sealed.split_at(16);
        let text = Text::Ciphertext(rest[..rest.len() - tag_length(finish)].to_vec());
        let mut segments = Segments::new(key, iv.try_into().expect("16 bytes"), text, &mut bench.random);
        work(&mut segments, &mut bench);
        passed[finish as usize] += u32::from(test_as_opened_whole(&segments, finish, &sealed, &mut bench));
        test_by_the_other_finish(&segments, other(finish), &mut bench);
    }
    println!("cuts over sealed records: {passed:?} tags passed");
    assert!(passed.iter().all(|&passed| passed > 1_000));
    bench.finish();
}

/// A random list of calls, and then those that leave a single record.
fn work(segments: &mut Segments, bench: &mut Bench) {
    for _ in 0..bench.random.within(5, 40) {
        step(segments, bench);
        segments.check_all();
    }
    while let Some(at) = pick(&segments.empty(), &mut bench.random) {
        segments.fill(bench, at, true);
        segments.check_all();
    }
    while segments.list.len() > 1 {
        join_neighbours(segments, bench);
        segments.check_all();
    }
}

fn step(segments: &mut Segments, bench: &mut Bench) {
    let empty = pick(&segments.empty(), &mut bench.random);
    match (bench.random.below(10), empty) {
        (0..=2, Some(at)) => segments.fill(bench, at, true),
        (3, Some(at)) => segments.fill(bench, at, false),
        (4..=6, _) => join_neighbours(segments, bench),
        (7 | 8, _) => join_in_another_way(segments, bench),
        _ => assert_eq!(segments.join_call(bench, &[], false), Err(9)),
    }
}

fn pick(indices: &[usize], random: &mut Random) -> Option<usize> {
    (!indices.is_empty()).then(|| random.pick(indices))
}

/// One or more filled segments in a row, from a random one on.
fn join_neighbours(segments: &mut Segments, bench: &mut Bench) {
    let Some(from) = pick(&segments.filled(), &mut bench.random) else {
        return;
    };
    let after = segments.list[from..].iter().position(|segment| segment.record.is_none());
    let longest = after.unwrap_or(segments.list.len() - from);
    let as_pair = longest > 1 && bench.random.once_in(2);
    let count = if as_pair { 2 } else { bench.random.within(1, longest.min(5)) };
    segments.join(bench, from, from + count - 1, as_pair);
}

/// Filled segments in any order, with repetitions: 8 where two in turn do not follow each other, and nothing changes.
fn join_in_another_way(segments: &mut Segments, bench: &mut Bench) {
    let filled = segments.filled();
    if filled.is_empty() {
        return;
    }
    let as_pair = bench.random.once_in(2);
    let count = if as_pair { 2 } else { bench.random.within(2, 5) };
    let indices: Vec<_> = (0..count).map(|_| bench.random.pick(&filled)).collect();
    if segments.out_of_turn(&indices) {
        assert_eq!(segments.join_call(bench, &indices, as_pair), Err(8));
    }
}

/// The single record closes into the tag that sealing the whole message gives.
fn close_as_sealed_whole(segments: &Segments, finish: Finish, bench: &mut Bench) {
    let (key, iv, record) = (&segments.key, &segments.iv, segments.record(0));
    let tag = bench.check(&Call::Close { finish, key, iv, record, room: tag_length(finish) });
    assert_eq!((tag.number, &tag.out[..]), (0, segments.unbroken.tag(finish)));
    assert_eq!(bench.check(&Call::Test { finish, key, iv, record, tag: &tag.out }).number, 0);
    if let Text::Message(message) = &segments.text {
        let whole = [&iv[..], &segments.unbroken.ciphertext, &tag.out].concat();
        let sealed = bench.check(&Call::Seal { finish, key, iv, message, room: whole.len() });
        assert_eq!(sealed.out, whole);
    }
}

/// The single record passes a sealed record's tag exactly where opening gives a message or 7.
fn test_as_opened_whole(segments: &Segments, finish: Finish, sealed: &[u8], bench: &mut Bench) -> bool {
    let (key, iv, record) = (&segments.key, &segments.iv, segments.record(0));
    let tag = &sealed[sealed.len() - tag_length(finish)..];
    let tested = bench.check(&Call::Test { finish, key, iv, record, tag }).number;
    let opened = bench.check(&Call::Open { finish, key, sealed, room: sealed.len() - around(finish) }).number;
    assert_eq!(tested == 0, matches!(opened, 0 | 7));
    assert_eq!(tested == 0, tag == segments.unbroken.tag(finish));
    tested == 0
}

/// The record was made without a finish, and passes the other one's unbroken tag.
fn test_by_the_other_finish(segments: &Segments, finish: Finish, bench: &mut Bench) {
    let (key, iv, record, tag) = (&segments.key, &segments.iv, segments.record(0), segments.unbroken.tag(finish));
    assert_eq!(bench.check(&Call::Test { finish, key, iv, record, tag }).number, 0);
}

/// Mostly short, sometimes longer, now and then of thousands of blocks.
fn random_length(random: &mut Random) -> usize {
    match random.below(1_000) {
        0 => random.within(63_900, 63_999),
        1..=10 => random.below(4_000),
        _ => random.below(400),
    }
}

/// Genuine, with any ciphertext and the right tag, damaged, or any bytes.
fn random_sealed(random: &mut Random, finish: Finish) -> (Vec<u8>, Vec<u8>) {
    let (key, iv) = pairs::sealing(random);
    let length = random_length(random);
    let blocks = padded(&random.bytes(length));
    let mode = Mode::<Fips197>::new(&key, &iv);
    let mut sealed = match random.below(4) {
        0 => random.bytes(blocks.len() + around(finish)),
        1 => mode.vouch_for(finish, &iv, &blocks),
        _ => mode.seal_blocks(finish, &iv, &blocks),
    };
    if random.once_in(4) {
        // A key that lends zeros keeps its IV: one bit more could make it a pair that is refused.
        let from = if lent(&key) == 0 { 16 } else { 0 };
        let at = random.within(from, sealed.len() - 1);
        sealed[at] ^= 1 << random.below(8);
    }
    (key, sealed)
}
