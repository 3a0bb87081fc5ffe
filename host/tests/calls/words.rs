//! Two words for sixteen bytes: what is worked out in 64-bit words is what the library gives, and what the reference over numbers of
//! 128 bits gives.

use balzenoh::hex;

use crate::support::bench::Bench;
use crate::support::call::Call;
use crate::support::finish::FINISHES;
use crate::support::fips197::Fips197;
use crate::support::lists::{self, LIMIT, SPAN};
use crate::support::mode::{divided_by_x, number, times_x};
use crate::support::pairs;
use crate::support::plan;
use crate::support::random::Random;
use crate::support::words::{Record, WordMode, Words};

const TOP: u64 = 1 << 63;

const fn words(upper: u64, lower: u64) -> Words {
    Words { upper, lower }
}

/// Nothing, the reduction in either word, and words full of ones.
const PLAIN: [Words; 6] =
    [words(0, 0), words(0, 0x87), words(0x87, 0), words(u64::MAX, 0), words(0, u64::MAX), words(u64::MAX, u64::MAX)];

/// The top bits and the low bits of the words, by which a step carries and reduces.
const KINDS: usize = 16;

/// Random words whose top bits and low bits are those of this kind.
fn carrying(random: &mut Random, kind: usize) -> Words {
    let word = |inner: u64, kind: usize| inner & !TOP & !1 | if kind & 1 == 1 { TOP } else { 0 } | (kind >> 1 & 1) as u64;
    let (upper, lower) = (random.next(), random.next());
    words(word(upper, kind), word(lower, kind >> 2))
}

/// The plain words, all single bits, and so many of each kind.
fn edges(random: &mut Random, of_each_kind: usize) -> Vec<Words> {
    let mut edges = PLAIN.to_vec();
    edges.extend((0..64).flat_map(|bit| [words(1 << bit, 0), words(0, 1 << bit)]));
    for kind in (0..KINDS).flat_map(|kind| (0..of_each_kind).map(move |_| kind)) {
        edges.push(carrying(random, kind));
    }
    edges
}

#[test]
fn sixteen_bytes_are_two_words() {
    // The paper's masks R1 and R2.
    let published = [
        ("FDED29920913A3DA8C9ECA2F0FD434AA", words(0xFDED_2992_0913_A3DA, 0x8C9E_CA2F_0FD4_34AA)),
        ("FBDA5324122747B5193D945E1FA869D3", words(0xFBDA_5324_1227_47B5, 0x193D_945E_1FA8_69D3)),
    ];
    for (digits, expected) in published {
        assert_eq!(Words::read(&hex::decode(digits).expect("digits")), expected);
    }
    for (at, byte) in (0..16).flat_map(|at| (0..=255).map(move |byte| (at, byte))) {
        let mut bytes = [0; 16];
        bytes[at] = byte;
        let in_word = u64::from(byte) << (56 - 8 * (at % 8));
        assert_eq!(Words::read(&bytes), if at < 8 { words(in_word, 0) } else { words(0, in_word) });
    }
    let mut random = Random::new(57);
    for _ in 0..20_000 {
        let (bytes, both) = (random.block(), words(random.next(), random.next()));
        assert_eq!(Words::read(&bytes).written(), bytes);
        assert_eq!(Words::read(&both.written()), both);
        assert_eq!(number(&both.written()), u128::from(both.upper) << 64 | u128::from(both.lower));
    }
}

/// A step by hand at each carry: between the words, and out of them.
#[test]
fn carries_between_the_words() {
    let multiplied = [
        (words(0, TOP), words(1, 0)),
        (words(TOP, 0), words(0, 0x87)),
        (words(TOP, TOP), words(1, 0x87)),
        (words(1, 1), words(2, 2)),
        (words(TOP, 0x43), words(0, 1)),
        (words(u64::MAX, u64::MAX), words(u64::MAX, (u64::MAX - 1) ^ 0x87)),
    ];
    for (block, product) in multiplied {
        assert_eq!((block.times_x(), product.over_x()), (product, block));
    }
    assert_eq!(words(0, 1).over_x(), words(TOP, 0x43));
    assert_eq!(words(0, 1).jumped(127), words(TOP, 0));
    assert_eq!(words(0, 1).jumped(128), words(0, 0x87));
}

#[test]
fn steps_and_jumps_in_words() {
    let mut bench = Bench::new(plan::WORDS_JUMPED);
    for mask in edges(&mut bench.random, 1_000) {
        let block = number(&mask.written());
        assert_eq!(mask.times_x().written(), times_x(block).to_be_bytes(), "{mask:X?}");
        assert_eq!(mask.over_x().written(), divided_by_x(block).to_be_bytes(), "{mask:X?}");
        jump_in_words(&mut bench, mask, 1);
        jump_in_words(&mut bench, mask, -1);
    }
    for mask in edges(&mut bench.random, 20) {
        for distance in [0, 2, 63, 64, 65, 127, 128, 129, 1_000, 4_000, 4_001] {
            jump_in_words(&mut bench, mask, distance);
            jump_in_words(&mut bench, mask, -distance);
        }
    }
    for distance in (-4_000..=4_000).chain([-1_048_576, -1_048_575, -999_999, 999_999, 1_048_575, 1_048_576]) {
        let kind = bench.random.below(KINDS);
        let mask = carrying(&mut bench.random, kind);
        jump_in_words(&mut bench, mask, distance);
    }
    bench.finish();
}

fn jump_in_words(bench: &mut Bench, mask: Words, distance: i32) {
    let answer = bench.check(&Call::Jump { mask: &mask.written(), distance, room: 16 });
    assert_eq!(answer.number, 0);
    assert_eq!(Words::read(&answer.out), mask.jumped(distance), "{mask:X?} by {distance}");
}

/// Counts of right records for which bits cross from word to word, once or often.
const COUNTS: [u32; 8] = [0, 1, 63, 64, 65, 127, 128, 1_000];

#[test]
fn joins_in_words() {
    let mut bench = Bench::new(plan::WORDS_JOINED);
    for (left, right) in COUNTS.iter().flat_map(|&left| COUNTS.map(|right| (left, right))) {
        for dense in edges(&mut bench.random, 8) {
            let other = carrying(&mut bench.random, KINDS - 1);
            join_in_words(&mut bench, &[(left, dense), (right, other)]);
            join_in_words(&mut bench, &[(left, other), (right, dense)]);
        }
    }
    for _ in 0..5_000 {
        let records = bench.random.within(1, 12);
        let counts = lists::stretches(&mut bench.random, &COUNTS, records);
        let runs: Vec<_> = counts.iter().map(|&count| (count, random_words(&mut bench.random))).collect();
        join_in_words(&mut bench, &runs);
    }
    bench.finish();
}

fn random_words(random: &mut Random) -> Words {
    let kind = random.below(KINDS);
    let dense = carrying(random, kind);
    random.pick(&[dense, dense, dense, words(u64::MAX, u64::MAX), words(TOP, TOP)])
}

/// Joins runs of these counts and pre-authenticators, from any block on, as a list and pair by pair.
fn join_in_words(bench: &mut Bench, runs: &[(u32, Words)]) {
    let highest = LIMIT - runs.iter().map(|(count, _)| count).sum::<u32>();
    let mut next = bench.random.within(0, highest as usize) as u32;
    let records = runs.iter().map(|&(count, preauthenticator)| {
        next += count;
        Record { first: next - count, count, preauthenticator }
    });
    let records: Vec<_> = records.collect();
    let list: Vec<_> = records.iter().flat_map(|record| record.written()).collect();
    let answer = bench.check(&Call::JoinList { records: &list, record_room: 24 });
    let joined = records.iter().copied().reduce(|left, right| {
        let (left_bytes, right_bytes) = (left.written(), right.written());
        let answer = bench.check(&Call::Join { left: &left_bytes, right: &right_bytes, record_room: 24 });
        assert_eq!(Record::read(&answer.record), left.joined(right), "{runs:X?}");
        left.joined(right)
    });
    assert_eq!(Some(Record::read(&answer.record)), joined, "{runs:X?}");
}

/// Ciphertexts, records and tags of runs at every place, sealed and checked in words.
#[test]
fn runs_and_tags_in_words() {
    let mut bench = Bench::new(plan::WORDS_SEALED);
    for round in 0..2_500 {
        let blocks = if round % 500 == 0 { SPAN as usize } else { bench.random.within(0, 70) };
        let highest = LIMIT as usize - blocks;
        let first =
            if round % 100 == 0 { highest } else { bench.random.pick(&[0, 1, 63, 64, 65, 127, 128, 1_000, 4_000]) } as u32;
        let ((key, iv), text) = (pairs::sealing(&mut bench.random), bench.random.bytes(16 * blocks));
        let (key, iv) = (&key, &iv);
        let mode = WordMode::<Fips197>::new(key, iv);
        let (ciphertext, record) = mode.seal_run(first, &text);
        let (room, record_room) = (ciphertext.len(), 24);
        let answer = bench.check(&Call::SealRun { key, iv, first, last: false, bytes: &text, room, record_room });
        assert_eq!((&answer.out, Record::read(&answer.record)), (&ciphertext, record));
        let answer = bench.check(&Call::CheckRun { key, iv, first, bytes: &ciphertext, record_room });
        assert_eq!(Record::read(&answer.record), record);
        assert_eq!(mode.check_run(first, &ciphertext), record);
        // Any record can be taken for that of a whole list.
        let whole = Record { first: 0, count: record.count.max(1), ..record };
        for finish in FINISHES {
            let (record, tag) = (&whole.written(), &mode.tag(finish, whole));
            assert_eq!(bench.check(&Call::Close { finish, key, iv, record, room: tag.len() }).out, *tag);
            assert_eq!(bench.check(&Call::Test { finish, key, iv, record, tag }).number, 0);
        }
    }
    bench.finish();
}
