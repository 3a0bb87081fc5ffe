//! Where row 10 stands in the table: a mask of nothing together with each other thing that can be wrong.

use crate::support::bench::Bench;
use crate::support::call::Call;
use crate::support::finish::{around, tag_length, Finish, FINISHES};
use crate::support::fips197::Fips197;
use crate::support::mode::Mode;
use crate::support::pairs;
use crate::support::plan;
use crate::support::sealed_list::{record, SealedList};

#[test]
fn after_the_rows_above_and_before_those_below() {
    let mut bench = Bench::new(plan::NO_MASK_ROWS);
    for length in [0, 1, 15, 16, 17, 31, 32, 100] {
        for _ in 0..10 {
            let pair = pairs::of_nothing(&mut bench.random);
            let list = SealedList::new(&mut bench.random, pair, length);
            keys_and_ivs_come_first(&mut bench, &list);
            runs_come_first(&mut bench, &list);
            short_outputs_come_after(&mut bench, &list);
            for finish in FINISHES {
                lists_come_first(&mut bench, finish, &list);
                records_and_tags_come_first(&mut bench, finish, &list);
                wrong_tags_and_ends_come_after(&mut bench, finish, &list);
            }
        }
    }
    bench.finish();
}

/// Rows 1 and 2, with zeros behind what is too long.
fn keys_and_ivs_come_first(bench: &mut Bench, list: &SealedList) {
    let (long_key, long_iv) = ([&list.key[..], &[0; 32]].concat(), [&list.iv[..], &[0; 24]].concat());
    for mut call in list.calls() {
        for length in (0..=40).filter(|&length| length != 16) {
            if let Some(iv) = call.iv_mut() {
                *iv = &long_iv[..length];
                bench.refuses(2, &call);
            }
        }
        for length in pairs::wrong_key_lengths() {
            *call.key_mut().expect("a key") = &long_key[..length];
            bench.refuses(1, &call);
        }
    }
}

/// Row 3, for lists to open. Messages that are too long stand with the longest lists.
fn lists_come_first(bench: &mut Bench, finish: Finish, list: &SealedList) {
    let (SealedList { key, .. }, sealed) = (list, list.sealed(finish));
    let room = sealed.len();
    let longer = [sealed, &[0; 15]].concat();
    for length in (0..16 + around(finish)).chain(room + 1..room + 16) {
        bench.refuses(3, &Call::Open { finish, key, sealed: &longer[..length], room });
    }
}

/// Rows 3 and 4, for runs.
fn runs_come_first(bench: &mut Bench, list: &SealedList) {
    let (SealedList { key, iv, .. }, sealed) = (list, list.sealed(Finish::Cipher));
    let (room, record_room) = (sealed.len(), 24);
    for bytes in (1..48).filter(|length| length % 16 != 0).map(|length| &sealed[..length]) {
        bench.refuses(3, &Call::SealRun { key, iv, first: 0, last: false, bytes, room, record_room });
        bench.refuses(3, &Call::CheckRun { key, iv, first: 0, bytes, record_room });
    }
    let bytes = list.ciphertext();
    for first in [1_048_577 - list.blocks() as u32, 1_048_576, 1_048_577, u32::MAX] {
        for last in [false, true] {
            bench.refuses(4, &Call::SealRun { key, iv, first, last, bytes, room, record_room });
        }
        bench.refuses(4, &Call::CheckRun { key, iv, first, bytes, record_room });
    }
}

/// Row 24 for records, row 3 for tags, and rows 4 and 9 for the numbers in records.
fn records_and_tags_come_first(bench: &mut Bench, finish: Finish, list: &SealedList) {
    let (SealedList { key, iv, record: whole, .. }, tag) = (list, list.tag(finish));
    let room = tag.len();
    for length in 0..=40 {
        let bytes = &[whole, tag].concat()[..length];
        if length != 24 {
            bench.refuses(24, &Call::Close { finish, key, iv, record: bytes, room });
            bench.refuses(24, &Call::Test { finish, key, iv, record: bytes, tag });
        }
        if length != room {
            bench.refuses(3, &Call::Test { finish, key, iv, record: whole, tag: bytes });
        }
    }
    let beyond =
        [[0, 1_048_577], [1, 1_048_576], [1_048_576, 1], [u32::MAX, 1], [u32::MAX, u32::MAX]].map(|numbers| (4, numbers));
    let parts = [[0, 0], [1, 1], [1, 1_048_575], [1_048_575, 1], [1_048_576, 0]].map(|numbers| (9, numbers));
    for (number, numbers) in beyond.into_iter().chain(parts) {
        let record = &record(numbers, &whole[8..]);
        bench.refuses(number, &Call::Close { finish, key, iv, record, room });
        bench.refuses(number, &Call::Test { finish, key, iv, record, tag });
    }
}

/// Row 5, for each output that is lent and for both.
fn short_outputs_come_after(bench: &mut Bench, list: &SealedList) {
    for call in list.calls() {
        let (room, record_room) = call.rooms();
        for short in 0..room {
            bench.refuses(10, &call.clone().lent(short, record_room));
        }
        for short in 0..record_room {
            bench.refuses(10, &call.clone().lent(room, short));
        }
        bench.refuses(10, &call.lent(0, 0));
    }
}

/// Rows 6 and 7.
fn wrong_tags_and_ends_come_after(bench: &mut Bench, finish: Finish, list: &SealedList) {
    let SealedList { key, iv, record, .. } = list;
    let mut damaged = list.sealed(finish).to_vec();
    let at = bench.random.within(16, damaged.len() - 1);
    damaged[at] ^= 1 << bench.random.below(8);
    let unpadded = Mode::<Fips197>::new(key, iv).seal_blocks(finish, iv, &[0x55; 32]);
    for sealed in [&damaged, &unpadded] {
        bench.refuses(10, &Call::Open { finish, key, sealed, room: sealed.len() });
    }
    let tag = &bench.random.bytes(tag_length(finish));
    bench.refuses(10, &Call::Test { finish, key, iv, record, tag });
}
