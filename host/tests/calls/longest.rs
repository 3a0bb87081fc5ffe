//! The limit: the longest lists, sealed records and runs, which no other program here holds, and one more of each; numbers of blocks
//! and distances about it.

use crate::support::bench::Bench;
use crate::support::call::Call;
use crate::support::finish::{around, Finish, FINISHES};
use crate::support::pairs::{self, KEY_LENGTHS};
use crate::support::plan;
use crate::support::sealed_list::record;

const LIMIT: u32 = 1_048_576;
const LONGEST_MESSAGE: usize = 16_777_215;

/// The bytes of the longest sealed record.
fn longest_sealed(finish: Finish) -> usize {
    match finish {
        Finish::Cipher => 16_777_248,
        Finish::Sha1 => 16_777_252,
    }
}

#[test]
fn the_longest_lists_and_one_byte_more() {
    let mut bench = Bench::new(plan::LONGEST);
    let message = bench.random.bytes(LONGEST_MESSAGE + 17);
    for (finish, key_length) in FINISHES.into_iter().flat_map(|finish| KEY_LENGTHS.map(|length| (finish, length))) {
        let pair = pairs::sealing_of(&mut bench.random, key_length);
        let sealed = sealed_longest(&mut bench, finish, &pair, &message);
        opened_longest(&mut bench, finish, &pair.0, &sealed, &message[..LONGEST_MESSAGE]);
    }
    for key_length in KEY_LENGTHS {
        longest_runs(&mut bench, key_length, &message);
    }
    bench.finish();
}

/// The longest message into more room than it needs, into just enough and into too little; longer messages. Gives the sealed record.
fn sealed_longest(bench: &mut Bench, finish: Finish, (key, iv): &pairs::Pair, message: &[u8]) -> Vec<u8> {
    let room = longest_sealed(finish);
    let longest = &message[..LONGEST_MESSAGE];
    let answer = bench.check_long(&Call::Seal { finish, key, iv, message: longest, room: room + 40 });
    assert_eq!((answer.number, answer.length), (0, room));
    bench.refuses_long(5, &Call::Seal { finish, key, iv, message: longest, room: room - 1 });
    for length in LONGEST_MESSAGE + 1..=message.len() {
        // The rows above 3 and those below it: only the message is too long, or all is wrong.
        let (key_length, room) = if length % 2 == 0 { (key.len(), room + 40) } else { (15, 0) };
        let number = if length % 2 == 0 { 3 } else { 1 };
        bench.refuses_long(number, &Call::Seal { finish, key: &key[..key_length], iv, message: &message[..length], room });
    }
    let (no_key, its_iv) = &pairs::of_nothing(&mut bench.random);
    bench.refuses_long(3, &Call::Seal { finish, key: no_key, iv: its_iv, message, room });
    answer.out[..room].to_vec()
}

/// The longest sealed record into as much as the message, into more and into one byte less; damaged; longer and shorter ones.
fn opened_longest(bench: &mut Bench, finish: Finish, key: &[u8], sealed: &[u8], message: &[u8]) {
    for room in [message.len(), message.len() + 40] {
        let answer = bench.check_long(&Call::Open { finish, key, sealed, room });
        assert!(answer.number == 0 && answer.length == message.len() && answer.out.starts_with(message));
    }
    bench.refuses_long(5, &Call::Open { finish, key, sealed, room: message.len() - 1 });
    let mut damaged = sealed.to_vec();
    damaged[sealed.len() - around(finish)] ^= 1;
    bench.refuses_long(6, &Call::Open { finish, key, sealed: &damaged, room: message.len() });
    let longer = [sealed, &[0; 16]].concat();
    for length in [sealed.len() - 1, sealed.len() + 1, sealed.len() + 16] {
        bench.refuses_long(3, &Call::Open { finish, key, sealed: &longer[..length], room: message.len() + 40 });
    }
}

/// Runs of as many blocks as there may be, from block 0 and from block 1 on.
fn longest_runs(bench: &mut Bench, key_length: usize, message: &[u8]) {
    let (key, iv) = &pairs::sealing_of(&mut bench.random, key_length);
    let (bytes, record_room) = (&message[..16 * LIMIT as usize], 24);
    let room = bytes.len() + 40;
    let sealing = |first, last, bytes| Call::SealRun { key, iv, first, last, bytes, room, record_room };
    let checking = |first, bytes| Call::CheckRun { key, iv, first, bytes, record_room };
    for (first, bytes) in [(0, bytes), (1, &bytes[16..])] {
        assert_eq!(bench.check_long(&sealing(first, false, bytes)).number, 0);
        assert_eq!(bench.check_long(&sealing(first, true, &bytes[1..])).number, 0);
        assert_eq!(bench.check_long(&checking(first, bytes)).number, 0);
        bench.refuses_long(4, &sealing(first + 1, false, bytes));
        bench.refuses_long(4, &sealing(first, true, bytes));
        bench.refuses_long(4, &checking(first + 1, bytes));
    }
}

/// First block and count, and whether both fit. Sums that are small again at 32 bits do not.
const ENDS: [(u32, u32, bool); 14] = [
    (LIMIT, 0, true),
    (LIMIT - 1, 1, true),
    (LIMIT - 3, 3, true),
    (4_000, 1, true),
    (4_001, 0, true),
    (LIMIT + 1, 0, false),
    (LIMIT, 1, false),
    (LIMIT - 1, 2, false),
    (LIMIT - 2, 3, false),
    (1 << 31, 0, false),
    (u32::MAX, 0, false),
    (u32::MAX, 1, false),
    (u32::MAX - 1, 2, false),
    (u32::MAX - 1, 3, false),
];

#[test]
fn runs_that_end_about_the_limit() {
    let mut bench = Bench::new(plan::LIMITS);
    for ((first, count, fits), key_length) in ENDS.into_iter().flat_map(|end| KEY_LENGTHS.map(|length| (end, length))) {
        let (key, iv) = &pairs::sealing_of(&mut bench.random, key_length);
        let (bytes, number) = (&bench.random.bytes(16 * count as usize)[..], if fits { 0 } else { 4 });
        let (room, record_room) = (bytes.len() + 20, 24);
        let sealing = |last, bytes| Call::SealRun { key, iv, first, last, bytes, room, record_room };
        gives(&mut bench, number, &sealing(false, bytes));
        gives(&mut bench, number, &Call::CheckRun { key, iv, first, bytes, record_room });
        // A last run has a block for its padding.
        match bytes.len().checked_sub(1) {
            Some(length) => gives(&mut bench, number, &sealing(true, &bytes[..length])),
            None => gives(&mut bench, if first < LIMIT { 0 } else { 4 }, &sealing(true, bytes)),
        }
    }
    records_that_end_about_the_limit(&mut bench);
    jumps_about_the_limit(&mut bench);
    bench.finish();
}

/// As the right one of a pair, alone in a list, and with others in one; as that of a whole list where it starts at block 0.
fn records_that_end_about_the_limit(bench: &mut Bench) {
    let sums = [(1, u32::MAX, false), (u32::MAX, u32::MAX, false), (2, u32::MAX - 1, false), (0, u32::MAX, false)];
    let whole = [(0, LIMIT, true), (0, LIMIT - 1, true), (0, 4_001, true), (0, LIMIT + 1, false)];
    for (first, count, fits) in ENDS.into_iter().chain(sums).chain(whole) {
        let number = if fits { 0 } else { 4 };
        let right = record([first, count], &bench.random.block());
        let left = record([0, first], &bench.random.block());
        let list = [&left[..], &right].concat();
        gives(bench, number, &Call::Join { left: &left, right: &right, record_room: 24 });
        gives(bench, number, &Call::JoinList { records: &list, record_room: 24 });
        gives(bench, number, &Call::JoinList { records: &right, record_room: 24 });
        closed_and_tested(bench, if fits && first > 0 { 9 } else { number }, &right);
    }
}

/// By either finish, under keys of both lengths. A tag of zeros differs.
fn closed_and_tested(bench: &mut Bench, number: u8, record: &[u8]) {
    for (finish, key_length) in FINISHES.into_iter().flat_map(|finish| KEY_LENGTHS.map(|length| (finish, length))) {
        let (key, iv) = &pairs::sealing_of(&mut bench.random, key_length);
        let tag = &[0; 20][..around(finish) - 16];
        gives(bench, number, &Call::Close { finish, key, iv, record, room: tag.len() });
        gives(bench, if number == 0 { 6 } else { number }, &Call::Test { finish, key, iv, record, tag });
    }
}

fn jumps_about_the_limit(bench: &mut Bench) {
    let limit = LIMIT as i32;
    for (distance, number) in [(4_001, 0), (limit - 1, 0), (limit, 0), (limit + 1, 4), (limit + 2, 4), (i32::MAX, 4)] {
        for distance in [distance, -distance] {
            let mask = &bench.random.block();
            gives(bench, number, &Call::Jump { mask, distance, room: 20 });
        }
    }
    gives(bench, 4, &Call::Jump { mask: &[7; 16], distance: i32::MIN, room: 20 });
}

/// Makes the call, and holds it to this number.
fn gives(bench: &mut Bench, number: u8, call: &Call) {
    let answer = bench.check(call);
    assert!(
        answer.number == number && (number == 0 || answer.refused_with(number)),
        "{}, not {number}: {call:02X?}",
        answer.number
    );
}
