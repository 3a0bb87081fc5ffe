//! The two finishes beside each other: what one makes of the other's records and tags, and what the hash is taken of.

use balzenoh::{close_with, jump, sha1, Iv, Key, RunRecord};

use crate::support::bench::Bench;
use crate::support::call::Call;
use crate::support::finish::{around, other, tag_length, Finish, FINISHES};
use crate::support::fips197::Fips197;
use crate::support::mode::Mode;
use crate::support::pairs;
use crate::support::plan;
use crate::support::random::Random;
use crate::support::sealed_list::SealedList;

/// A record of one finish has a length that the other refuses, whatever is lent and whether its tag is right; so has a tag.
#[test]
fn the_other_finish_refuses_the_length() {
    let mut bench = Bench::new(plan::OTHER_FINISH);
    for (length, finish) in (0..=300).chain([63_983, 63_984, 63_999]).flat_map(|length| FINISHES.map(|finish| (length, finish))) {
        let pair = pairs::any(&mut bench.random);
        let list = SealedList::new(&mut bench.random, pair, length);
        let (SealedList { key, iv, record, .. }, wrong) = (&list, other(finish));
        for room in [0, list.ciphertext().len(), list.ciphertext().len() + 40] {
            bench.refuses(3, &Call::Open { finish: wrong, key, sealed: list.sealed(finish), room });
        }
        bench.refuses(3, &Call::Test { finish: wrong, key, iv, record, tag: list.tag(finish) });
        cut_or_extended(&mut bench, &list, finish);
    }
    bench.finish();
}

/// A record or a tag that is brought to the other finish's length differs.
fn cut_or_extended(bench: &mut Bench, list: &SealedList, finish: Finish) {
    let (SealedList { key, iv, record, .. }, wrong) = (list, other(finish));
    let more = bench.random.bytes(4);
    let brought = |bytes: &[u8], length: usize| [bytes, &more].concat()[..length].to_vec();
    let sealed = brought(list.sealed(finish), list.ciphertext().len() + around(wrong));
    let tag = brought(list.tag(finish), tag_length(wrong));
    let opened = bench.check(&Call::Open { finish: wrong, key, sealed: &sealed, room: sealed.len() });
    let tested = bench.check(&Call::Test { finish: wrong, key, iv, record, tag: &tag });
    assert!(matches!((opened.number, tested.number), (6, 6) | (10, 10)));
}

/// Every bit of a tag, by either finish.
#[test]
fn every_bit_of_a_tag_counts() {
    let mut bench = Bench::new(plan::TAG_BITS);
    for (round, finish) in (0..20).flat_map(|round| FINISHES.map(|finish| (round, finish))) {
        let pair = pairs::sealing(&mut bench.random);
        let list = SealedList::new(&mut bench.random, pair, 10 * round);
        let SealedList { key, iv, record, .. } = &list;
        for bit in 0..8 * tag_length(finish) {
            let mut tag = list.tag(finish).to_vec();
            tag[bit / 8] ^= 0x80 >> (bit % 8);
            bench.refuses(6, &Call::Test { finish, key, iv, record, tag: &tag });
        }
    }
    bench.finish();
}

/// Put together from the library's own calls: SHA-1 of the whole key, the pre-authenticator, and the start mask jumped by the count.
#[test]
fn the_hash_is_taken_of_key_preauthenticator_and_mask() {
    let mut random = Random::new(73);
    for round in 0..2_000 {
        let (key, iv) = pairs::sealing(&mut random);
        let (count, preauthenticator) =
            (if round < 500 { round + 1 } else { random.within(1, 1_048_576) as u32 }, random.block());
        let start_mask = Mode::<Fips197>::new(&key, &iv).start_mask.to_be_bytes();
        let mask = jump(&start_mask, count as i32).expect("within the limit");
        let digest = sha1(&[&key[..], &preauthenticator, &mask].concat()).expect("a short text");
        let record = RunRecord { first: 0, count, preauthenticator };
        let key = Key::from_slice(&key).expect("a key");
        let tag = close_with(Finish::Sha1, &key, &Iv::from(iv), &record).expect("the record of a whole list");
        assert_eq!(tag.as_bytes(), digest);
    }
}
