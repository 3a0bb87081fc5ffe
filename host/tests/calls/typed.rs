//! The functions on typed values: they are the calls on slices, with the room that is needed.

use std::collections::HashSet;

use balzenoh::{
    check_run, close, hex, join_list, jump, open, open_into, raw, seal, seal_into, seal_run, seal_run_into, sha1, test,
};
use balzenoh::{close_with, open_into_with, open_with, seal_into_with, seal_with, test_with};
use balzenoh::{AnyTag, Finish, Iv, Key, Kind, Refusal, RunRecord, Tag};

use crate::support::finish::{around, other, FINISHES};
use crate::support::pairs;
use crate::support::random::Random;

fn key_and_iv(random: &mut Random) -> (Key, Iv) {
    let length = random.pick(&pairs::KEY_LENGTHS);
    (Key::from_slice(&random.bytes(length)).expect("a key"), Iv::from(random.block()))
}

#[test]
fn whole_messages_come_back() {
    let mut random = Random::new(41);
    for (length, finish) in (0..=300).chain([63_998, 63_999]).flat_map(|length| FINISHES.map(|finish| (length, finish))) {
        let (key, iv) = key_and_iv(&mut random);
        let message = random.bytes(length);
        let sealed = seal_with(finish, &key, &iv, &message).expect("within the limit");
        assert_eq!(sealed.len(), length / 16 * 16 + 16 + around(finish));
        assert_eq!(open_with(finish, &key, &sealed), Ok(message.clone()));
        assert_eq!(open_with(other(finish), &key, &sealed), Err(Refusal::Length));
        let (mut lent, mut back) = (random.bytes(sealed.len() + 3), random.bytes(sealed.len()));
        assert_eq!(seal_into_with(finish, &key, &iv, &message, &mut lent), Ok(sealed.len()));
        assert_eq!(lent, [&sealed[..], &[0; 3]].concat());
        assert_eq!(open_into_with(finish, &key, &sealed, &mut back), Ok(length));
        assert_eq!(back[..length], message);
        let mut exact = random.bytes(length);
        assert_eq!(open_into_with(finish, &key, &sealed, &mut exact), Ok(length));
        assert_eq!(exact, message);
        if let Some(short) = length.checked_sub(1) {
            assert_eq!(open_into_with(finish, &key, &sealed, &mut exact[..short]), Err(Refusal::OutputTooShort));
        }
    }
}

/// Where no finish is named it is the cipher's.
#[test]
fn the_usual_finish_is_the_ciphers() {
    let mut random = Random::new(46);
    for length in (0..=100).chain([63_999]) {
        let ((key, iv), message) = (key_and_iv(&mut random), random.bytes(length));
        let sealed = seal_with(Finish::default(), &key, &iv, &message).expect("within the limit");
        let (mut lent, mut back) = (vec![0; sealed.len()], vec![0; sealed.len()]);
        assert_eq!(seal(&key, &iv, &message).as_ref(), Ok(&sealed));
        assert_eq!(seal_into(&key, &iv, &message, &mut lent), Ok(sealed.len()));
        assert_eq!(lent, sealed);
        assert_eq!(open(&key, &sealed).as_ref(), Ok(&message));
        assert_eq!(open_into(&key, &sealed, &mut back), Ok(length));
        let (_, record) = seal_run(&key, &iv, 0, Kind::Last, &message).expect("within the limit");
        let tag = close(&key, &iv, &record).expect("a whole record");
        assert_eq!(close_with(Finish::default(), &key, &iv, &record), Ok(AnyTag::from(tag)));
        assert_eq!(test(&key, &iv, &record, &tag), Ok(()));
    }
}

#[test]
fn lengths_out_of_range_are_refused() {
    let mut random = Random::new(42);
    let (key, iv) = key_and_iv(&mut random);
    for length in [16_777_216, 16_777_217, 17_000_000] {
        assert_eq!(seal(&key, &iv, &vec![0; length]), Err(Refusal::Length));
        assert_eq!(seal_with(Finish::Sha1, &key, &iv, &vec![0; length]), Err(Refusal::Length));
    }
    for length in [0, 16, 32, 47, 49, 64_033, 16_777_249, 16_777_264, 17_000_000] {
        assert_eq!(open(&key, &vec![0; length]), Err(Refusal::Length));
        assert_eq!(open_with(Finish::Sha1, &key, &vec![0; length + 4]), Err(Refusal::Length));
    }
    for length in [64_033, 64_036, 1_000_000] {
        assert_eq!(sha1(&vec![0; length]), Err(Refusal::Length));
    }
    assert_eq!(seal_run(&key, &iv, 0, Kind::Middle, &[0; 17]), Err(Refusal::Length));
    assert_eq!(seal_run(&key, &iv, 0, Kind::Middle, &vec![0; 16_777_232]), Err(Refusal::BeyondLimit));
    assert_eq!(seal_run(&key, &iv, 0, Kind::Last, &vec![0; 16_777_216]), Err(Refusal::BeyondLimit));
    assert_eq!(check_run(&key, &iv, 1_048_576, &[0; 16]), Err(Refusal::BeyondLimit));
    for distance in [i32::MIN, -1_048_577, 1_048_577, i32::MAX] {
        assert_eq!(jump(&[0; 16], distance), Err(Refusal::BeyondLimit));
    }
    assert_eq!(join_list(&[]), Err(Refusal::NotWhole));
    assert_eq!(RunRecord::from_bytes(&[0; 23]), Err(Refusal::RecordLength));
}

#[test]
fn a_mask_of_nothing_is_refused() {
    for key in pairs::NO_KEYS {
        refused_in_every_call(pairs::replaced(key));
    }
}

fn refused_in_every_call((key, iv): pairs::Pair) {
    let sealed = [iv; 4].concat();
    let (key, iv, tag) = (Key::from_slice(&key).expect("a key"), Iv::from(iv), Tag::from(iv));
    let record = RunRecord { first: 0, count: 1, preauthenticator: [9; 16] };
    let refused = Refusal::ZeroMask;
    assert_eq!(seal(&key, &iv, b""), Err(refused));
    assert_eq!(seal_into(&key, &iv, b"", &mut []), Err(refused));
    assert_eq!(open(&key, &sealed), Err(refused));
    assert_eq!(open_into(&key, &sealed, &mut []), Err(refused));
    assert_eq!(seal_with(Finish::Sha1, &key, &iv, b""), Err(refused));
    assert_eq!(seal_into_with(Finish::Sha1, &key, &iv, b"", &mut []), Err(refused));
    assert_eq!(open_with(Finish::Sha1, &key, &sealed[..52]), Err(refused));
    assert_eq!(open_into_with(Finish::Sha1, &key, &sealed[..52], &mut []), Err(refused));
    assert_eq!(close_with(Finish::Sha1, &key, &iv, &record), Err(refused));
    assert_eq!(test_with(Finish::Sha1, &key, &iv, &record, &AnyTag::from([9; 20])), Err(refused));
    for kind in [Kind::Middle, Kind::Last] {
        assert_eq!(seal_run(&key, &iv, 7, kind, b""), Err(refused));
        assert_eq!(seal_run_into(&key, &iv, 7, kind, b"", &mut []), Err(refused));
    }
    assert_eq!(check_run(&key, &iv, 1_048_576, b""), Err(refused));
    assert_eq!(close(&key, &iv, &record), Err(refused));
    assert_eq!(test(&key, &iv, &record, &tag), Err(refused));
}

#[test]
fn runs_are_those_of_the_slices() {
    let mut random = Random::new(43);
    for length in 0..=100 {
        let (key, iv) = key_and_iv(&mut random);
        let (bytes, first) = (random.bytes(length), random.below(3_900) as u32);
        for (kind, last) in [(Kind::Middle, false), (Kind::Last, true)] {
            let (mut out, mut run) = (vec![0; length + 16], [0; 24]);
            let expected = raw::seal_run(key.as_bytes(), iv.as_bytes(), first, last, &bytes, &mut out, &mut run)
                .map(|length| (out[..length].to_vec(), RunRecord::from_bytes(&run).expect("24 bytes")));
            let given = seal_run(&key, &iv, first, kind, &bytes);
            assert_eq!(given, expected);
            assert_eq!(given.is_ok(), last || length % 16 == 0);
            if let Ok((ciphertext, record)) = given {
                assert_eq!(record.to_bytes(), run);
                assert_eq!(check_run(&key, &iv, first, &ciphertext), Ok(record));
            }
        }
    }
}

#[test]
fn records_join_close_and_pass() {
    let mut random = Random::new(44);
    let (key, iv) = key_and_iv(&mut random);
    let message = random.bytes(75);
    let sealed = seal(&key, &iv, &message).expect("within the limit");
    let (_, left) = seal_run(&key, &iv, 0, Kind::Middle, &message[..32]).expect("two blocks");
    let (_, right) = seal_run(&key, &iv, 2, Kind::Last, &message[32..]).expect("three blocks");
    let whole = left.join(&right).expect("neighbours");
    assert_eq!(join_list(&[left.clone(), right.clone()]), Ok(whole.clone()));
    assert_eq!(right.join(&left), Err(Refusal::NotNeighbours));
    let tag = close(&key, &iv, &whole).expect("a whole record");
    assert_eq!(sealed[sealed.len() - 16..], tag.as_bytes()[..]);
    assert_eq!(test(&key, &iv, &whole, &tag), Ok(()));
    assert_eq!(test(&key, &iv, &whole, &Tag::from([0; 16])), Err(Refusal::TagDiffers));
    assert_eq!(close(&key, &iv, &right), Err(Refusal::NotWhole));
    for finish in FINISHES {
        let tag = close_with(finish, &key, &iv, &whole).expect("a whole record");
        assert_eq!(tag.finish(), finish);
        assert!(seal_with(finish, &key, &iv, &message).expect("within the limit").ends_with(tag.as_bytes()));
        assert_eq!(test_with(finish, &key, &iv, &whole, &tag), Ok(()));
        assert_eq!(test_with(other(finish), &key, &iv, &whole, &tag), Err(Refusal::Length));
        assert_eq!(close_with(finish, &key, &iv, &right), Err(Refusal::NotWhole));
    }
}

/// Slices and digits of every length: a right one gives the value, any other the refusal of its length.
#[test]
fn values_are_made_from_slices_and_digits() {
    let mut random = Random::new(45);
    for length in 0..=70 {
        let bytes = random.bytes(length);
        let given = |right: &[usize], refusal| if right.contains(&length) { Ok(bytes.clone()) } else { Err(refusal) };
        let (slice, digits) = (&bytes[..], hex::encode(&bytes));
        for text in [&digits[..], &digits.to_lowercase()] {
            assert_eq!(text.parse::<Key>().map(|key| key.as_ref().to_vec()), given(&[16, 32], Refusal::KeyLength));
            assert_eq!(text.parse::<Iv>().map(|iv| iv.as_ref().to_vec()), given(&[16], Refusal::IvLength));
            assert_eq!(text.parse::<Tag>().map(|tag| tag.as_ref().to_vec()), given(&[16], Refusal::Length));
            assert_eq!(text.parse::<AnyTag>().map(|tag| tag.as_ref().to_vec()), given(&[16, 20], Refusal::Length));
            assert_eq!(text.parse::<RunRecord>().map(|record| record.to_bytes().to_vec()), given(&[24], Refusal::RecordLength));
        }
        assert_eq!(Key::try_from(slice).map(|key| key.as_ref().to_vec()), given(&[16, 32], Refusal::KeyLength));
        assert_eq!(Iv::try_from(slice).map(|iv| iv.as_ref().to_vec()), given(&[16], Refusal::IvLength));
        assert_eq!(Tag::try_from(slice).map(|tag| tag.as_ref().to_vec()), given(&[16], Refusal::Length));
        assert_eq!(AnyTag::try_from(slice).map(|tag| tag.as_ref().to_vec()), given(&[16, 20], Refusal::Length));
        assert_eq!(RunRecord::try_from(slice).map(|record| record.to_bytes().to_vec()), given(&[24], Refusal::RecordLength));
    }
}

#[test]
fn text_that_is_no_digits_is_no_value() {
    let near = [31, 33, 39, 41, 63, 65].map(|length| "0".repeat(length));
    let other = [
        "G".repeat(32),
        "G".repeat(40),
        "é".repeat(20),
        "G".repeat(64),
        format!(" {}", "0".repeat(31)),
        "é".repeat(16),
        "é".repeat(32),
    ];
    for text in near.into_iter().chain(other) {
        assert_eq!(text.parse::<Key>().unwrap_err(), Refusal::KeyLength, "{text:?}");
        assert_eq!(text.parse::<Iv>().unwrap_err(), Refusal::IvLength, "{text:?}");
        assert_eq!(text.parse::<Tag>().unwrap_err(), Refusal::Length, "{text:?}");
        assert_eq!(text.parse::<AnyTag>().unwrap_err(), Refusal::Length, "{text:?}");
        assert_eq!(text.parse::<RunRecord>().unwrap_err(), Refusal::RecordLength, "{text:?}");
    }
}

#[test]
fn public_values_are_copied_and_refusals_counted() {
    let (iv, tag, any_tag, finish) = (Iv::from([1; 16]), Tag::from([2; 16]), AnyTag::from([3; 20]), Finish::Sha1);
    let same = (iv, tag, any_tag, finish);
    assert_eq!((iv, tag, any_tag, finish), same);
    let refusals: HashSet<Refusal> = (0..=255).map(Refusal::from_number).collect();
    assert_eq!(refusals.len(), 256);
}
