//! What is left of keys and run records: nothing where they lay, and nothing in what is printed.

use std::mem::ManuallyDrop;
use std::ptr;

use balzenoh::{Key, RunRecord};

const NOISE: [u8; 16] = [0xA5; 16];

/// Ends the value and gives the bytes that then lie where `bytes` pointed.
fn left_after_the_end<T>(value: T, bytes: fn(&T) -> &[u8]) -> Vec<u8> {
    let mut value = Box::new(ManuallyDrop::new(value));
    let places = bytes(&value).as_ptr_range();
    // SAFETY: the value is not used again, and the box, which is still there, ends nothing.
    unsafe { ManuallyDrop::drop(&mut value) };
    let (start, length) = (places.start, places.end as usize - places.start as usize);
    // SAFETY: the bytes lie in the box, and are no part of anything else.
    let left = (0..length).map(|at| unsafe { ptr::read_volatile(start.add(at)) }).collect();
    drop(value);
    left
}

#[test]
fn a_key_is_wiped_at_its_end() {
    for noise in [&[0xA5; 16][..], &[0xA5; 32]] {
        let key = Key::from_slice(noise).expect("a key");
        assert_eq!(left_after_the_end(key.clone(), Key::as_bytes), vec![0; noise.len()]);
        assert_eq!(left_after_the_end(key, Key::as_bytes), vec![0; noise.len()]);
    }
}

#[test]
fn a_run_record_is_wiped_at_its_end() {
    let record = RunRecord { first: 3, count: 4, preauthenticator: NOISE };
    assert_eq!(left_after_the_end(record, |record| &record.preauthenticator), [0; 16]);
}

#[test]
fn a_run_record_does_not_print_its_pre_authenticator() {
    let record = RunRecord { first: 3, count: 4, preauthenticator: NOISE };
    for text in [format!("{record:?}"), format!("{record:#?}"), format!("{:02X?}", Some(&record))] {
        assert!(text.contains('3') && text.contains('4'), "{text}");
        assert!(!text.contains("165") && !text.contains("A5"), "{text}");
    }
}
