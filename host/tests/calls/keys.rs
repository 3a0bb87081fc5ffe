//! The two lengths of a key, and all others.

use crate::support::bench::Bench;
use crate::support::pairs;
use crate::support::plan;
use crate::support::sealed_list::SealedList;

/// A genuine list, with a key of another length: the list's own cut short, or with more behind it.
#[test]
fn keys_of_other_lengths_are_refused_in_every_call() {
    let mut bench = Bench::new(plan::WRONG_KEYS);
    for length in (0..100).chain([63_999]) {
        let pair = pairs::any(&mut bench.random);
        let list = SealedList::new(&mut bench.random, pair, length);
        let longer = [&list.key[..], &bench.random.bytes(32)].concat();
        for mut call in list.calls() {
            for key_length in pairs::wrong_key_lengths() {
                *call.key_mut().expect("a key") = &longer[..key_length];
                bench.refuses(1, &call);
            }
        }
    }
    bench.finish();
}

/// A long key is another key than its first 16 bytes, though both lend the same: nothing of what one gives passes under the other.
#[test]
fn a_long_key_is_not_its_first_half() {
    let mut bench = Bench::new(plan::EXTENDED_KEYS);
    for round in 0..plan::EXTENDED_KEYS.calls / 40 {
        let (lent, iv) = (bench.random.block(), bench.random.block());
        // Zeros behind the short key, and the short key once more, are like any other bytes.
        let behind = match round {
            0 => [0; 16],
            1 => lent,
            _ => bench.random.block(),
        };
        let keys = [lent.to_vec(), [lent, behind].concat()];
        let length = bench.random.below(200);
        let [short, long] = keys.clone().map(|key| SealedList::new(&mut bench.random, (key, iv), length));
        for (list, other) in [(&short, &keys[1]), (&long, &keys[0])] {
            for mut call in list.calls() {
                let own = bench.check(&call);
                assert_eq!(own.number, 0, "{call:02X?}");
                *call.key_mut().expect("a key") = other;
                let given = bench.check(&call);
                assert!(given != own && matches!(given.number, 0 | 6), "{call:02X?}");
            }
        }
    }
    bench.finish();
}
