//! Every number of blocks about the group of 32 in which the library works: nothing may depend on where a group ends.

use crate::support::bench::Bench;
use crate::support::call::Call;
use crate::support::finish::FINISHES;
use crate::support::pairs;
use crate::support::plan;
use crate::support::sealed_list::SealedList;

#[test]
fn every_number_of_blocks() {
    let mut bench = Bench::new(plan::GROUPS);
    // With the padding, a list of 16 (n - 1) to 16 n - 1 bytes has n blocks.
    for (blocks, rest) in (1..=140).flat_map(|blocks| [0, 1, 8, 15].map(|rest| (blocks, rest))) {
        let pair = pairs::sealing(&mut bench.random);
        let list = SealedList::new(&mut bench.random, pair, 16 * (blocks - 1) + rest);
        assert_eq!(list.blocks(), blocks);
        for call in list.calls() {
            assert_eq!(bench.check(&call).number, 0);
        }
        let (key, iv, bytes) = (&list.key, &list.iv, list.ciphertext());
        let (first, room) = (bench.random.within(0, 1_048_576 - blocks) as u32, bytes.len() + bench.random.below(40));
        bench.check(&Call::SealRun { key, iv, first, last: false, bytes, room, record_room: 24 });
        let room = list.message.len() + bench.random.below(40);
        for finish in FINISHES {
            assert_eq!(bench.check(&Call::Open { finish, key, sealed: list.sealed(finish), room }).number, 0);
        }
    }
    bench.finish();
}

/// A bit changed in any block is found, wherever the block stands in its group.
#[test]
fn every_block_counts() {
    let mut bench = Bench::new(plan::GROUPS_DAMAGED);
    for (blocks, finish) in
        [1, 2, 31, 32, 33, 63, 64, 65, 97].into_iter().flat_map(|blocks| FINISHES.map(|finish| (blocks, finish)))
    {
        let pair = pairs::sealing(&mut bench.random);
        let list = SealedList::new(&mut bench.random, pair, 16 * blocks - 1);
        for at in 0..list.sealed(finish).len() {
            let mut sealed = list.sealed(finish).to_vec();
            sealed[at] ^= 1 << bench.random.below(8);
            bench.check(&Call::Open { finish, key: &list.key, sealed: &sealed, room: 16 * blocks });
        }
    }
    bench.finish();
}
