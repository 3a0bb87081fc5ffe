//! Damaged records: refused with 6, and nothing of them is handed out.

use crate::support::bench::Bench;
use crate::support::call::Call;
use crate::support::finish::{around, Finish, FINISHES};
use crate::support::fips197::Fips197;
use crate::support::mode::{padded, Mode};
use crate::support::pairs;
use crate::support::plan;

#[test]
fn every_bit_of_short_records_and_some_of_long_ones() {
    let mut bench = Bench::new(plan::DAMAGE);
    for finish in FINISHES {
        every_bit(&mut bench, finish);
        several_bits(&mut bench, finish);
        swapped_blocks(&mut bench, finish);
    }
    bench.finish();
}

fn every_bit(bench: &mut Bench, finish: Finish) {
    for length in (0..=48).chain([100, 200, 300]) {
        let (key, sealed) = sealed_record(bench, finish, length);
        for bit in 0..sealed.len() * 8 {
            damaged(bench, finish, &key, &sealed, &[bit]);
        }
    }
}

fn several_bits(bench: &mut Bench, finish: Finish) {
    for length in [1_000, 5_000, 63_999] {
        let (key, sealed) = sealed_record(bench, finish, length);
        for count in 1..=20 {
            let bits: Vec<_> = (0..count).map(|_| bench.random.below(sealed.len() * 8)).collect();
            damaged(bench, finish, &key, &sealed, &bits);
        }
    }
}

/// Two ciphertext blocks in each other's places.
fn swapped_blocks(bench: &mut Bench, finish: Finish) {
    for _ in 0..2_000 {
        let length = bench.random.within(32, 200);
        let (key, sealed) = sealed_record(bench, finish, length);
        let blocks = length / 16 + 1;
        let (left, right) = (bench.random.below(blocks), bench.random.below(blocks));
        let mut swapped = sealed.clone();
        swapped[16 + 16 * left..][..16].copy_from_slice(&sealed[16 + 16 * right..][..16]);
        swapped[16 + 16 * right..][..16].copy_from_slice(&sealed[16 + 16 * left..][..16]);
        let room = bench.random.pick(&[0, length, length + 16]);
        let answer = bench.check(&Call::Open { finish, key: &key, sealed: &swapped, room });
        let undamaged = if room == 0 { 5 } else { 0 };
        assert_eq!(answer.number, if left == right { undamaged } else { 6 });
    }
}

fn sealed_record(bench: &mut Bench, finish: Finish, length: usize) -> (Vec<u8>, Vec<u8>) {
    let key_length = bench.random.pick(&pairs::KEY_LENGTHS);
    let (key, iv, message) = (bench.random.bytes(key_length), bench.random.block(), bench.random.bytes(length));
    let sealed = Mode::<Fips197>::new(&key, &iv).seal_blocks(finish, &iv, &padded(&message));
    (key, sealed)
}

fn damaged(bench: &mut Bench, finish: Finish, key: &[u8], sealed: &[u8], bits: &[usize]) {
    let mut changed = sealed.to_vec();
    for bit in bits {
        changed[bit / 8] ^= 0x80 >> (bit % 8);
    }
    let answer = bench.check(&Call::Open { finish, key, sealed: &changed, room: sealed.len() - around(finish) });
    assert_eq!(answer.number, if changed == sealed { 0 } else { 6 }, "bits {bits:?}");
    assert!(answer.number == 0 || answer.out.iter().all(|&byte| byte == 0));
}
