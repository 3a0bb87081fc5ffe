//! A list spread over threads gives the very bytes, and the very refusals, of the whole calls.

use std::env;
use std::process::Command;
use std::sync::Mutex;

use balzenoh::{check_in_runs, check_in_runs_watched, check_in_runs_with, open_with};
use balzenoh::{seal, seal_in_runs, seal_in_runs_watched, seal_in_runs_with, seal_with};
use balzenoh::{Finish, Iv, Key, Refusal};

use crate::support::finish::{around, other, FINISHES};
use crate::support::pairs;
use crate::support::random::Random;

const LENGTHS: [usize; 14] = [0, 1, 15, 16, 17, 31, 32, 100, 255, 256, 1_000, 63_983, 63_984, 63_999];
const RUNS: [usize; 10] = [0, 1, 2, 3, 7, 16, 64, 4_000, 4_001, usize::MAX];
const THREADS: [usize; 5] = [0, 1, 2, 3, 8];

#[test]
fn sealed_in_runs_as_sealed_whole() {
    let mut random = Random::new(51);
    for (key, finish) in keys_and_finishes() {
        sealed_under(&mut random, finish, &key);
    }
}

fn keys_and_finishes() -> impl Iterator<Item = (Key, Finish)> {
    [Key::from([51; 16]), Key::from([52; 32])].into_iter().flat_map(|key| FINISHES.map(|finish| (key.clone(), finish)))
}

fn sealed_under(random: &mut Random, finish: Finish, key: &Key) {
    let iv = Iv::from(random.block());
    for length in LENGTHS {
        let message = random.bytes(length);
        let whole = seal_with(finish, key, &iv, &message);
        assert!(whole.is_ok());
        for (runs, threads) in RUNS.iter().flat_map(|&runs| THREADS.map(|threads| (runs, threads))) {
            let sealed = seal_in_runs_with(finish, key, &iv, &message, runs, threads);
            assert!(sealed == whole, "{finish:?}, {length} bytes, {runs} runs, {threads} threads");
        }
    }
    for length in [16_777_216, 16_777_217] {
        assert_eq!(seal_in_runs_with(finish, key, &iv, &vec![0; length], 4, 2), Err(Refusal::Length));
    }
}

/// Where no finish is named it is the cipher's.
#[test]
fn the_usual_finish_is_the_ciphers() {
    let mut random = Random::new(55);
    let (key, iv) = (Key::from([51; 16]), Iv::from(random.block()));
    for length in LENGTHS {
        let message = random.bytes(length);
        let sealed = seal_with(Finish::Cipher, &key, &iv, &message).expect("within the limit");
        assert_eq!(seal(&key, &iv, &message).as_ref(), Ok(&sealed));
        assert_eq!(seal_in_runs(&key, &iv, &message, 3, 2).as_ref(), Ok(&sealed));
        assert_eq!(check_in_runs(&key, &sealed, 3, 2), Ok(()));
    }
}

/// Every block is told once, in as many calls as there are runs, and the answer is the same.
#[test]
fn all_blocks_are_told() {
    let (key, iv, message) = (Key::from([51; 16]), Iv::from([52; 16]), [b'x'; 1_000]);
    let sealed = seal(&key, &iv, &message).expect("within the limit");
    for (runs, threads) in RUNS.iter().flat_map(|&runs| THREADS.map(|threads| (runs, threads))) {
        let [sealing, checking] = [(); 2].map(|()| Mutex::new(Vec::new()));
        let tell = |told: &Mutex<Vec<usize>>, blocks| told.lock().expect("no thread has panicked").push(blocks);
        let given = seal_in_runs_watched(Finish::Cipher, &key, &iv, &message, runs, threads, |blocks| tell(&sealing, blocks));
        assert_eq!(given.as_ref(), Ok(&sealed));
        let passed = check_in_runs_watched(Finish::Cipher, &key, &sealed, runs, threads, |blocks| tell(&checking, blocks));
        assert_eq!(passed, Ok(()));
        for told in [sealing, checking].map(|told| told.into_inner().expect("no thread has panicked")) {
            assert_eq!((told.len(), told.iter().sum()), (runs.clamp(1, 63), 63));
        }
    }
}

#[test]
fn checked_in_runs_as_opened_whole() {
    let mut random = Random::new(52);
    for (key, finish) in keys_and_finishes() {
        checked_under(&mut random, finish, &key);
    }
}

fn checked_under(random: &mut Random, finish: Finish, key: &Key) {
    let iv = Iv::from(random.block());
    for length in LENGTHS {
        let mut sealed = seal_with(finish, key, &iv, &random.bytes(length)).expect("within the limit");
        for (runs, threads) in RUNS.iter().flat_map(|&runs| THREADS.map(|threads| (runs, threads))) {
            assert_eq!(check_in_runs_with(finish, key, &sealed, runs, threads), Ok(()));
        }
        let at = random.below(sealed.len());
        sealed[at] ^= 1 << random.below(8);
        for runs in RUNS {
            assert_eq!(check_in_runs_with(finish, key, &sealed, runs, 2), Err(Refusal::TagDiffers));
            assert_eq!(check_in_runs_with(other(finish), key, &sealed, runs, 2), Err(Refusal::Length));
        }
    }
    for length in (0..=100).chain(64_000..=64_060) {
        let sealed = random.bytes(length);
        let opened = open_with(finish, key, &sealed).map(|_| ());
        assert_eq!(check_in_runs_with(finish, key, &sealed, 3, 2), opened, "{length} bytes");
    }
}

/// Every run is refused, and so is the list; a length that no list has comes before that.
#[test]
fn a_mask_of_nothing_is_refused_in_runs_too() {
    for (key, finish) in pairs::NO_KEYS.into_iter().flat_map(|key| FINISHES.map(|finish| (key, finish))) {
        let (key, iv) = pairs::replaced(key);
        refused_under(finish, &Key::from_slice(&key).expect("a key"), &Iv::from(iv));
    }
}

fn refused_under(finish: Finish, key: &Key, iv: &Iv) {
    let too_long = &vec![0; 16_777_216][..];
    for (runs, threads) in RUNS.iter().flat_map(|&runs| THREADS.map(|threads| (runs, threads))) {
        for blocks in [1, 2, 9, 4_000] {
            let sealed = [iv.as_ref(), &vec![7; 16 * (blocks - 1) + around(finish)]].concat();
            let message = &sealed[..16 * blocks - 1];
            assert_eq!(seal_in_runs_with(finish, key, iv, message, runs, threads), Err(Refusal::ZeroMask));
            assert_eq!(check_in_runs_with(finish, key, &sealed, runs, threads), Err(Refusal::ZeroMask));
        }
        assert_eq!(seal_in_runs_with(finish, key, iv, too_long, runs, threads), Err(Refusal::Length));
        assert_eq!(check_in_runs_with(finish, key, iv.as_ref(), runs, threads), Err(Refusal::Length));
    }
}

/// The tests above, in a process that can start no thread: no stack of this size fits into memory.
#[test]
fn where_no_thread_can_be_started_the_caller_does_it_all() {
    let output = Command::new(env::current_exe().expect("this program"))
        .args([
            "--exact",
            "--test-threads=1",
            "spread::sealed_in_runs_as_sealed_whole",
            "spread::checked_in_runs_as_opened_whole",
            "spread::a_mask_of_nothing_is_refused_in_runs_too",
        ])
        .env("RUST_MIN_STACK", (1_u64 << 47).to_string())
        .output()
        .expect("this program starts");
    let told = String::from_utf8_lossy(&output.stdout);
    assert!(output.status.success() && told.contains("3 passed"), "{told}");
}
