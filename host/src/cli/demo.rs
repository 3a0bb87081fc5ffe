//! `demo`: what the product is for, in a few seconds.

use std::fmt::Write;
use std::sync::Mutex;
use std::thread;

use balzenoh::sizes::{padded_blocks, BLOCK};
use balzenoh::{close, join_list, jump, open, open_into, seal, seal_run, Iv, Key, Kind, Refusal, RunRecord};

use super::args::Args;
use super::failure::Failure;
use super::names::grouped;
use super::output::Outputs;
use super::standard;

/// The order in which the runs are sealed.
const ORDER: [usize; 7] = [4, 1, 6, 0, 3, 5, 2];
const RUNS: usize = ORDER.len();
const THREADS: usize = 2;

/// Masks of the list of 1,000,000 blocks in the mode's paper: that of its last block, and the start mask.
const TAIL_MASK: u128 = 0x8F3461728ECD3A7B3D3CC89808967071;
const START_MASK: u128 = 0xFDED29920913A3DA8C9ECA2F0FD434AA;
/// The number of blocks before the last.
const BEFORE_TAIL: i32 = 999_999;

/// What is told, and whether all was as it should be.
struct Story {
    text: String,
    checks: usize,
    wrong: usize,
}

impl Story {
    fn tell(&mut self, line: &str) {
        let _ = writeln!(self.text, "{line}");
    }

    fn check(&mut self, what: &str, holds: bool) {
        self.checks += 1;
        self.wrong += usize::from(!holds);
        self.tell(&format!("  {} {what}", if holds { "yes  " } else { "WRONG" }));
    }
}

/// A run's ciphertext and record.
type Sealed = (Vec<u8>, RunRecord);

pub fn demo(_: &Args, _: &Outputs) -> Result<(), Failure> {
    let mut story = Story { text: String::new(), checks: 0, wrong: 0 };
    let told = tell_all(&mut story);
    if let Err(refusal) = told {
        story.check(&format!("no call that should succeed is refused: {refusal}"), false);
    }
    let Story { checks, wrong, .. } = story;
    story.tell(&format!("\nSummary: {} of {checks} checks as they should be.", checks - wrong));
    standard::print(&story.text)?;
    if wrong == 0 {
        Ok(())
    } else {
        Err(Failure::Demo)
    }
}

fn tell_all(story: &mut Story) -> Result<(), Refusal> {
    let (key, iv) = (Key::from(*b"a key for a demo"), Iv::from(*b"used only once!!"));
    let list = route_list();
    let sealed = sealed_whole(story, &key, &iv, &list)?;
    let runs = sealed_in_runs(story, &key, &iv, &list, &sealed)?;
    opened(story, &key, &list, &sealed);
    damaged(story, &key, &sealed);
    run_left_out(story, &key, &iv, &sealed, &runs);
    tail_first(story)
}

/// A few hundred lines that say into which cage a parcel falls.
fn route_list() -> Vec<u8> {
    let lines = (0..300).map(|number| format!("parcel {} -> cage {:02}\n", 480_117 + 7 * number, (number * number + 5) % 48));
    lines.collect::<String>().into_bytes()
}

fn sealed_whole(story: &mut Story, key: &Key, iv: &Iv, list: &[u8]) -> Result<Vec<u8>, Refusal> {
    let sealed = seal(key, iv, list)?;
    story.tell(&format!("A route list of 300 lines, {} bytes:", list.len()));
    for line in String::from_utf8_lossy(list).lines().take(3) {
        story.tell(&format!("    {line}"));
    }
    story.tell(&format!("    ...\nSealed whole: {} bytes, IV, ciphertext and tag.", sealed.len()));
    Ok(sealed)
}

/// Two threads take the runs in a jumbled order.
fn sealed_in_runs(story: &mut Story, key: &Key, iv: &Iv, list: &[u8], whole: &[u8]) -> Result<Vec<Sealed>, Refusal> {
    let waiting = Mutex::new(ORDER.into_iter());
    let next = || waiting.lock().expect("no thread has panicked").next();
    let work = || std::iter::from_fn(next).map(|run| Ok((run, seal_one(key, iv, list, run)?))).collect::<Result<Vec<_>, _>>();
    let done = thread::scope(|scope| {
        let threads = [(); THREADS].map(|()| scope.spawn(work));
        threads.map(|thread| thread.join().expect("no thread has panicked"))
    });
    let mut runs = done.into_iter().collect::<Result<Vec<_>, _>>()?.concat();
    runs.sort_by_key(|(run, _)| *run);
    let runs: Vec<Sealed> = runs.into_iter().map(|(_, sealed)| sealed).collect();
    story.tell(&format!("\nSealed in {RUNS} runs on {THREADS} threads, in the order {ORDER:?}; records joined and closed:"));
    story.check("the same bytes as sealed whole", put_together(key, iv, &runs)? == whole);
    Ok(runs)
}

/// Seals one run of the even cut; the last one gets the padding.
fn seal_one(key: &Key, iv: &Iv, list: &[u8], run: usize) -> Result<Sealed, Refusal> {
    let share = padded_blocks(list.len()) / RUNS;
    let (first, last) = (run * share, run + 1 == RUNS);
    let end = if last { list.len() } else { (first + share) * BLOCK };
    let kind = if last { Kind::Last } else { Kind::Middle };
    seal_run(key, iv, first as u32, kind, &list[first * BLOCK..end])
}

/// IV, ciphertexts and the tag of the joined records.
fn put_together(key: &Key, iv: &Iv, runs: &[Sealed]) -> Result<Vec<u8>, Refusal> {
    let records: Vec<_> = runs.iter().map(|(_, record)| record.clone()).collect();
    let tag = close(key, iv, &join_list(&records)?)?;
    let ciphertexts: Vec<u8> = runs.iter().flat_map(|(ciphertext, _)| ciphertext.clone()).collect();
    Ok([iv.as_bytes(), &ciphertexts[..], tag.as_bytes()].concat())
}

fn opened(story: &mut Story, key: &Key, list: &[u8], sealed: &[u8]) {
    story.tell("\nOpened again:");
    story.check("the very list", open(key, sealed).as_deref() == Ok(list));
}

fn damaged(story: &mut Story, key: &Key, sealed: &[u8]) {
    let mut damaged = sealed.to_vec();
    damaged[sealed.len() / 2] ^= 0x10;
    // What lay in the lent output before could be the last list.
    let mut lent = vec![0xA5; sealed.len()];
    let result = open_into(key, &damaged, &mut lent);
    story.tell("\nOne bit changed on the way, and the lent output full of noise:");
    refused(story, result, Refusal::TagDiffers);
    story.check("the lent output is zero from end to end", lent.iter().all(|&byte| byte == 0));
}

fn run_left_out(story: &mut Story, key: &Key, iv: &Iv, sealed: &[u8], runs: &[Sealed]) {
    let mut left = runs.to_vec();
    left.remove(3);
    let records: Vec<_> = left.iter().map(|(_, record)| record.clone()).collect();
    story.tell("\nThe record of one run left out:");
    refused(story, join_list(&records), Refusal::NotNeighbours);
    let ciphertexts: Vec<u8> = left.into_iter().flat_map(|(ciphertext, _)| ciphertext).collect();
    let shortened = [iv.as_bytes(), &ciphertexts[..], &sealed[sealed.len() - BLOCK..]].concat();
    story.tell("The ciphertext of one run left out, the tag as it was:");
    refused(story, open(key, &shortened), Refusal::TagDiffers);
}

/// A board that knows only the mask of its tail.
fn tail_first(story: &mut Story) -> Result<(), Refusal> {
    let before = grouped(BEFORE_TAIL as usize);
    story.tell(
        "\nThe last of 1,000,000 blocks arrives first, and its board knows only the mask of it, here as the mode's paper has it:",
    );
    story.tell(&format!("    {TAIL_MASK:032X}\nJumped back by the {before} blocks before it, at once:"));
    let start = jump(&TAIL_MASK.to_be_bytes(), -BEFORE_TAIL)?;
    story.check(&format!("the paper's start mask, {START_MASK:032X}"), start == START_MASK.to_be_bytes());
    story.tell("Jumped forward again by as many:");
    story.check("the mask of the last block", jump(&start, BEFORE_TAIL)? == TAIL_MASK.to_be_bytes());
    Ok(())
}

fn refused<T>(story: &mut Story, result: Result<T, Refusal>, expected: Refusal) {
    story.check(&format!("refused with {}", expected.number()), result.err() == Some(expected));
    story.tell(&format!("        \"{}\"", expected.sentence()));
}
