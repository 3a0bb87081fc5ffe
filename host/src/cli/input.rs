//! The input of a command: a list, a sealed list, a run of one, or a text.

use balzenoh::sizes::{around, padded_blocks, BLOCK, LIMIT, LONGEST_MESSAGE, LONGEST_TEXT};
use balzenoh::{Finish, Refusal};

use super::args::{given, Args};
use super::failure::Failure;
use super::faults::Faults;
use super::finish::{spelled, with};
use super::names::{counted, grouped, shown};
use super::source::Source;
use super::table;

/// Of a run that is too long, one block more than a list may have is read: whole blocks, so that it is refused for their number.
const LONGEST_RUN: usize = (LIMIT + 1) * BLOCK - 1;

/// A list to seal.
pub fn list(args: &Args, faults: &mut Faults) -> Result<Vec<u8>, Failure> {
    let (name, bytes) = read(args, LONGEST_MESSAGE)?;
    faults.unless(bytes.len() <= LONGEST_MESSAGE, Refusal::Length, || {
        format!("{name} has more than {} bytes, and no list to seal has more", grouped(LONGEST_MESSAGE))
    });
    Ok(bytes)
}

/// A sealed list with this finish. Of any that is too long, enough is read to see whether it was sealed with another.
pub fn sealed(args: &Args, finish: Finish, faults: &mut Faults) -> Result<Vec<u8>, Failure> {
    let (name, bytes) = read(args, longest_sealed(Finish::Sha1))?;
    faults.unless(is_sealed(finish, bytes.len()), Refusal::Length, || not_sealed(&name, finish, bytes.len()));
    Ok(bytes)
}

const fn longest_sealed(finish: Finish) -> usize {
    LIMIT * BLOCK + around(finish)
}

/// Whether a sealed list with this finish can have so many bytes.
fn is_sealed(finish: Finish, length: usize) -> bool {
    let ciphertext = length.saturating_sub(around(finish));
    (1..=LIMIT * BLOCK).contains(&ciphertext) && ciphertext.is_multiple_of(BLOCK)
}

/// Says why a file of this length is no sealed list, and where it would be one with another finish.
fn not_sealed(name: &str, finish: Finish, length: usize) -> String {
    let (least, most) = (grouped(BLOCK + around(finish)), grouped(longest_sealed(finish)));
    let has = if length > longest_sealed(finish) { format!("more than {most} bytes") } else { counted(length, "byte") };
    let over = match around(finish) % BLOCK {
        0 => String::new(),
        _ => format!("{} over ", around(finish)),
    };
    let other = Finish::ALL.into_iter().find(|&other| is_sealed(other, length));
    let hint = other.map_or(String::new(), |other| format!("; it could be one with {}", spelled(other)));
    format!("{name} has {has}, and a sealed list{} has {least} to {most}, {over}a multiple of {BLOCK}{hint}", with(finish))
}

/// A text for SHA-1.
pub fn text(args: &Args, faults: &mut Faults) -> Result<Vec<u8>, Failure> {
    let (name, bytes) = read(args, LONGEST_TEXT)?;
    faults.unless(bytes.len() <= LONGEST_TEXT, Refusal::Length, || {
        format!("{name} has more than {} bytes, and SHA-1 is taken of no longer text", grouped(LONGEST_TEXT))
    });
    Ok(bytes)
}

/// A run of ciphertext.
pub fn ciphertext(args: &Args, faults: &mut Faults) -> Result<Vec<u8>, Failure> {
    run(args, "a run of ciphertext", |length| length / BLOCK, faults)
}

/// A run to seal that is not the last.
pub fn middle_run(args: &Args, faults: &mut Faults) -> Result<Vec<u8>, Failure> {
    run(args, "a run that is not the last", |length| length / BLOCK, faults)
}

/// A run to seal that is the last, and may have any length.
pub fn last_run(args: &Args, faults: &mut Faults) -> Result<Vec<u8>, Failure> {
    let (name, bytes) = read(args, LONGEST_RUN)?;
    judge_blocks(args, &name, padded_blocks(bytes.len()), faults);
    Ok(bytes)
}

/// A run of whole blocks.
fn run(args: &Args, what: &str, blocks: fn(usize) -> usize, faults: &mut Faults) -> Result<Vec<u8>, Failure> {
    let (name, bytes) = read(args, LONGEST_RUN)?;
    faults.unless(bytes.len().is_multiple_of(BLOCK), Refusal::Length, || {
        format!("{name} has {}, and {what} has a multiple of {BLOCK}", counted(bytes.len(), "byte"))
    });
    judge_blocks(args, &name, blocks(bytes.len()), faults);
    Ok(bytes)
}

fn judge_blocks(args: &Args, name: &str, blocks: usize, faults: &mut Faults) {
    let first = args.number(table::FIRST).unwrap_or_default();
    faults.unless(first.saturating_add(blocks as i64) <= LIMIT as i64, Refusal::BeyondLimit, || {
        let most = grouped(LIMIT);
        let has = if blocks > LIMIT { format!("more than {most} blocks") } else { counted(blocks, "block") };
        let first = given(args.value(table::FIRST).unwrap_or_default());
        format!("{name} has {has} and {} {first}, and a list has {most} blocks at most", table::FIRST)
    });
}

/// The input's name and bytes, no more than one byte beyond `most`.
fn read(args: &Args, most: usize) -> Result<(String, Vec<u8>), Failure> {
    let source = Source::of_input(args.operands().first());
    let bytes = source.read(most).map_err(|error| Failure::unreadable(source.name(), &error))?;
    Ok((shown(source.name()), bytes))
}
