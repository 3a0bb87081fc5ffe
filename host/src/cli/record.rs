//! `join`, `close`, `test` and `jump`: the calls on short values only.

use balzenoh::sizes::{BLOCK, LIMIT, RECORD};
use balzenoh::{raw, Refusal, RunRecord};

use super::args::{given, Args};
use super::failure::Failure;
use super::faults::Faults;
use super::finish::finish;
use super::names::grouped;
use super::output::{self, Outputs};
use super::{standard, table, value};

pub fn join(args: &Args, outputs: &Outputs) -> Result<(), Failure> {
    let mut faults = Faults::default();
    let mut records = Vec::new();
    for (index, operand) in args.operands().iter().enumerate() {
        let name = format!("RECORD {}", index + 1);
        let record = value::record(&name, operand, &mut faults)?;
        judge_blocks(&name, &record, &mut faults);
        records.push(record);
    }
    let joined = join_all(&records).map_err(|refusal| faults.explain(refusal))?;
    outputs.write_record(&joined)
}

/// Two records are joined as a pair, any other number as a list.
fn join_all(records: &[Vec<u8>]) -> Result<[u8; RECORD], Refusal> {
    if records.iter().any(|record| record.len() != RECORD) {
        return Err(Refusal::RecordLength);
    }
    let mut joined = [0; RECORD];
    match records {
        [left, right] => raw::join(left, right, &mut joined)?,
        _ => raw::join_list(&records.concat(), &mut joined)?,
    }
    Ok(joined)
}

pub fn close(args: &Args, outputs: &Outputs) -> Result<(), Failure> {
    let mut faults = Faults::default();
    let (key, iv) = (value::key(args, &mut faults)?, value::iv(args, &mut faults)?);
    let (record, finish) = (one_record(args, &mut faults)?, finish(args));
    let mut tag = vec![0; finish.tag_length()];
    raw::close_with(finish, &key, &iv, &record, &mut tag).map_err(|refusal| faults.explain(refusal))?;
    outputs.write_tag(&tag)
}

pub fn test(args: &Args, _: &Outputs) -> Result<(), Failure> {
    let mut faults = Faults::default();
    let (key, iv) = (value::key(args, &mut faults)?, value::iv(args, &mut faults)?);
    let finish = finish(args);
    let (tag, record) = (value::tag(args, finish, &mut faults)?, one_record(args, &mut faults)?);
    raw::test_with(finish, &key, &iv, &record, &tag).map_err(|refusal| faults.explain(refusal))?;
    standard::print("passes\n")
}

pub fn jump(args: &Args, _: &Outputs) -> Result<(), Failure> {
    let mut faults = Faults::default();
    let mask = value::mask(args, &mut faults)?;
    let (distance_given, most) = (given(args.value(table::DISTANCE).unwrap_or_default()), grouped(LIMIT));
    faults
        .add(Refusal::BeyondLimit, format!("{} {distance_given}, and a mask jumps by -{most} to {most} blocks", table::DISTANCE));
    let mut jumped = [0; BLOCK];
    raw::jump(&mask, distance(args), &mut jumped).map_err(|refusal| faults.explain(refusal))?;
    output::print_digits(&jumped)
}

/// The distance for the library, which refuses the farthest either way as it would refuse any farther one.
fn distance(args: &Args) -> i32 {
    let given = args.number(table::DISTANCE).unwrap_or_default();
    given.clamp(i32::MIN.into(), i32::MAX.into()) as i32
}

/// The record that is the operand.
fn one_record(args: &Args, faults: &mut Faults) -> Result<Vec<u8>, Failure> {
    let name = "RECORD";
    let record = value::record(name, args.operands().first().map(|operand| operand.as_os_str()).unwrap_or_default(), faults)?;
    judge_blocks(name, &record, faults);
    Ok(record)
}

fn judge_blocks(name: &str, record: &[u8], faults: &mut Faults) {
    let Ok(record) = RunRecord::from_bytes(record) else { return };
    let (first, count) = (record.first, record.count);
    faults.unless(u64::from(first) + u64::from(count) <= LIMIT as u64, Refusal::BeyondLimit, || {
        format!("{name} has {} from block {first} on, and a list has {} at most", blocks(count), grouped(LIMIT))
    });
}

fn blocks(count: u32) -> String {
    format!("{count} block{}", if count == 1 { "" } else { "s" })
}
