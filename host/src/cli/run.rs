//! `seal-run` and `check-run`.

use balzenoh::raw;
use balzenoh::sizes::{run_room, RECORD};

use super::args::Args;
use super::failure::Failure;
use super::faults::Faults;
use super::output::Outputs;
use super::{input, table, value};

pub fn seal_run(args: &Args, outputs: &Outputs) -> Result<(), Failure> {
    let mut faults = Faults::default();
    let (key, iv) = (value::key(args, &mut faults)?, value::iv(args, &mut faults)?);
    let last = args.flag(table::LAST);
    let bytes = if last { input::last_run(args, &mut faults)? } else { input::middle_run(args, &mut faults)? };
    let (mut out, mut record) = (vec![0; run_room(bytes.len(), last)], [0; RECORD]);
    let sealed = raw::seal_run(&key, &iv, first_block(args), last, &bytes, &mut out, &mut record);
    let length = sealed.map_err(|refusal| faults.explain(refusal))?;
    outputs.write_second_record(&record)?;
    outputs.write(&out[..length])
}

pub fn check_run(args: &Args, outputs: &Outputs) -> Result<(), Failure> {
    let mut faults = Faults::default();
    let (key, iv) = (value::key(args, &mut faults)?, value::iv(args, &mut faults)?);
    let ciphertext = input::ciphertext(args, &mut faults)?;
    let mut record = [0; RECORD];
    let checked = raw::check_run(&key, &iv, first_block(args), &ciphertext, &mut record);
    checked.map_err(|refusal| faults.explain(refusal))?;
    outputs.write_record(&record)
}

/// The first block for the library, which refuses the largest number as it would refuse any larger one.
fn first_block(args: &Args) -> u32 {
    args.number(table::FIRST).map_or(0, |number| u32::try_from(number).unwrap_or(u32::MAX))
}
