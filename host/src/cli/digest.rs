//! `sha1`.

use super::args::Args;
use super::failure::Failure;
use super::faults::Faults;
use super::input;
use super::output::{self, Outputs};

pub fn sha1(args: &Args, _: &Outputs) -> Result<(), Failure> {
    let mut faults = Faults::default();
    let text = input::text(args, &mut faults)?;
    let digest = balzenoh::sha1(&text).map_err(|refusal| faults.explain(refusal))?;
    output::print_digits(&digest)
}
