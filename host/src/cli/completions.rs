//! `completions`: scripts by which shells complete a command line, made from the table.

mod bash;
mod zsh;

use super::args::Args;
use super::failure::Failure;
use super::output::Outputs;
use super::standard;

pub fn completions(args: &Args, _: &Outputs) -> Result<(), Failure> {
    let script = match args.operands().first().and_then(|shell| shell.to_str()) {
        Some("bash") => bash::script(),
        Some("zsh") => zsh::script(),
        _ => return Err(Failure::Usage("there are completions for bash and zsh".into())),
    };
    standard::answer(script.as_bytes())
}
