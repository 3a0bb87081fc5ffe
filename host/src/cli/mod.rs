//! The commands: finding the one that is meant, running it, and answering for a failure.

mod args;
mod completions;
mod demo;
mod destination;
mod digest;
mod failure;
mod faults;
mod finish;
mod help;
mod identity;
mod input;
mod man;
mod names;
mod output;
mod progress;
mod record;
mod replace;
mod run;
mod source;
mod spread;
mod standard;
mod table;
mod value;
mod version;
mod whole;

use std::ffi::{OsStr, OsString};
use std::os::unix::ffi::OsStrExt;
use std::panic::{catch_unwind, AssertUnwindSafe};

use args::Args;
use failure::Failure;
use output::Outputs;
use table::{Command, Opt};

/// Runs the program and gives its exit status.
pub fn run(mut arguments: impl Iterator<Item = OsString>) -> u8 {
    let Some(name) = arguments.next() else {
        return ended(None, Err(Failure::Usage("no command is given".into())));
    };
    if is_option(&name, &table::HELP) {
        return ended(None, help::print_global());
    }
    if is_option(&name, &table::VERSION) {
        return ended(None, version::version());
    }
    match table::command(&name) {
        Some(command) => ended(Some(command.name), run_command(command, arguments)),
        None => ended(None, Err(no_command(&name))),
    }
}

/// Says what went wrong, and gives the exit status.
fn ended(command: Option<&str>, result: Result<(), Failure>) -> u8 {
    let Err(failure) = result else { return 0 };
    if let Some(message) = failure.message(command) {
        standard::say(message);
    }
    failure.exit_status()
}

fn is_option(name: &OsStr, option: &Opt) -> bool {
    name == option.long || option.short.is_some_and(|short| name == short)
}

fn no_command(name: &OsStr) -> Failure {
    let name = names::harmless(name.as_bytes()).filter(|name| !name.is_empty());
    Failure::Usage(name.map_or("there is no such command".into(), |name| format!("there is no command {name}")))
}

fn run_command(command: &'static Command, arguments: impl Iterator<Item = OsString>) -> Result<(), Failure> {
    let args = Args::parse(command, arguments)?;
    if args.wants_help() {
        return help::print_command(command);
    }
    let outputs = Outputs::new(&args)?;
    let Err(failure) = work(&args, &outputs) else { return Ok(()) };
    if matches!(failure, Failure::Usage(_)) || outputs.clear() {
        return Err(failure);
    }
    // What went wrong is said, but it is the earlier file that decides the exit status.
    ended(Some(command.name), Err(failure));
    Err(Failure::StillThere)
}

/// A fault of the program is no reason to leave an earlier answer.
fn work(args: &Args, outputs: &Outputs) -> Result<(), Failure> {
    let work = || outputs.require_usable().and_then(|()| (args.command().work)(args, outputs));
    catch_unwind(AssertUnwindSafe(work)).unwrap_or(Err(Failure::Fault))
}
