//! What a command writes: its answer and, for some, a record.
//!
//! Unless the exit status is 0, 64 or 73, nothing of an earlier file is left where an answer was to go: an earlier list must not
//! be taken for the one that was refused.

use std::io::{self, IsTerminal};

use balzenoh::hex;

use super::args::Args;
use super::destination::Destination;
use super::failure::Failure;
use super::identity::Identity;
use super::names::shown;
use super::replace::{self, Cleared};
use super::source::Source;
use super::standard;
use super::table;

pub struct Outputs {
    output: Destination,
    record: Destination,
}

impl Outputs {
    /// Finds where the answers go. None may go to a file that the command reads, or to that of another answer.
    pub fn new(args: &Args) -> Result<Self, Failure> {
        let destination = |option: &str| Destination::new(args.value(option));
        let outputs = Self { output: destination(table::OUTPUT), record: destination(table::RECORD) };
        outputs.require_distinct(args)?;
        if args.command().binary {
            outputs.require_no_terminal()?;
        }
        Ok(outputs)
    }

    fn require_distinct(&self, args: &Args) -> Result<(), Failure> {
        if args.command().takes(table::OUTPUT) && self.to_stream() && matches!(self.record, Destination::Named) {
            return Err(Failure::Usage("standard output is to be written for two answers".into()));
        }
        // Standard input is somebody's input even where this command does not read it.
        let sources = args.sources().into_iter().chain([Source::Standard]);
        let mut taken: Vec<_> = sources.filter_map(|source| Some((source.identity()?, "read"))).collect();
        for (identity, name) in self.written(args) {
            if let Some((_, purpose)) = taken.iter().find(|(other, _)| *other == identity) {
                return Err(Failure::Usage(format!("{name} is to be written, and is {purpose} too: nothing was done")));
            }
            taken.push((identity, "written for another answer"));
        }
        Ok(())
    }

    /// The regular files that are written, with their names.
    fn written(&self, args: &Args) -> Vec<(Identity, String)> {
        let named = [(&self.output, table::OUTPUT), (&self.record, table::RECORD)].into_iter();
        let named = named.filter_map(|(destination, option)| Some((destination.identity()?, shown(args.value(option)?))));
        let output = Identity::of_stream(io::stdout()).filter(|_| self.to_stream());
        let record = Identity::of_stream(io::stderr()).filter(|_| self.record_to_error(args));
        let streams = [(output, "the file at standard output"), (record, "the file at standard error")].into_iter();
        named.chain(streams.filter_map(|(identity, name)| Some((identity?, name.to_string())))).collect()
    }

    /// Whether a record goes to standard error, since standard output is for the ciphertext.
    fn record_to_error(&self, args: &Args) -> bool {
        let gives_both = [table::OUTPUT, table::RECORD].iter().all(|name| args.command().takes(name));
        gives_both && matches!(self.record, Destination::Usual)
    }

    fn to_stream(&self) -> bool {
        matches!(self.output, Destination::Named | Destination::Usual)
    }

    /// A terminal gets no bytes that are no text, unless it was asked for.
    fn require_no_terminal(&self) -> Result<(), Failure> {
        if matches!(self.output, Destination::Usual) && io::stdout().is_terminal() {
            return Err(Failure::Usage(
                "the answer is not text, and is not written to a terminal: name a file with -o, or -o -".into(),
            ));
        }
        Ok(())
    }

    pub fn require_usable(&self) -> Result<(), Failure> {
        self.output.require_usable().and_then(|()| self.record.require_usable())
    }

    /// Leaves nothing of an earlier answer, or says what became of it. The answer is whether nothing is left.
    pub fn clear(&self) -> bool {
        let mut all_gone = true;
        for destination in [&self.output, &self.record] {
            let Destination::File(path) = destination else { continue };
            let name = shown(path);
            match replace::clear(path) {
                Cleared::Gone => {}
                Cleared::Emptied(error) => {
                    standard::say(format!("what lay there before cannot be removed ({error}): {name} is now empty"))
                }
                Cleared::StillThere(error) => {
                    let is = if path.exists() { "is" } else { "may be" };
                    standard::say(format!(
                        "{name} {is} still there, do not use it: it can be neither removed nor emptied ({error})"
                    ));
                    all_gone = false;
                }
            }
        }
        all_gone
    }

    /// Writes a sealed list or a ciphertext.
    pub fn write(&self, bytes: &[u8]) -> Result<(), Failure> {
        self.output.write(bytes, false, standard::answer)
    }

    /// Writes an opened list. A terminal gets it where it is text.
    pub fn write_list(&self, list: &[u8]) -> Result<(), Failure> {
        if !is_text(list) {
            self.require_no_terminal()?;
        }
        self.write(list)
    }

    /// Writes a tag as bytes to a file, or as digits to standard output.
    pub fn write_tag(&self, tag: &[u8]) -> Result<(), Failure> {
        self.output.write(tag, false, print_digits)
    }

    /// Writes a record as bytes to a file, or as digits to standard output.
    pub fn write_record(&self, record: &[u8]) -> Result<(), Failure> {
        self.record.write(record, true, print_digits)
    }

    /// Writes a record as bytes to a file, or as digits to standard error, since standard output gets the ciphertext.
    pub fn write_second_record(&self, record: &[u8]) -> Result<(), Failure> {
        let usual = |bytes: &[u8]| standard::answer_on_error(line_of_digits(bytes).as_bytes());
        match self.record {
            Destination::Named => self.write_record(record),
            _ => self.record.write(record, true, usual),
        }
    }
}

/// Writes bytes as a line of digits to standard output.
pub fn print_digits(bytes: &[u8]) -> Result<(), Failure> {
    standard::answer(line_of_digits(bytes).as_bytes())
}

fn line_of_digits(bytes: &[u8]) -> String {
    format!("{}\n", hex::encode(bytes))
}

/// Whether a terminal shows these bytes as they are.
fn is_text(bytes: &[u8]) -> bool {
    std::str::from_utf8(bytes).is_ok_and(|text| !text.chars().any(|c| c.is_control() && !matches!(c, '\n' | '\r' | '\t')))
}
