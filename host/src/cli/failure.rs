//! How a command fails, and the exit status that says so.

use std::ffi::OsStr;
use std::io::{self, ErrorKind};

use balzenoh::Refusal;

use super::names::shown;

pub enum Failure {
    /// The command line is wrong.
    Usage(String),
    /// A file cannot be read or written.
    File(String),
    /// Nobody reads standard output any more. Nothing is said of that.
    BrokenPipe,
    /// The library refused the call; what is wrong, where more is known than the refusal says.
    Refused(Refusal, Option<String>),
    /// An earlier file could neither be removed nor emptied.
    StillThere,
    /// The demonstration did not show what it should.
    Demo,
    /// The program has a fault.
    Fault,
}

/// What the exit statuses mean.
pub const STATUSES: [(u8, &str); 16] = [
    (0, "done"),
    (1, "the key is neither 16 nor 32 bytes"),
    (2, "the IV is not 16 bytes"),
    (3, "a list, run, tag, mask or text has a length that it cannot have"),
    (4, "beyond the limit of 1,048,576 blocks"),
    (5, "too little room for the answer (not from this program, which lends enough)"),
    (6, "the list is not the one that was sealed, or the key is another one"),
    (7, "the list does not end as lists do"),
    (8, "the records do not follow each other"),
    (9, "not the record of a whole list, or no record at all"),
    (10, "the first 16 bytes of the key are zeros, and with this IV nothing would hide the list: load a real key"),
    (24, "a run record is not 24 bytes"),
    (USAGE, "the command line is wrong; nothing was touched"),
    (FAULT, "the demonstration went wrong, or the program or the library has a fault"),
    (STILL_THERE, "the command failed, and an earlier file at the output could neither be removed nor emptied"),
    (FILE, "a file or stream cannot be read or written"),
];

const USAGE: u8 = 64;
const FAULT: u8 = 70;
const STILL_THERE: u8 = 73;
const FILE: u8 = 74;

impl Failure {
    pub fn exit_status(&self) -> u8 {
        match self {
            Self::Usage(_) => USAGE,
            Self::File(_) | Self::BrokenPipe => FILE,
            Self::Refused(Refusal::Unknown(..), _) | Self::Demo | Self::Fault => FAULT,
            Self::Refused(refusal, _) => refusal.number(),
            Self::StillThere => STILL_THERE,
        }
    }

    pub fn unreadable(name: impl AsRef<OsStr>, error: &io::Error) -> Self {
        Self::File(format!("{} cannot be read: {error}", shown(name)))
    }

    pub fn unwritable(name: impl AsRef<OsStr>, error: &io::Error) -> Self {
        match error.kind() {
            ErrorKind::BrokenPipe => Self::BrokenPipe,
            _ => Self::File(format!("{} cannot be written: {error}", shown(name))),
        }
    }

    /// What is said of the failure, where anything is.
    pub fn message(&self, command: Option<&str>) -> Option<String> {
        let help = command.map_or("--help".to_string(), |command| format!("{command} --help"));
        Some(match self {
            Self::BrokenPipe | Self::StillThere => return None,
            Self::Usage(what) => format!("{what}. `balzenoh {help}` says what there is."),
            Self::File(what) => what.clone(),
            Self::Refused(refusal, Some(what)) => format!("refusal {}: {what}.", refusal.number()),
            Self::Refused(refusal, None) => refusal.to_string(),
            Self::Demo => "the demonstration went wrong: look at its lines that begin with WRONG.".into(),
            Self::Fault => "the program has a fault. Do not use the answer.".into(),
        })
    }
}
