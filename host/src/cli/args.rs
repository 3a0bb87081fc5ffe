//! Arguments: options with a value, flags, and operands.

use std::ffi::{OsStr, OsString};
use std::os::unix::ffi::OsStrExt;

use super::failure::Failure;
use super::names::{harmless, shown};
use super::source::Source;
use super::table::{self, Command, Operand, Opt, Value, HELP};

/// What a command was given.
pub struct Args {
    command: &'static Command,
    values: Vec<(&'static Opt, OsString)>,
    operands: Vec<OsString>,
}

impl Args {
    /// Reads `--option value`, `--option=value`, `-o value`, `-ovalue`, flags and operands. After `--` come operands only; `-` is
    /// an operand.
    pub fn parse(command: &'static Command, mut given: impl Iterator<Item = OsString>) -> Result<Self, Failure> {
        let mut args = Self { command, values: Vec::new(), operands: Vec::new() };
        while let Some(argument) = given.next() {
            match argument.as_bytes() {
                b"--" => args.operands.extend(given.by_ref()),
                [b'-', _, ..] => args.option(&argument, &mut given)?,
                _ => args.operands.push(argument),
            }
        }
        if !args.wants_help() {
            args.require_all()?;
        }
        Ok(args)
    }

    fn option(&mut self, argument: &OsStr, given: &mut impl Iterator<Item = OsString>) -> Result<(), Failure> {
        let (name, joined) = split(argument.as_bytes());
        let known = |option: &&Opt| option.long.as_bytes() == name || option.short.is_some_and(|short| short.as_bytes() == name);
        let Some(option) = table::options(self.command).find(known) else {
            let name = harmless(name).unwrap_or("one of the arguments");
            return Err(Failure::Usage(format!("{name} is no option of this command")));
        };
        let name = String::from_utf8_lossy(name);
        let value = match (&option.value, joined) {
            (Value::Nothing, None) => OsString::new(),
            (Value::Nothing, Some(_)) => return Err(Failure::Usage(format!("{name} takes no value"))),
            (_, Some(value)) => value.to_owned(),
            (_, None) => given.next().ok_or_else(|| Failure::Usage(format!("{name} needs a value")))?,
        };
        if self.value(option.long).is_some() && option.value.name().is_some() {
            return Err(Failure::Usage(format!("{name} is given twice")));
        }
        require_value(&name, &option.value, &value)?;
        self.values.push((option, value));
        Ok(())
    }

    /// What the command needs must be there, and standard input can be read once.
    fn require_all(&self) -> Result<(), Failure> {
        if let Some(missing) = self.command.options.iter().find(|option| option.needed && self.value(option.long).is_none()) {
            return Err(Failure::Usage(format!("{} is missing", missing.long)));
        }
        let (name, least, most) = self.command.operand.shape();
        let given = self.operands.len();
        if given < least {
            return Err(Failure::Usage(format!("{name} is missing")));
        }
        if given > most {
            let taken = if most == 0 { "no operand is taken" } else { "one operand at most is taken" };
            return Err(Failure::Usage(format!("{taken}, and {given} {} given", if given == 1 { "is" } else { "are" })));
        }
        self.require_names()?;
        if self.sources().iter().filter(|source| matches!(source, Source::Standard)).count() > 1 {
            return Err(Failure::Usage("standard input is to be read for two things".into()));
        }
        Ok(())
    }

    fn require_names(&self) -> Result<(), Failure> {
        match (&self.command.operand, self.operands.first()) {
            (Operand::Input, Some(name)) if name.is_empty() => Err(Failure::Usage("the name of the input is empty".into())),
            (Operand::Record | Operand::Records, _) if self.operands.iter().any(|operand| operand == "@") => {
                Err(Failure::Usage("RECORD has no name after the @".into()))
            }
            _ => Ok(()),
        }
    }

    pub fn command(&self) -> &'static Command {
        self.command
    }

    pub fn wants_help(&self) -> bool {
        self.flag(HELP.long)
    }

    pub fn flag(&self, name: &str) -> bool {
        self.value(name).is_some()
    }

    /// The value of the option with this long name.
    pub fn value(&self, name: &str) -> Option<&OsStr> {
        self.values.iter().find(|(option, _)| option.long == name).map(|(_, value)| value.as_os_str())
    }

    /// A number. One that does not fit 64 bits is the nearest that does.
    pub fn number(&self, name: &str) -> Option<i64> {
        self.value(name).and_then(decimal)
    }

    pub fn operands(&self) -> &[OsString] {
        &self.operands
    }

    /// All that the command reads.
    pub fn sources(&self) -> Vec<Source> {
        let values = self.values.iter().filter(|(option, _)| matches!(option.value, Value::Digits(_)));
        let mut sources: Vec<_> = values.filter_map(|(_, value)| Source::of_value(value)).collect();
        match self.command.operand {
            Operand::Input => sources.push(Source::of_input(self.operands.first())),
            Operand::Record | Operand::Records => sources.extend(self.operands.iter().filter_map(|name| Source::of_value(name))),
            Operand::None | Operand::Shell | Operand::Command => {}
        }
        sources
    }
}

/// The name of an option, and the value that is joined to it.
fn split(argument: &[u8]) -> (&[u8], Option<&OsStr>) {
    let (name, value) = match argument.iter().position(|&byte| byte == b'=') {
        Some(at) if argument.starts_with(b"--") => (&argument[..at], Some(&argument[at + 1..])),
        _ if argument.starts_with(b"--") || argument.len() == 2 => (argument, None),
        _ => (&argument[..2], Some(argument[2..].strip_prefix(b"=").unwrap_or(&argument[2..]))),
    };
    (name, value.map(OsStr::from_bytes))
}

/// A value must be what its option takes. Digits are not looked at: the library is to refuse them.
fn require_value(name: &str, takes: &Value, value: &OsStr) -> Result<(), Failure> {
    let wrong = match takes {
        Value::File(_) if value.is_empty() => format!("{name} needs the name of a file, and has an empty one"),
        Value::Digits(_) if value == "@" => format!("{name} has no name after the @"),
        Value::Number(_, least, most) if !decimal(value).is_some_and(|number| (*least..=*most).contains(&number)) => {
            format!("{name} {}, and must be a whole number {}", given(value), bounds(*least, *most))
        }
        Value::Choice(_, words) if !words.iter().any(|word| value == *word) => {
            format!("{name} {}, and must be {}", given(value), words.join(" or "))
        }
        _ => return Ok(()),
    };
    Err(Failure::Usage(wrong))
}

/// What was given for a number or a word. A long text may be a key, and is not repeated.
pub fn given(value: &OsStr) -> String {
    match value.len() {
        0 => "is empty".to_string(),
        1..=20 => format!("is {}", shown(value)),
        length => format!("has {length} characters"),
    }
}

/// Which whole numbers are meant.
fn bounds(least: i64, most: i64) -> String {
    match (least, most) {
        (i64::MIN, i64::MAX) => "in digits, with a hyphen (-) before them where it is negative".to_string(),
        (least, i64::MAX) => format!("from {least} on"),
        (least, most) => format!("from {least} to {most}"),
    }
}

/// Digits, after a hyphen where the number is negative.
fn decimal(value: &OsStr) -> Option<i64> {
    let text = value.to_str()?;
    let (digits, nearest) = text.strip_prefix('-').map_or((text, i64::MAX), |digits| (digits, i64::MIN));
    let made_of_digits = !digits.is_empty() && digits.bytes().all(|byte| byte.is_ascii_digit());
    made_of_digits.then(|| text.parse().unwrap_or(nearest))
}
