//! The man page, made from the table.

use super::args::Args;
use super::failure::{Failure, STATUSES};
use super::help::{global_examples, option_text, spelled, usage, SECTIONS, TITLE};
use super::output::Outputs;
use super::standard;
use super::table::{Command, Opt, COMMANDS, HELP, VERSION};

pub fn man(_: &Args, _: &Outputs) -> Result<(), Failure> {
    standard::answer(page().as_bytes())
}

fn page() -> String {
    let version = env!("CARGO_PKG_VERSION");
    let mut page = format!(".TH BALZENOH 1 \"\" \"balzenoh {version}\"\n.SH NAME\nbalzenoh \\- {}\n", escaped(TITLE));
    page += ".SH SYNOPSIS\n";
    page += &COMMANDS.iter().map(|command| line(&usage(command)) + ".br\n").collect::<String>();
    page += &line(&format!("balzenoh {}", VERSION.long));
    page += ".SH COMMANDS\n";
    page += &COMMANDS.iter().map(described).collect::<String>();
    page += ".SH OPTIONS\n";
    page += &[&HELP, &VERSION].into_iter().map(option).collect::<String>();
    for (title, text) in SECTIONS {
        page += &format!(".SH {title}\n{}", line(text));
    }
    page += ".SH EXIT STATUS\n";
    page += &STATUSES.iter().map(|(status, text)| tagged(&status.to_string(), text)).collect::<String>();
    page + ".SH EXAMPLES\n" + &examples(global_examples())
}

fn described(command: &'static Command) -> String {
    let (operand, _, most) = command.operand.shape();
    let operands = if most > 0 { tagged(operand, command.operand.text()) } else { String::new() };
    let options: String = command.options.iter().map(option).collect();
    let examples = examples(command.examples.iter().copied());
    format!(".SS {}\n{}{operands}{options}.PP\n{examples}", escaped(command.name), line(command.text))
}

fn option(option: &Opt) -> String {
    let short = option.short.map_or(String::new(), |short| format!("{}, ", spelled(short, option)));
    tagged(&format!("{short}{}", spelled(option.long, option)), &option_text(option))
}

fn tagged(name: &str, text: &str) -> String {
    format!(".TP\n.B {}\n{}", escaped(name), line(text))
}

/// Lines that are set as they are.
fn examples(lines: impl Iterator<Item = &'static str>) -> String {
    format!(".RS 4\n.nf\n{}.fi\n.RE\n", lines.map(line).collect::<String>())
}

/// A line of text. One that begins with a dot or an apostrophe would be a request.
fn line(text: &str) -> String {
    format!("{}\n", escaped(text)).replace("\n.", "\n\\&.").replace("\n'", "\n\\&'")
}

fn escaped(text: &str) -> String {
    text.replace('\\', "\\e").replace('-', "\\-").replace('\'', "\\(aq").replace('`', "\\(ga").replace('~', "\\(ti")
}
