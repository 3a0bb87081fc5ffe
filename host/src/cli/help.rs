//! The help, made from the table.

use super::args::Args;
use super::failure::{Failure, STATUSES};
use super::output::Outputs;
use super::standard;
use super::table::{self, Command, Opt, Value, COMMANDS, HELP, VERSION};

pub const TITLE: &str = "seals and opens route lists (Cipher-State mode over AES-128 or AES-256, over a proved library)";

/// What holds for all commands.
pub const SECTIONS: [(&str, &str); 5] = [
    (
        "VALUES",
        "A key, IV, tag, mask or record is given as hexadecimal digits, or as @FILE; @- is standard input. The file holds the \
         bytes themselves, or their digits and a line end. A file of exactly the right size (16 bytes; a record 24, a tag with \
         --finish sha1 20) is always taken as the bytes themselves; for a key one of 32 bytes too, unless they are digits, with or \
         without a line end. A value of any other length is refused by its number, and so is one that is not made of digits. A \
         key of 16 bytes is one of AES-128, a key of 32 bytes one of AES-256. Keys on the command line are seen by others on the \
         machine: use a file. Zero bytes are no key: load a real one before the first list.",
    ),
    (
        "FINISHES",
        "The tag of a list is made by the cipher, and has 16 bytes, or with --finish sha1 by SHA-1, and has 20; that is for \
         verifiers that expect the paper's longer tag. The ciphertext is the same. A sealed list does not say how its tag was \
         made: name the same finish wherever it is sealed, opened, checked, closed or tested. With the other one its length is \
         refused. No claim is made for the strength of SHA-1.",
    ),
    (
        "INPUT AND OUTPUT",
        "INPUT is a file, or standard input where it is left out or -. The answer goes to the file after -o, or to standard \
         output where that is left out or -. What is not text goes to a terminal only after -o -. A new file appears whole or \
         not at all. One that takes the place of an earlier file keeps its mode; a new record can be read by its owner alone. \
         A link is followed, a device or pipe is written and stays. The answer is never written over one of the inputs, by \
         whatever name: such a command line is wrong.",
    ),
    (
        "LONG LISTS",
        "A list has up to 1,048,576 blocks of 16 bytes. What is sealed, opened or checked is held in memory, as is the answer, once \
         each. Where runs are sealed or checked for more than half a second, and standard error is a terminal, a bar shows there how \
         far it is, and is wiped away at the end. Programs that know the earlier limit of 4,000 blocks refuse a longer list, with 3.",
    ),
    (
        "FAILURES",
        "Unless the exit status is 0, 64 or 73, nothing of an earlier file is left where an answer was to go: the file is \
         REMOVED, or emptied where its folder does not allow that, so that no earlier list is taken for the one that was \
         refused. With 64 nothing was touched. With 73 it could be neither removed nor emptied, and the message names it.",
    ),
];

/// The most columns of a line of text.
const WIDTH: usize = 92;
/// The columns of an option and its value, before its text.
const OPTION_COLUMNS: usize = 20;

/// The command `help`.
pub fn help(args: &Args, _: &Outputs) -> Result<(), Failure> {
    match args.operands().first() {
        None => print_global(),
        Some(name) => match table::command(name) {
            Some(command) => print_command(command),
            None => Err(super::no_command(name)),
        },
    }
}

pub fn print_global() -> Result<(), Failure> {
    let commands: String = COMMANDS.iter().map(|command| row(command.name, command.summary, 14)).collect();
    let options: String = [&HELP, &VERSION].into_iter().map(option_row).collect();
    let sections: String =
        SECTIONS.iter().map(|(title, text)| format!("\n{}", wrapped(&format!("{title}. {text}"), 0))).collect();
    let statuses: String = STATUSES.iter().map(|(status, text)| format!("  {status:3}   {text}\n")).collect();
    let examples: String = global_examples().map(|example| format!("  {example}\n")).collect();
    standard::print(&format!(
        "balzenoh: {TITLE}

    balzenoh COMMAND [OPTIONS] [OPERANDS]

{commands}
{options}
  balzenoh COMMAND --help   says more of a command
{sections}
EXIT STATUS
{statuses}
EXAMPLES
{examples}"
    ))
}

/// The first example of the commands that are used the most.
pub fn global_examples() -> impl Iterator<Item = &'static str> {
    let used = COMMANDS.iter().filter(|command| matches!(command.name, "seal" | "open" | "check" | "demo"));
    used.filter_map(|command| command.examples.first().copied())
}

pub fn print_command(command: &'static Command) -> Result<(), Failure> {
    let (operand, _, most) = command.operand.shape();
    let operands = if most > 0 { row(operand, command.operand.text(), OPTION_COLUMNS) } else { String::new() };
    let options: String = table::options(command).map(option_row).collect();
    let examples: String = command.examples.iter().map(|example| format!("  {example}\n")).collect();
    let (usage, text) = (wrapped(&usage(command), 4), wrapped(command.text, 0));
    standard::print(&format!("{usage}\n{text}\n{operands}{options}\n{examples}"))
}

/// How a command is called.
pub fn usage(command: &Command) -> String {
    let mut words = vec![format!("balzenoh {}", command.name)];
    words.extend(command.options.iter().map(|option| {
        let given = spelled(option.short.unwrap_or(option.long), option);
        if option.needed {
            given
        } else {
            format!("[{given}]")
        }
    }));
    words.extend(match command.operand.shape() {
        (_, _, 0) => None,
        (name, 0, 1) => Some(format!("[{name}]")),
        (name, _, 1) => Some(name.to_string()),
        (name, ..) => Some(format!("{name}...")),
    });
    words.join(" ")
}

/// An option's name with that of its value.
pub fn spelled(name: &str, option: &Opt) -> String {
    option.value.name().map_or(name.to_string(), |value| format!("{name} {value}"))
}

/// All that is said of an option.
pub fn option_text(option: &Opt) -> String {
    let removes = if matches!(option.value, Value::File(_)) { "; a failure removes what was there" } else { "" };
    format!("{}{removes}", option.text)
}

fn option_row(option: &Opt) -> String {
    let short = option.short.map_or(String::new(), |short| format!("{short}, "));
    row(&format!("{short}{}", spelled(option.long, option)), &option_text(option), OPTION_COLUMNS)
}

/// A name and its text beside it.
fn row(name: &str, text: &str, columns: usize) -> String {
    format!("  {name:columns$}  {text}\n")
}

/// A paragraph in lines; those after the first are indented.
fn wrapped(text: &str, indent: usize) -> String {
    let (mut lines, mut column) = (String::new(), 0);
    for word in text.split(' ') {
        if column > 0 && column + 1 + word.len() > WIDTH {
            lines.push_str(&format!("\n{:indent$}", ""));
            column = indent;
        } else if column > 0 {
            lines.push(' ');
            column += 1;
        }
        lines.push_str(word);
        column += word.len();
    }
    lines + "\n"
}
