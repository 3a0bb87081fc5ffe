//! The commands and their options. Parsing, the help, the man page and the completions are all made from this table.

use super::args::Args;
use super::failure::Failure;
use super::output::Outputs;
use super::{completions, demo, digest, finish, help, man, record, run, whole};

/// What an option takes after its name.
pub enum Value {
    Nothing,
    /// Hexadecimal digits, or `@` and a file.
    Digits(&'static str),
    /// A decimal number, at least and at most so large.
    Number(&'static str, i64, i64),
    /// A file to write.
    File(&'static str),
    /// One of these words.
    Choice(&'static str, &'static [&'static str]),
}

impl Value {
    /// What the help calls the value.
    pub fn name(&self) -> Option<&'static str> {
        match self {
            Self::Nothing => None,
            Self::Digits(name) | Self::Number(name, ..) | Self::File(name) | Self::Choice(name, _) => Some(name),
        }
    }
}

pub struct Opt {
    pub long: &'static str,
    pub short: Option<&'static str>,
    pub value: Value,
    pub needed: bool,
    pub text: &'static str,
}

/// What the operands of a command are.
pub enum Operand {
    None,
    /// A file to read, or standard input.
    Input,
    /// Records: digits, or `@` and a file.
    Record,
    Records,
    Shell,
    Command,
}

pub struct Command {
    pub name: &'static str,
    pub summary: &'static str,
    pub text: &'static str,
    pub options: &'static [Opt],
    pub operand: Operand,
    /// Whether the answer is bytes that are no text.
    pub binary: bool,
    pub examples: &'static [&'static str],
    pub work: fn(&Args, &Outputs) -> Result<(), Failure>,
}

impl Command {
    /// Whether it takes the option with this long name.
    pub fn takes(&self, name: &str) -> bool {
        self.options.iter().any(|option| option.long == name)
    }
}

impl Operand {
    /// Its name, and how many there are at least and at most.
    pub fn shape(&self) -> (&'static str, usize, usize) {
        match self {
            Self::None => ("", 0, 0),
            Self::Input => ("INPUT", 0, 1),
            Self::Record => ("RECORD", 1, 1),
            Self::Records => ("RECORD", 0, usize::MAX),
            Self::Shell => ("SHELL", 1, 1),
            Self::Command => ("COMMAND", 0, 1),
        }
    }

    pub fn text(&self) -> &'static str {
        match self {
            Self::None => "",
            Self::Input => "a file, or standard input where it is left out or -",
            Self::Record | Self::Records => "48 hexadecimal digits, or @FILE",
            Self::Shell => "bash or zsh",
            Self::Command => "one of the commands",
        }
    }
}

pub const KEY: &str = "--key";
pub const IV: &str = "--iv";
pub const TAG: &str = "--tag";
pub const MASK: &str = "--mask";
pub const FIRST: &str = "--first";
pub const LAST: &str = "--last";
pub const DISTANCE: &str = "--distance";
pub const RUNS: &str = "--runs";
pub const THREADS: &str = "--threads";
pub const FINISH: &str = "--finish";
pub const OUTPUT: &str = "--output";
pub const RECORD: &str = "--record";

/// More threads than this are surely a slip.
const MOST_THREADS: i64 = 256;

const SIXTEEN: &str = "32 hexadecimal digits, or @FILE";
const TO_SEAL: &str = "how the tag is made: cipher (16 bytes, the usual one) or sha1 (20 bytes)";
const AS_SEALED: &str = "how the tag was made: cipher (16 bytes, the usual one) or sha1 (20 bytes)";
const SEAL_ON_THREADS: &str =
    "seal the runs on M threads (1 to 256); without --runs there are at least M, of 2,048 blocks at most";
const CHECK_ON_THREADS: &str =
    "check the runs on M threads (1 to 256); without --runs there are at least M, of 2,048 blocks at most";
const SIXTEEN_OR_32: &str = "32 or 64 hexadecimal digits, or @FILE";

const fn needed(long: &'static str, value: Value, text: &'static str) -> Opt {
    Opt { long, short: None, value, needed: true, text }
}

const fn optional(long: &'static str, value: Value, text: &'static str) -> Opt {
    Opt { long, short: None, value, needed: false, text }
}

const fn key() -> Opt {
    needed(KEY, Value::Digits("KEY"), SIXTEEN_OR_32)
}

const fn iv(text: &'static str) -> Opt {
    needed(IV, Value::Digits("IV"), text)
}

const fn first() -> Opt {
    needed(FIRST, Value::Number("N", 0, i64::MAX), "the number of the run's first block; the list's first is 0")
}

const fn threads(text: &'static str) -> Opt {
    optional(THREADS, Value::Number("M", 1, MOST_THREADS), text)
}

const fn runs(text: &'static str) -> Opt {
    optional(RUNS, Value::Number("N", 1, i64::MAX), text)
}

const fn finish(text: &'static str) -> Opt {
    optional(FINISH, Value::Choice("FINISH", &finish::NAMES), text)
}

const fn output(text: &'static str) -> Opt {
    Opt { long: OUTPUT, short: Some("-o"), value: Value::File("FILE"), needed: false, text }
}

const fn record_file() -> Opt {
    optional(RECORD, Value::File("FILE"), "where the record goes, 24 bytes")
}

/// What every command takes.
pub static HELP: Opt =
    Opt { long: "--help", short: Some("-h"), value: Value::Nothing, needed: false, text: "print the help, and do nothing else" };
/// What is taken in the place of a command, beside the help.
pub static VERSION: Opt = Opt {
    long: "--version",
    short: Some("-V"),
    value: Value::Nothing,
    needed: false,
    text: "print the version, and from which sources the proved library was built",
};

pub static COMMANDS: [Command; 14] = [
    Command {
        name: "seal",
        summary: "seal a list",
        text: "Seals a list of up to 16,777,215 bytes. The answer is the IV, the ciphertext and the tag. An IV must not be \
               used twice under one key. A list of more than 2,048 blocks of 16 bytes is cut into runs of so many at most, on as \
               many threads as the machine runs at a time, unless the options say otherwise.",
        options: &[
            key(),
            iv(SIXTEEN),
            runs("cut the list into N runs, seal each by itself, and join: the same bytes"),
            threads(SEAL_ON_THREADS),
            finish(TO_SEAL),
            output("where the sealed list goes"),
        ],
        operand: Operand::Input,
        binary: true,
        examples: &[
            "balzenoh seal --key @key --iv 0123456789ABCDEF0123456789ABCDEF routes.txt -o routes.sealed",
            "balzenoh seal --key @key --iv @iv --runs 8 --threads 2 < routes.txt > routes.sealed",
        ],
        work: whole::seal,
    },
    Command {
        name: "open",
        summary: "open a sealed list",
        text: "Opens a sealed list. Nothing of a list that is not as it was sealed is written. A list is opened in one piece. \
               With --runs or --threads its tag is first tested over the runs, on the threads, so that a list which is not as it \
               was sealed is refused sooner; the others take longer by that.",
        options: &[
            key(),
            runs("cut the list into N runs, and test the tag over them before opening: the same answer"),
            threads(CHECK_ON_THREADS),
            finish(AS_SEALED),
            output("where the list goes"),
        ],
        operand: Operand::Input,
        binary: false,
        examples: &[
            "balzenoh open --key @key routes.sealed -o routes.txt",
            "balzenoh open --key @key --finish sha1 routes.sealed -o routes.txt",
        ],
        work: whole::open,
    },
    Command {
        name: "check",
        summary: "see whether a sealed list opens, and write nothing of it",
        text: "Checks a sealed list: prints `passes` where open would give the list, or refuses as open would. The list is \
               opened into an output of no bytes. One of more than 2,048 blocks of 16 bytes, or with --runs or --threads, is first \
               cut into runs, as in sealing; they are checked on the threads and joined, and the tag is tested. Nothing of the \
               list is written.",
        options: &[
            key(),
            runs("cut the list into N runs and check each by itself: the same answer"),
            threads(CHECK_ON_THREADS),
            finish(AS_SEALED),
        ],
        operand: Operand::Input,
        binary: false,
        examples: &["balzenoh check --key @key routes.sealed"],
        work: whole::check,
    },
    Command {
        name: "seal-run",
        summary: "seal a part of a list: a run of its blocks of 16 bytes",
        text: "Seals a run: consecutive blocks of a list, which can be sealed on another machine than the rest. The ciphertext \
               is the answer. The run's record goes to the record file, or as 48 hexadecimal digits to standard error.",
        options: &[
            key(),
            iv(SIXTEEN),
            first(),
            optional(LAST, Value::Nothing, "this is the list's last run: it may have any length and gets the padding"),
            record_file(),
            output("where the ciphertext goes"),
        ],
        operand: Operand::Input,
        binary: true,
        examples: &[
            "head -c 160 routes.txt | balzenoh seal-run --key @key --iv @iv --first 0 --record 1.rec -o 1.run",
            "tail -c +161 routes.txt | balzenoh seal-run --key @key --iv @iv --first 10 --last --record 2.rec -o 2.run",
        ],
        work: run::seal_run,
    },
    Command {
        name: "check-run",
        summary: "check a run of ciphertext",
        text: "Checks a run of ciphertext: gives the record that sealing the run gave, and no plaintext. The record is printed \
               as 48 hexadecimal digits, or goes to the record file.",
        options: &[key(), iv("32 hexadecimal digits, or @FILE: the first 16 bytes of the sealed list"), first(), record_file()],
        operand: Operand::Input,
        binary: false,
        examples: &["balzenoh check-run --key @key --iv @iv --first 10 2.run"],
        work: run::check_run,
    },
    Command {
        name: "join",
        summary: "join the records of runs",
        text: "Joins records in message order: each run starts at the block where the one before it ends. Two are joined as a \
               pair, any other number as a list. The record is printed as 48 hexadecimal digits, or goes to the record file.",
        options: &[record_file()],
        operand: Operand::Records,
        binary: false,
        examples: &["balzenoh join @1.rec @2.rec --record whole.rec"],
        work: record::join,
    },
    Command {
        name: "close",
        summary: "close the record of a whole list into its tag",
        text: "Closes the record of a whole list into its tag. The tag is printed as 32 hexadecimal digits, or goes to the \
               file as 16 bytes; with --finish sha1 as 40 digits, or as 20 bytes. A record does not know the finish. IV, \
               ciphertexts and tag, one after the other, are the sealed list.",
        options: &[key(), iv(SIXTEEN), finish(TO_SEAL), output("where the tag goes")],
        operand: Operand::Record,
        binary: false,
        examples: &["balzenoh close --key @key --iv @iv @whole.rec -o tag", "cat iv 1.run 2.run tag > routes.sealed"],
        work: record::close,
    },
    Command {
        name: "test",
        summary: "test a tag against a record",
        text: "Tests a tag against the record of a whole list, and prints `passes` or refuses.",
        options: &[
            key(),
            iv(SIXTEEN),
            needed(
                TAG,
                Value::Digits("TAG"),
                "32 hexadecimal digits, or @FILE: the list's last 16 bytes (sha1: 40 digits, 20 bytes)",
            ),
            finish(AS_SEALED),
        ],
        operand: Operand::Record,
        binary: false,
        examples: &["balzenoh test --key @key --iv @iv --tag @tag @whole.rec"],
        work: record::test,
    },
    Command {
        name: "jump",
        summary: "jump a mask forward or back",
        text: "Jumps a mask by -1,048,576 to 1,048,576 blocks, back where the number is negative, and prints it. The first \
               mask of a run, jumped back by the run's first block, is the start mask of the list.",
        options: &[
            needed(MASK, Value::Digits("MASK"), SIXTEEN),
            needed(DISTANCE, Value::Number("N", i64::MIN, i64::MAX), "the number of blocks, negative to jump back"),
        ],
        operand: Operand::None,
        binary: false,
        examples: &[
            "balzenoh jump --mask 00000000000000000000000000000001 --distance 128",
            "balzenoh jump --mask @tail.mask --distance -1200",
        ],
        work: record::jump,
    },
    Command {
        name: "sha1",
        summary: "print SHA-1 of a text",
        text: "Prints SHA-1 (FIPS 180-4) of a text of up to 64,032 bytes, as 40 hexadecimal digits. It is the hash of \
               --finish sha1. No claim is made for its strength.",
        options: &[],
        operand: Operand::Input,
        binary: false,
        examples: &["balzenoh sha1 routes.txt"],
        work: digest::sha1,
    },
    Command {
        name: "demo",
        summary: "see what all this is for, in a few seconds",
        text: "Seals a made-up route list whole and in runs out of order, opens it, and damages it: what is handed out, and \
               what is not. Then jumps back from the mask of a list's tail to its start mask. The exit status is 0 only if \
               all was as it should be.",
        options: &[],
        operand: Operand::None,
        binary: false,
        examples: &["balzenoh demo"],
        work: demo::demo,
    },
    Command {
        name: "help",
        summary: "print the help, or that of a command",
        text: "Prints what `balzenoh --help` or `balzenoh COMMAND --help` prints.",
        options: &[],
        operand: Operand::Command,
        binary: false,
        examples: &["balzenoh help seal"],
        work: help::help,
    },
    Command {
        name: "man",
        summary: "print the man page",
        text: "Prints the man page, in the form that `man` formats.",
        options: &[],
        operand: Operand::None,
        binary: false,
        examples: &["balzenoh man > balzenoh.1"],
        work: man::man,
    },
    Command {
        name: "completions",
        summary: "print the completions for a shell",
        text: "Prints a script by which the shell completes commands, options and names of files.",
        options: &[],
        operand: Operand::Shell,
        binary: false,
        examples: &[
            "source <(balzenoh completions bash)",
            "balzenoh completions zsh > ~/.zfunc/_balzenoh    # a folder of zsh's fpath",
        ],
        work: completions::completions,
    },
];

/// The command with this name.
pub fn command(name: &std::ffi::OsStr) -> Option<&'static Command> {
    COMMANDS.iter().find(|command| name == command.name)
}

/// The options of a command, and those that all have.
pub fn options(command: &'static Command) -> impl Iterator<Item = &'static Opt> {
    command.options.iter().chain([&HELP])
}
