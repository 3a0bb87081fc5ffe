//! The finish that `--finish` names.

use balzenoh::Finish;

use super::args::Args;
use super::table;

/// The names, in the order of `Finish::ALL`.
pub const NAMES: [&str; 2] = ["cipher", "sha1"];

/// The finish, by the cipher where none is named. What is named here is one of the names.
pub fn finish(args: &Args) -> Finish {
    let named = |name| args.value(table::FINISH).is_some_and(|value| value == name);
    let found = NAMES.into_iter().zip(Finish::ALL).find(|(name, _)| named(*name));
    found.map_or_else(Finish::default, |(_, finish)| finish)
}

/// How a message names a finish that is not the usual one.
pub fn with(finish: Finish) -> String {
    match finish {
        Finish::Cipher => String::new(),
        Finish::Sha1 => format!(" with {}", spelled(finish)),
    }
}

/// The option with this finish.
pub fn spelled(finish: Finish) -> String {
    let name = NAMES.into_iter().zip(Finish::ALL).find(|(_, other)| *other == finish).map_or("", |(name, _)| name);
    format!("{} {name}", table::FINISH)
}
