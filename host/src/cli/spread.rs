//! Over how many runs and threads a list is spread.

use std::num::NonZero;
use std::thread::available_parallelism;

use super::args::Args;
use super::table;

/// Where the user does not say how many runs there are, none has more blocks than this.
const MOST_BLOCKS: usize = 2_048;

/// The numbers of runs and threads.
#[derive(Clone, Copy)]
pub struct Spread {
    pub runs: usize,
    pub threads: usize,
}

impl Spread {
    /// As the options have it, where one of them is given.
    pub fn asked(args: &Args, blocks: usize) -> Option<Self> {
        let number = |name| args.number(name).map(|number| usize::try_from(number).unwrap_or(usize::MAX));
        match (number(table::RUNS), number(table::THREADS)) {
            (None, None) => None,
            (Some(runs), threads) => Some(Self { runs, threads: threads.unwrap_or(1) }),
            (None, Some(threads)) => Some(Self { runs: threads.max(blocks.div_ceil(MOST_BLOCKS)), threads }),
        }
    }

    /// As the options have it or, where none is given and a list has more blocks than a run, on as many threads as this machine runs
    /// at a time.
    pub fn usual(args: &Args, blocks: usize) -> Option<Self> {
        Self::asked(args, blocks).or_else(|| {
            let threads = available_parallelism().map_or(1, NonZero::get);
            (blocks > MOST_BLOCKS).then(|| Self { runs: blocks.div_ceil(MOST_BLOCKS), threads })
        })
    }
}

#[cfg(test)]
mod tests {
    use std::ffi::{OsStr, OsString};

    use super::{Spread, MOST_BLOCKS};
    use crate::cli::args::Args;
    use crate::cli::table;

    fn with(options: &[&str]) -> Args {
        let given = ["--key", "00", "--iv", "00"].iter().chain(options).map(OsString::from);
        let command = table::command(OsStr::new("seal")).expect("a command");
        Args::parse(command, given).unwrap_or_else(|_| panic!("{options:?} are options"))
    }

    #[test]
    fn a_run_has_2048_blocks_at_most_unless_the_user_counts_the_runs() {
        for blocks in (2_049..10_000).chain([1_000_000, 1_048_575, 1_048_576]) {
            for options in [&[][..], &["--threads", "1"], &["--threads", "3"]] {
                let spread = Spread::usual(&with(options), blocks).expect("a long list");
                assert!(blocks.div_ceil(spread.runs) <= MOST_BLOCKS, "{blocks} blocks, {options:?}");
            }
        }
        let Spread { runs, threads } = Spread::usual(&with(&["--runs", "2"]), 1_048_576).expect("as asked");
        assert_eq!((runs, threads), (2, 1));
    }

    #[test]
    fn a_short_list_is_one_piece_unless_the_user_asks() {
        assert!(Spread::usual(&with(&[]), 2_048).is_none());
        assert!(Spread::asked(&with(&[]), 1_048_576).is_none());
        let Spread { runs, threads } = Spread::usual(&with(&["--threads", "3"]), 9).expect("as asked");
        assert_eq!((runs, threads), (3, 3));
    }
}
