//! `seal`, `open` and `check`.

use balzenoh::sizes::{open_room_with, padded_blocks, sealed_room_with, BLOCK};
use balzenoh::{check_in_runs_watched, raw, seal_in_runs_watched, Finish, Iv, Key, Refusal};

use super::args::Args;
use super::failure::Failure;
use super::faults::Faults;
use super::finish::finish;
use super::output::Outputs;
use super::progress::Progress;
use super::spread::Spread;
use super::{input, standard, value};

pub fn seal(args: &Args, outputs: &Outputs) -> Result<(), Failure> {
    let mut faults = Faults::default();
    let (key, iv) = (value::key(args, &mut faults)?, value::iv(args, &mut faults)?);
    let (list, finish) = (input::list(args, &mut faults)?, finish(args));
    let sealed = match Spread::usual(args, padded_blocks(list.len())) {
        Some(spread) => seal_spread(finish, &key, &iv, &list, spread),
        None => seal_whole(finish, &key, &iv, &list),
    };
    outputs.write(&sealed.map_err(|refusal| faults.explain(refusal))?)
}

fn seal_spread(finish: Finish, key: &[u8], iv: &[u8], list: &[u8], spread: Spread) -> Result<Vec<u8>, Refusal> {
    let (key, iv) = (Key::from_slice(key)?, Iv::from_slice(iv)?);
    let progress = Progress::new("sealing", padded_blocks(list.len()));
    seal_in_runs_watched(finish, &key, &iv, list, spread.runs, spread.threads, |blocks| progress.add(blocks))
}

fn seal_whole(finish: Finish, key: &[u8], iv: &[u8], list: &[u8]) -> Result<Vec<u8>, Refusal> {
    let mut out = vec![0; sealed_room_with(finish, list.len())];
    let length = raw::seal_with(finish, key, iv, list, &mut out)?;
    out.truncate(length);
    Ok(out)
}

/// A sealed list, and what it is opened with.
struct Sealed {
    key: Vec<u8>,
    finish: Finish,
    bytes: Vec<u8>,
    faults: Faults,
}

impl Sealed {
    fn read(args: &Args) -> Result<Self, Failure> {
        let mut faults = Faults::default();
        let (key, finish) = (value::key(args, &mut faults)?, finish(args));
        let bytes = input::sealed(args, finish, &mut faults)?;
        Ok(Self { key, finish, bytes, faults })
    }

    fn blocks(&self) -> usize {
        self.room() / BLOCK
    }

    /// The room that opening needs at most.
    fn room(&self) -> usize {
        open_room_with(self.finish, self.bytes.len())
    }

    /// Tests the tag over the runs.
    fn test_in_runs(&self, spread: Spread) -> Result<(), Refusal> {
        let key = Key::from_slice(&self.key)?;
        let progress = Progress::new("checking", self.blocks());
        check_in_runs_watched(self.finish, &key, &self.bytes, spread.runs, spread.threads, |blocks| progress.add(blocks))
    }

    /// Tests the tag over the runs, where there are to be any, and opens the list.
    fn open(&self, spread: Option<Spread>, out: &mut [u8]) -> Result<usize, Refusal> {
        spread.map_or(Ok(()), |spread| self.test_in_runs(spread))?;
        raw::open_with(self.finish, &self.key, &self.bytes, out)
    }
}

pub fn open(args: &Args, outputs: &Outputs) -> Result<(), Failure> {
    let sealed = Sealed::read(args)?;
    let mut out = vec![0; sealed.room()];
    let opened = sealed.open(Spread::asked(args, sealed.blocks()), &mut out);
    let length = opened.map_err(|refusal| sealed.faults.explain(refusal))?;
    outputs.write_list(&out[..length])
}

/// Whether the list ends as it must is seen in opening alone. With no output, no plaintext is written: that it is too short, or that
/// an empty list was opened, says that tag and padding are right.
pub fn check(args: &Args, _: &Outputs) -> Result<(), Failure> {
    let sealed = Sealed::read(args)?;
    match sealed.open(Spread::usual(args, sealed.blocks()), &mut []) {
        Ok(_) | Err(Refusal::OutputTooShort) => standard::print("passes\n"),
        Err(refusal) => Err(sealed.faults.explain(refusal)),
    }
}
