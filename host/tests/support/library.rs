//! Makes a call of the library, with noise in the lent outputs and around them.

use balzenoh::{raw, Refusal};

use super::call::{Answer, Call};
use super::random::Random;

/// The noise before and behind a lent output, which must stay as it was.
const MARGIN: usize = 24;

/// Makes the call. Also checks that the inputs and the margins are as they were.
pub fn answer(call: &Call, random: &mut Random) -> Answer {
    let inputs = call.inputs();
    let (room, record_room) = call.rooms();
    let (mut out, mut record) = (Lent::new(room, random), Lent::new(record_room, random));
    let (number, length) = match make(call, out.lend(), record.lend()) {
        Ok(length) => (0, length),
        Err(refusal) => (refusal.number(), 0),
    };
    assert!(inputs == call.inputs(), "an input was written");
    Answer { number, length, out: out.take_back(), record: record.take_back() }
}

fn make(call: &Call, out: &mut [u8], run: &mut [u8]) -> Result<usize, Refusal> {
    let no_length = |()| 0;
    match *call {
        Call::Seal { finish, key, iv, message, .. } => raw::seal_with(finish, key, iv, message, out),
        Call::Open { finish, key, sealed, .. } => raw::open_with(finish, key, sealed, out),
        Call::SealRun { key, iv, first, last, bytes, .. } => raw::seal_run(key, iv, first, last, bytes, out, run),
        Call::CheckRun { key, iv, first, bytes, .. } => raw::check_run(key, iv, first, bytes, run).map(no_length),
        Call::Join { left, right, .. } => raw::join(left, right, run).map(no_length),
        Call::JoinList { records, .. } => raw::join_list(records, run).map(no_length),
        Call::Close { finish, key, iv, record, .. } => raw::close_with(finish, key, iv, record, out).map(no_length),
        Call::Test { finish, key, iv, record, tag } => raw::test_with(finish, key, iv, record, tag).map(no_length),
        Call::Jump { mask, distance, .. } => raw::jump(mask, distance, out).map(no_length),
        Call::Sha1 { text, .. } => raw::sha1(text, out).map(no_length),
    }
}

/// An output to lend.
struct Lent {
    now: Vec<u8>,
    before: [u8; MARGIN],
    behind: [u8; MARGIN],
}

impl Lent {
    fn new(room: usize, random: &mut Random) -> Self {
        let now = random.bytes(room + 2 * MARGIN);
        let margin = |at: usize| now[at..at + MARGIN].try_into().expect("a margin");
        let (before, behind) = (margin(0), margin(room + MARGIN));
        Self { now, before, behind }
    }

    fn lend(&mut self) -> &mut [u8] {
        let end = self.now.len() - MARGIN;
        &mut self.now[MARGIN..end]
    }

    fn take_back(mut self) -> Vec<u8> {
        assert!(self.now.starts_with(&self.before) && self.now.ends_with(&self.behind), "written beside a lent output");
        self.lend().to_vec()
    }
}
