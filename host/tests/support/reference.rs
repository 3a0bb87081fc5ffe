//! Every call, written from the papers: the rows of the table in their order, and the whole answer.

use super::call::{Answer, Call};
use super::cipher::Cipher;
use super::finish::{around, ciphertext_length, tag_length, Finish};
use super::mode::{divided_by_x_power, number, padded, times_x_power, unpadded, Mode};
use super::sha1::sha1;

const LIMIT: u64 = 1_048_576;
const LONGEST_MESSAGE: usize = 16_777_215;
const LONGEST_TEXT: usize = 64_032;

/// What a call gives when it is not refused.
#[derive(Default)]
struct Given {
    length: usize,
    out: Vec<u8>,
    record: Vec<u8>,
}

/// The refusal's number is the error.
type Outcome = Result<Given, u8>;

/// The whole answer.
pub fn answer<C: Cipher>(call: &Call) -> Answer {
    written(call, outcome::<C>(call))
}

/// The whole answer by document 01 alone, without ticket P6: only that of opening is another.
pub fn answer_by_document_01<C: Cipher>(call: &Call) -> Answer {
    match *call {
        Call::Open { finish, key, sealed, room } => written(call, open_by_document_01::<C>(finish, key, sealed, room)),
        _ => answer::<C>(call),
    }
}

/// What is given and zeros to each output's end, or nothing but zeros.
fn written(call: &Call, outcome: Outcome) -> Answer {
    let (room, record_room) = call.rooms();
    let (number, given) = match outcome {
        Ok(given) => (0, given),
        Err(number) => (number, Given::default()),
    };
    let Given { length, mut out, mut record } = given;
    out.resize(room, 0);
    record.resize(record_room, 0);
    Answer { number, length, out, record }
}

fn outcome<C: Cipher>(call: &Call) -> Outcome {
    match *call {
        Call::Seal { finish, key, iv, message, room } => seal::<C>(finish, Under { key, iv }, message, room),
        Call::Open { finish, key, sealed, room } => open::<C>(finish, key, sealed, room),
        Call::SealRun { key, iv, first, last, bytes, room, record_room } => {
            let under = Under { key, iv };
            seal_run::<C>(under, first, last, bytes, (room, record_room))
        }
        Call::CheckRun { key, iv, first, bytes, record_room } => check_run::<C>(Under { key, iv }, first, bytes, record_room),
        Call::Join { left, right, record_room } => join(left, right, record_room),
        Call::JoinList { records, record_room } => join_list(records, record_room),
        Call::Close { finish, key, iv, record, room } => close::<C>(finish, Under { key, iv }, record, room),
        Call::Test { finish, key, iv, record, tag } => test::<C>(finish, Under { key, iv }, record, tag),
        Call::Jump { mask, distance, room } => jump(mask, distance, room),
        Call::Sha1 { text, room } => digest(text, room),
    }
}

/// The first row whose condition holds is the refusal.
fn rows(rows: &[(u8, bool)]) -> Result<(), u8> {
    match rows.iter().find(|(_, holds)| *holds) {
        Some((number, _)) => Err(*number),
        None => Ok(()),
    }
}

fn is_no_key(key: &[u8]) -> bool {
    !matches!(key.len(), 16 | 32)
}

/// A key and an IV as they were handed in, of any length.
#[derive(Clone, Copy)]
struct Under<'a> {
    key: &'a [u8],
    iv: &'a [u8],
}

impl Under<'_> {
    fn rows(self) -> [(u8, bool); 2] {
        [(1, is_no_key(self.key)), (2, self.iv.len() != 16)]
    }

    /// The mode under them, or 10 where the start mask is still zero after its replacement. To be asked where row 10 stands, just
    /// before 5, 6 and 7.
    fn mode<C: Cipher>(self) -> Result<Mode<C>, u8> {
        let mode = Mode::new(self.key, self.iv.try_into().expect("16 bytes"));
        rows(&[(10, mode.start_mask == 0)])?;
        Ok(mode)
    }
}

/// A run record.
#[derive(Clone, Copy)]
struct Record {
    first: u32,
    count: u32,
    preauthenticator: u128,
}

impl Record {
    /// Reads a record, or gives 24.
    fn read(bytes: &[u8]) -> Result<Self, u8> {
        rows(&[(24, bytes.len() != 24)])?;
        let half = |at: usize| u32::from_be_bytes(bytes[at..at + 4].try_into().expect("4 bytes"));
        Ok(Self { first: half(0), count: half(4), preauthenticator: number(&bytes[8..]) })
    }

    fn written(self) -> Vec<u8> {
        let numbers = [self.first.to_be_bytes(), self.count.to_be_bytes()].concat();
        [&numbers[..], &self.preauthenticator.to_be_bytes()].concat()
    }

    /// The block after the last one.
    fn end(self) -> u64 {
        u64::from(self.first) + u64::from(self.count)
    }

    fn joined(self, right: Self) -> Self {
        let moved = times_x_power(self.preauthenticator, right.count);
        Self { first: self.first, count: self.count + right.count, preauthenticator: moved ^ right.preauthenticator }
    }
}

fn seal<C: Cipher>(finish: Finish, under: Under, message: &[u8], room: usize) -> Outcome {
    rows(&under.rows())?;
    rows(&[(3, message.len() > LONGEST_MESSAGE)])?;
    let mode = under.mode::<C>()?;
    let blocks = padded(message);
    rows(&[(5, room < blocks.len() + around(finish))])?;
    let out = mode.seal_blocks(finish, under.iv, &blocks);
    Ok(Given { length: out.len(), out, ..Given::default() })
}

/// A record to open that has passed rows 1, 3 and 10.
struct ToOpen<'a, C> {
    finish: Finish,
    mode: Mode<C>,
    ciphertext: &'a [u8],
    tag: &'a [u8],
}

impl<'a, C: Cipher> ToOpen<'a, C> {
    fn new(finish: Finish, key: &[u8], sealed: &'a [u8]) -> Result<Self, u8> {
        rows(&[(1, is_no_key(key))])?;
        let length = ciphertext_length(finish, sealed.len()).ok_or(3)?;
        let (iv, rest) = sealed.split_at(16);
        let (ciphertext, tag) = rest.split_at(length);
        Ok(Self { finish, mode: Under { key, iv }.mode()?, ciphertext, tag })
    }

    /// The message, where rows 6 and 7 let it through.
    fn message(&self) -> Result<Vec<u8>, u8> {
        let (blocks, preauthenticator) = self.mode.run(0, self.ciphertext, Mode::backward);
        let tag = self.mode.tag(self.finish, (blocks.len() / 16) as u32, preauthenticator);
        rows(&[(6, tag != self.tag)])?;
        Ok(unpadded(&blocks).ok_or(7)?.to_vec())
    }
}

fn message_given(message: Vec<u8>) -> Outcome {
    Ok(Given { length: message.len(), out: message, ..Given::default() })
}

/// As ticket P6 has it: 5 compares the output with the message, and comes after 7.
fn open<C: Cipher>(finish: Finish, key: &[u8], sealed: &[u8], room: usize) -> Outcome {
    let message = ToOpen::<C>::new(finish, key, sealed)?.message()?;
    rows(&[(5, room < message.len())])?;
    message_given(message)
}

/// As document 01 has it: 5 compares the output with the ciphertext, and comes before 6.
fn open_by_document_01<C: Cipher>(finish: Finish, key: &[u8], sealed: &[u8], room: usize) -> Outcome {
    let record = ToOpen::<C>::new(finish, key, sealed)?;
    rows(&[(5, room < record.ciphertext.len())])?;
    message_given(record.message()?)
}

fn seal_run<C: Cipher>(under: Under, first: u32, last: bool, bytes: &[u8], rooms: (usize, usize)) -> Outcome {
    rows(&under.rows())?;
    rows(&[(3, !last && !bytes.len().is_multiple_of(16))])?;
    let blocks = if last { padded(bytes) } else { bytes.to_vec() };
    let count = (blocks.len() / 16) as u32;
    rows(&[(4, u64::from(first) + u64::from(count) > LIMIT)])?;
    let mode = under.mode::<C>()?;
    rows(&[(5, rooms.0 < blocks.len() || rooms.1 < 24)])?;
    let (out, preauthenticator) = mode.run(first, &blocks, Mode::forward);
    let record = Record { first, count, preauthenticator }.written();
    Ok(Given { length: out.len(), out, record })
}

fn check_run<C: Cipher>(under: Under, first: u32, bytes: &[u8], record_room: usize) -> Outcome {
    rows(&under.rows())?;
    rows(&[(3, !bytes.len().is_multiple_of(16))])?;
    let count = (bytes.len() / 16) as u32;
    rows(&[(4, u64::from(first) + u64::from(count) > LIMIT)])?;
    let mode = under.mode::<C>()?;
    rows(&[(5, record_room < 24)])?;
    let (_, preauthenticator) = mode.run(first, bytes, Mode::backward);
    record_given(Record { first, count, preauthenticator })
}

fn join(left: &[u8], right: &[u8], record_room: usize) -> Outcome {
    let records = [Record::read(left)?, Record::read(right)?];
    join_records(&records, record_room)
}

fn join_list(records: &[u8], record_room: usize) -> Outcome {
    rows(&[(24, !records.len().is_multiple_of(24))])?;
    let records: Result<Vec<_>, _> = records.chunks(24).map(Record::read).collect();
    join_records(&records?, record_room)
}

fn join_records(records: &[Record], record_room: usize) -> Outcome {
    rows(&[
        (4, records.iter().any(|record| record.end() > LIMIT)),
        (8, records.windows(2).any(|pair| pair[0].end() != u64::from(pair[1].first))),
        (9, records.is_empty()),
        (5, record_room < 24),
    ])?;
    record_given(records.iter().copied().reduce(Record::joined).expect("no empty list"))
}

fn record_given(record: Record) -> Outcome {
    Ok(Given { record: record.written(), ..Given::default() })
}

fn close<C: Cipher>(finish: Finish, under: Under, record: &[u8], room: usize) -> Outcome {
    let record = Record::read(record)?;
    rows(&under.rows())?;
    rows(&whole_rows(record))?;
    let mode = under.mode::<C>()?;
    rows(&[(5, room < tag_length(finish))])?;
    Ok(Given { out: mode.tag(finish, record.count, record.preauthenticator), ..Given::default() })
}

fn test<C: Cipher>(finish: Finish, under: Under, record: &[u8], tag: &[u8]) -> Outcome {
    let record = Record::read(record)?;
    rows(&under.rows())?;
    rows(&[(3, tag.len() != tag_length(finish))])?;
    rows(&whole_rows(record))?;
    let mode = under.mode::<C>()?;
    rows(&[(6, mode.tag(finish, record.count, record.preauthenticator) != tag)])?;
    Ok(Given::default())
}

/// The rows for a record that must be one of a whole list.
fn whole_rows(record: Record) -> [(u8, bool); 2] {
    [(4, record.end() > LIMIT), (9, record.first != 0 || record.count == 0)]
}

fn jump(mask: &[u8], distance: i32, room: usize) -> Outcome {
    rows(&[(3, mask.len() != 16), (4, !(-1_048_576..=1_048_576).contains(&distance)), (5, room < 16)])?;
    let steps = if distance < 0 { divided_by_x_power } else { times_x_power };
    let jumped = steps(number(mask), distance.unsigned_abs());
    Ok(Given { out: jumped.to_be_bytes().to_vec(), ..Given::default() })
}

fn digest(text: &[u8], room: usize) -> Outcome {
    rows(&[(3, text.len() > LONGEST_TEXT), (5, room < 20)])?;
    Ok(Given { out: sha1(text).to_vec(), ..Given::default() })
}
