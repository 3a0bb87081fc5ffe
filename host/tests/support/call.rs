//! A call of the library as a value, and its whole answer.

use super::finish::Finish;

/// What is handed in. A call with a `finish` is one of two functions. A `room` is the length of a lent output, a `record_room` that of an output for a record.
#[derive(Clone, Debug)]
pub enum Call<'a> {
    Seal { finish: Finish, key: &'a [u8], iv: &'a [u8], message: &'a [u8], room: usize },
    Open { finish: Finish, key: &'a [u8], sealed: &'a [u8], room: usize },
    SealRun { key: &'a [u8], iv: &'a [u8], first: u32, last: bool, bytes: &'a [u8], room: usize, record_room: usize },
    CheckRun { key: &'a [u8], iv: &'a [u8], first: u32, bytes: &'a [u8], record_room: usize },
    Join { left: &'a [u8], right: &'a [u8], record_room: usize },
    JoinList { records: &'a [u8], record_room: usize },
    Close { finish: Finish, key: &'a [u8], iv: &'a [u8], record: &'a [u8], room: usize },
    Test { finish: Finish, key: &'a [u8], iv: &'a [u8], record: &'a [u8], tag: &'a [u8] },
    Jump { mask: &'a [u8], distance: i32, room: usize },
    Sha1 { text: &'a [u8], room: usize },
}

/// The functions' names, in the order of `Call::function`.
pub const FUNCTIONS: [&str; 14] = [
    "seal",
    "open",
    "seal_run",
    "check_run",
    "join",
    "join_list",
    "close",
    "test",
    "jump",
    "sha1",
    "seal_sha1",
    "open_sha1",
    "close_sha1",
    "test_sha1",
];

/// What comes back: the refusal's number or 0, the reported length (0 where none is), and the lent outputs from end to end.
#[derive(Clone, Debug, PartialEq, Eq)]
pub struct Answer {
    pub number: u8,
    pub length: usize,
    pub out: Vec<u8>,
    pub record: Vec<u8>,
}

impl Answer {
    /// Whether it is this refusal, and nothing is handed out.
    pub fn refused_with(&self, number: u8) -> bool {
        self.number == number && self.length == 0 && self.out.iter().chain(&self.record).all(|&byte| byte == 0)
    }
}

impl<'a> Call<'a> {
    pub fn function(&self) -> usize {
        let by = |finish: &Finish, cipher, hash| if *finish == Finish::Cipher { cipher } else { hash };
        match self {
            Call::Seal { finish, .. } => by(finish, 0, 10),
            Call::Open { finish, .. } => by(finish, 1, 11),
            Call::SealRun { .. } => 2,
            Call::CheckRun { .. } => 3,
            Call::Join { .. } => 4,
            Call::JoinList { .. } => 5,
            Call::Close { finish, .. } => by(finish, 6, 12),
            Call::Test { finish, .. } => by(finish, 7, 13),
            Call::Jump { .. } => 8,
            Call::Sha1 { .. } => 9,
        }
    }

    /// The lengths of the lent outputs: bytes, record.
    pub fn rooms(&self) -> (usize, usize) {
        match *self {
            Call::Seal { room, .. } | Call::Open { room, .. } | Call::Close { room, .. } => (room, 0),
            Call::Jump { room, .. } | Call::Sha1 { room, .. } => (room, 0),
            Call::SealRun { room, record_room, .. } => (room, record_room),
            Call::CheckRun { record_room, .. } | Call::Join { record_room, .. } | Call::JoinList { record_room, .. } => {
                (0, record_room)
            }
            Call::Test { .. } => (0, 0),
        }
    }

    /// The key of a call that has one.
    pub fn key_mut(&mut self) -> Option<&mut &'a [u8]> {
        match self {
            Call::Seal { key, .. } | Call::Open { key, .. } | Call::SealRun { key, .. } => Some(key),
            Call::CheckRun { key, .. } | Call::Close { key, .. } | Call::Test { key, .. } => Some(key),
            _ => None,
        }
    }

    /// The IV of a call that is handed one.
    pub fn iv_mut(&mut self) -> Option<&mut &'a [u8]> {
        match self {
            Call::Seal { iv, .. } | Call::SealRun { iv, .. } | Call::CheckRun { iv, .. } => Some(iv),
            Call::Close { iv, .. } | Call::Test { iv, .. } => Some(iv),
            _ => None,
        }
    }

    /// The call with outputs of these lengths lent, where it has such.
    pub fn lent(mut self, bytes: usize, record: usize) -> Self {
        match &mut self {
            Call::Seal { room, .. } | Call::Open { room, .. } | Call::Close { room, .. } => *room = bytes,
            Call::Jump { room, .. } | Call::Sha1 { room, .. } => *room = bytes,
            Call::SealRun { room, record_room, .. } => (*room, *record_room) = (bytes, record),
            Call::CheckRun { record_room, .. } | Call::Join { record_room, .. } | Call::JoinList { record_room, .. } => {
                *record_room = record
            }
            Call::Test { .. } => {}
        }
        self
    }

    /// All that is only read, one after the other.
    pub fn inputs(&self) -> Vec<u8> {
        match *self {
            Call::Seal { key, iv, message, .. } => [key, iv, message].concat(),
            Call::Open { key, sealed, .. } => [key, sealed].concat(),
            Call::SealRun { key, iv, bytes, .. } | Call::CheckRun { key, iv, bytes, .. } => [key, iv, bytes].concat(),
            Call::Join { left, right, .. } => [left, right].concat(),
            Call::JoinList { records, .. } => records.to_vec(),
            Call::Close { key, iv, record, .. } => [key, iv, record].concat(),
            Call::Test { key, iv, record, tag, .. } => [key, iv, record, tag].concat(),
            Call::Jump { mask, .. } => mask.to_vec(),
            Call::Sha1 { text, .. } => text.to_vec(),
        }
    }
}
