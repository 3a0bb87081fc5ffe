//! A list cut into segments, and what each must hold. Together they are document 01's rack, and a segment is one of its places.

use super::bench::Bench;
use super::call::Call;
use super::cipher::Cipher;
use super::finish::{Finish, FINISHES};
use super::fips197::Fips197;
use super::mode::{number, padded, times_x, Mode};
use super::random::Random;

/// Consecutive blocks, and their record once it is there.
#[derive(Clone, PartialEq, Eq, Debug)]
pub struct Segment {
    pub first: usize,
    pub count: usize,
    pub record: Option<Vec<u8>>,
}

/// What the calls are made over.
pub enum Text {
    /// A message to seal.
    Message(Vec<u8>),
    /// A sealed record's ciphertext to check, genuine or not.
    Ciphertext(Vec<u8>),
}

/// What steps 1 to 3 give when nothing is cut.
pub struct Unbroken {
    middletexts: Vec<u128>,
    pub ciphertext: Vec<u8>,
    tags: [Vec<u8>; 2],
}

pub struct Segments {
    pub key: Vec<u8>,
    pub iv: [u8; 16],
    pub text: Text,
    pub unbroken: Unbroken,
    pub list: Vec<Segment>,
}

impl Segments {
    /// A random cut, with no record yet.
    pub fn new(key: Vec<u8>, iv: [u8; 16], text: Text, random: &mut Random) -> Self {
        let unbroken = Unbroken::new(&key, &iv, &text);
        let sealing = matches!(text, Text::Message(_));
        let list = cut(unbroken.middletexts.len(), sealing, random);
        Self { key, iv, text, unbroken, list }
    }

    /// Seals (or checks) the run of an empty segment, with enough room or too little, and puts its record there.
    pub fn fill(&mut self, bench: &mut Bench, at: usize, enough: bool) {
        let expected = self.record_of(at, at);
        let Segment { first, count, .. } = self.list[at];
        let (mut room, mut record_room) = (16 * count, 24);
        if enough {
            room += bench.random.below(20);
        } else if room > 0 && matches!(self.text, Text::Message(_)) {
            room = bench.random.below(room);
        } else {
            record_room = bench.random.below(24);
        }
        let answer = bench.check(&self.run_call(at, room, record_room));
        if !enough {
            assert_eq!(answer.number, 5);
            return;
        }
        assert_eq!(answer.number, 0);
        assert_eq!(answer.record, expected);
        if let Text::Message(_) = self.text {
            assert_eq!(answer.length, 16 * count);
            assert_eq!(answer.out[..16 * count], self.unbroken.ciphertext[16 * first..16 * (first + count)]);
        }
        self.list[at].record = Some(answer.record);
    }

    fn run_call(&self, at: usize, room: usize, record_room: usize) -> Call<'_> {
        let (key, iv) = (&self.key, &self.iv);
        let Segment { first, count, .. } = self.list[at];
        let (start, end) = (16 * first, 16 * (first + count));
        let last = at + 1 == self.list.len();
        let first = first as u32;
        match &self.text {
            Text::Message(message) => {
                let bytes = &message[start..if last { message.len() } else { end }];
                Call::SealRun { key, iv, first, last, bytes, room, record_room }
            }
            Text::Ciphertext(ciphertext) => Call::CheckRun { key, iv, first, bytes: &ciphertext[start..end], record_room },
        }
    }

    /// Joins filled segments that stand next to each other; one segment replaces them.
    pub fn join(&mut self, bench: &mut Bench, from: usize, to: usize, as_pair: bool) {
        let indices: Vec<_> = (from..=to).collect();
        let answer = self.join_call(bench, &indices, as_pair);
        assert_eq!(answer, Ok(self.record_of(from, to)));
        let first = self.list[from].first;
        let count = self.list[from..=to].iter().map(|segment| segment.count).sum();
        self.list.splice(from..=to, [Segment { first, count, record: answer.ok() }]);
    }

    /// Joins the records of any filled segments, in any order, and leaves the segments as they are.
    pub fn join_call(&self, bench: &mut Bench, indices: &[usize], as_pair: bool) -> Result<Vec<u8>, u8> {
        let records: Vec<&[u8]> = indices.iter().map(|&at| self.record(at)).collect();
        let list = records.concat();
        let call = match records[..] {
            [left, right] if as_pair => Call::Join { left, right, record_room: 24 },
            _ => Call::JoinList { records: &list, record_room: 24 },
        };
        let answer = bench.check(&call);
        match answer.number {
            0 => Ok(answer.record),
            number => Err(number),
        }
    }

    /// Whether two of these segments in turn do not follow each other: the table's condition for 8.
    pub fn out_of_turn(&self, indices: &[usize]) -> bool {
        let end = |at: usize| self.list[at].first + self.list[at].count;
        indices.windows(2).any(|pair| end(pair[0]) != self.list[pair[1]].first)
    }

    pub fn filled(&self) -> Vec<usize> {
        (0..self.list.len()).filter(|&at| self.list[at].record.is_some()).collect()
    }

    pub fn empty(&self) -> Vec<usize> {
        (0..self.list.len()).filter(|&at| self.list[at].record.is_none()).collect()
    }

    pub fn record(&self, at: usize) -> &[u8] {
        self.list[at].record.as_deref().expect("a filled segment")
    }

    /// The record of the blocks of consecutive segments, by its definition.
    fn record_of(&self, from: usize, to: usize) -> Vec<u8> {
        let first = self.list[from].first;
        let end = self.list[to].first + self.list[to].count;
        let middletexts = &self.unbroken.middletexts[first..end];
        let preauthenticator = middletexts.iter().fold(0, |sum, middletext| times_x(sum) ^ middletext);
        let numbers = [(first as u32).to_be_bytes(), ((end - first) as u32).to_be_bytes()].concat();
        [&numbers[..], &u128::to_be_bytes(preauthenticator)].concat()
    }

    /// Each filled segment has the record of its blocks, and the segments follow each other.
    pub fn check_all(&self) {
        let mut next = 0;
        for (at, segment) in self.list.iter().enumerate() {
            assert_eq!(segment.first, next);
            next += segment.count;
            assert!(segment.record.iter().all(|record| *record == self.record_of(at, at)));
        }
        assert_eq!(next, self.unbroken.middletexts.len());
    }
}

impl Unbroken {
    fn new(key: &[u8], iv: &[u8; 16], text: &Text) -> Self {
        let mode = Mode::<Fips197>::new(key, iv);
        let ciphertext = match text {
            Text::Message(message) => mode.run(0, &padded(message), Mode::forward).0,
            Text::Ciphertext(ciphertext) => ciphertext.clone(),
        };
        let mut mask = mode.start_mask;
        let mut middletexts = Vec::new();
        for block in ciphertext.chunks(16) {
            middletexts.push(mode.cipher.second_half_back(number(block) ^ mask));
            mask = times_x(mask);
        }
        let whole = middletexts.iter().fold(0, |sum, middletext| times_x(sum) ^ middletext);
        let tags = FINISHES.map(|finish| mode.tag_after(finish, whole, mask));
        Self { middletexts, ciphertext, tags }
    }

    /// The tag by this finish.
    pub fn tag(&self, finish: Finish) -> &[u8] {
        &self.tags[finish as usize]
    }
}

/// Cuts blocks into runs, empty ones too. The last run of a message has a block at least.
fn cut(blocks: usize, sealing: bool, random: &mut Random) -> Vec<Segment> {
    let cuts = random.below(9);
    let highest = blocks - usize::from(sealing);
    let mut ends: Vec<_> = (0..cuts).map(|_| random.within(0, highest)).collect();
    ends.sort_unstable();
    ends.push(blocks);
    let starts = [0].into_iter().chain(ends.clone());
    starts.zip(&ends).map(|(first, end)| Segment { first, count: end - first, record: None }).collect()
}
