//! Holds calls of the library against the reference, over both ciphers.

use super::aesni::{self, AesNi};
use super::call::{Answer, Call};
use super::fips197::Fips197;
use super::library;
use super::plan::Topic;
use super::random::Random;
use super::reference;
use super::tally::Tally;

pub struct Bench {
    topic: Topic,
    pub random: Random,
    tally: Tally,
    with_processor: bool,
}

impl Bench {
    pub fn new(topic: Topic) -> Self {
        let with_processor = aesni::available();
        if !with_processor {
            println!("{}: no AES instructions here, comparison with them skipped", topic.name);
        }
        Self { topic, random: Random::new(topic.seed), tally: Tally::default(), with_processor }
    }

    /// Makes the call and compares its whole answer with the reference's.
    pub fn check(&mut self, call: &Call) -> Answer {
        self.tally.count(call.function());
        let expected = reference::answer::<Fips197>(call);
        if self.with_processor {
            assert!(expected == reference::answer::<AesNi>(call), "the references differ: {}", self.about(call));
        }
        let given = library::answer(call, &mut self.random);
        assert!(given == expected, "{}\n given {given:02X?}\n expected {expected:02X?}", self.about(call));
        given
    }

    /// The same for a call on megabytes: the faster reference alone, and the bytes are not printed.
    pub fn check_long(&mut self, call: &Call) -> Answer {
        self.tally.count(call.function());
        let answer = if self.with_processor { reference::answer::<AesNi> } else { reference::answer::<Fips197> };
        let (expected, given) = (answer(call), library::answer(call, &mut self.random));
        let numbers = |answer: &Answer| (answer.number, answer.length);
        let about = format!("{}, call {}", self.topic.name, self.tally.total());
        assert_eq!(numbers(&given), numbers(&expected), "{about}");
        assert!(given == expected, "{about}: other bytes");
        given
    }

    /// Makes the call, and holds that it is refused with this number and that nothing is handed out.
    pub fn refuses(&mut self, number: u8, call: &Call) {
        let answer = self.check(call);
        assert!(answer.refused_with(number), "{}, and not {number}: {}", answer.number, self.about(call));
    }

    /// The same for a call on megabytes.
    pub fn refuses_long(&mut self, number: u8, call: &Call) {
        let answer = self.check_long(call);
        assert!(answer.refused_with(number), "{}, and not {number}", answer.number);
    }

    /// Prints the counts, and sees that the planned number of calls was made.
    pub fn finish(self) {
        println!("{}: {}", self.topic.name, self.tally);
        assert!(self.tally.total() >= self.topic.calls, "{}: fewer calls than planned", self.topic.name);
    }

    fn about(&self, call: &Call) -> String {
        format!("{}, call {}: {call:02X?}", self.topic.name, self.tally.total())
    }
}

/// The sizes of an output that are worth lending where so many bytes are needed.
pub fn rooms_around(needed: usize) -> impl Iterator<Item = usize> {
    [0, 1].into_iter().chain(needed.saturating_sub(20)..=needed + 20)
}
