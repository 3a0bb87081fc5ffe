//! What is wrong with the values of a call, said before the call is made: the library refuses by a number, and the number is
//! explained with what is known of the values.

use balzenoh::Refusal;

use super::failure::Failure;

/// For each value that cannot be right, the refusal that it gets by itself and a sentence.
#[derive(Default)]
pub struct Faults(Vec<(Refusal, String)>);

impl Faults {
    pub fn add(&mut self, refusal: Refusal, sentence: String) {
        self.0.push((refusal, sentence));
    }

    /// Adds a fault where this does not hold.
    pub fn unless(&mut self, holds: bool, refusal: Refusal, sentence: impl FnOnce() -> String) {
        if !holds {
            self.add(refusal, sentence());
        }
    }

    /// The refusal that the library gave, with the first fault that earns it.
    pub fn explain(&self, refusal: Refusal) -> Failure {
        let found = self.0.iter().find(|(earned, _)| *earned == refusal);
        Failure::Refused(refusal, found.map(|(_, sentence)| sentence.clone()))
    }
}
