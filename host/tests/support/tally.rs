//! How often each function of the library was called.

use std::fmt;

use super::call::FUNCTIONS;

#[derive(Default)]
pub struct Tally([u64; FUNCTIONS.len()]);

impl Tally {
    pub fn count(&mut self, function: usize) {
        self.0[function] += 1;
    }

    pub fn total(&self) -> u64 {
        self.0.iter().sum()
    }
}

impl fmt::Display for Tally {
    fn fmt(&self, f: &mut fmt::Formatter<'_>) -> fmt::Result {
        for (name, count) in FUNCTIONS.iter().zip(self.0).filter(|(_, count)| *count > 0) {
            write!(f, "{name} {count}, ")?;
        }
        write!(f, "{} calls in all", self.total())
    }
}
