//! Tells on the terminal which crate is proved and how far the proof is.
//!
//! Cargo keeps what a build script prints to itself, so the lines go to the terminal of the process, where it has one. That a line
//! cannot be shown changes nothing.

use std::fs::{File, OpenOptions};
use std::io::Write;
use std::time::Instant;

pub struct Progress {
    terminal: Option<File>,
    waiting: Vec<String>,
    crates: usize,
    /// The crate that `rt` has spoken of last.
    named: String,
    start: Instant,
    /// When the last crate was proved.
    last: Instant,
}

impl Progress {
    /// The crates stand in the order in which they are proved.
    pub fn new(names: &[String]) -> Self {
        let terminal = OpenOptions::new().write(true).open("/dev/tty").ok();
        let now = Instant::now();
        Self { terminal, waiting: names.to_vec(), crates: names.len(), named: String::new(), start: now, last: now }
    }

    pub fn begin(&mut self) {
        let next = self.next();
        let crates = self.crates;
        self.show(&format!("{crates} crates to prove, which takes some minutes the first time{next}"));
    }

    /// Takes a line of `rt`. At a crate's end it names the crate, as in `crate blocks: modules loaded=3 checked=5`, and its last line begins with
    /// `logic=proved`. Other lines are passed over.
    pub fn line(&mut self, line: &str) {
        if let Some((name, _)) = line.strip_prefix("crate ").and_then(|line| line.split_once(':')) {
            self.named = name.to_string();
        } else if line.starts_with("logic=proved ") {
            self.proved();
        }
    }

    /// The crate that was named last. Those before it are proved as well: of what it has kept from an earlier run `rt` says nothing.
    fn proved(&mut self) {
        let seconds = self.last.elapsed().as_secs();
        self.last = Instant::now();
        let Some(place) = self.waiting.iter().position(|waiting| *waiting == self.named) else { return };
        self.waiting.drain(..=place);
        let (done, crates, next) = (self.crates - self.waiting.len(), self.crates, self.next());
        self.show(&format!("{done} of {crates} proved: {} ({seconds} s){next}", self.named));
    }

    /// What is proved now, or how long all took.
    fn next(&self) -> String {
        match self.waiting.first() {
            Some(name) => format!("; now {name}"),
            None => format!("; {} s in all", self.start.elapsed().as_secs()),
        }
    }

    /// Writes over the line in which cargo draws its bar.
    fn show(&mut self, what: &str) {
        if let Some(terminal) = &mut self.terminal {
            let _ = terminal.write_all(format!("\r\x1b[Kbalzenoh: {what}\n").as_bytes());
        }
    }
}
