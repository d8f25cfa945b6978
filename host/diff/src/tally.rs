//! Counting what was compared, by refusal number, and keeping the differences.

use std::collections::BTreeMap;
use std::fmt::Debug;

pub struct Tally {
    name: &'static str,
    inputs: usize,
    /// By refusal number, 0 for a report: how many answers of the Rust's text, of the reference, of the library.
    answers: BTreeMap<u32, [usize; 3]>,
    differences: usize,
}

/// Whose answer it is.
#[derive(Clone, Copy)]
pub enum Whose {
    #[cfg_attr(not(roto), allow(dead_code))]
    Text,
    Reference,
    Library,
}

const SHOWN: usize = 5;

impl Tally {
    pub fn new(name: &'static str) -> Tally {
        Tally { name, inputs: 0, answers: BTreeMap::new(), differences: 0 }
    }

    pub fn input(&mut self) {
        self.inputs += 1;
    }

    pub fn answer<T>(&mut self, whose: Whose, answer: &model::Answer<T>) {
        self.number(whose, answer.as_ref().err().map_or(0, |r| r.number));
    }

    pub fn number(&mut self, whose: Whose, number: u32) {
        self.answers.entry(number).or_default()[whose as usize] += 1;
    }

    /// Holds two answers to each other.
    pub fn same<T: PartialEq + Debug>(&mut self, what: &str, came: &T, wanted: &T, input: &[u8]) {
        if came != wanted {
            self.differs(&format!("{what}: {came:?}, wanted {wanted:?}"), input);
        }
    }

    pub fn differs(&mut self, what: &str, input: &[u8]) {
        self.differences += 1;
        if self.differences <= SHOWN {
            let hex: String = input.iter().map(|b| format!("{b:02X}")).collect();
            println!("{}: difference {}: {what}\n  {hex}", self.name, self.differences);
        }
    }

    /// Prints the sums; whether nothing differs.
    pub fn close(self) -> bool {
        println!("{}: {} inputs, {} differences", self.name, self.inputs, self.differences);
        let mut line = String::new();
        for (number, [text, reference, library]) in &self.answers {
            line += &format!(" {number}:{text}/{reference}/{library}");
        }
        if !line.is_empty() {
            println!("  number:text/reference/library{line}");
        }
        self.differences == 0
    }
}
