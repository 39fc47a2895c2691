//! Counts of answers by label.

use std::collections::BTreeMap;
use std::fmt;

/// How often each answer of each call came.
#[derive(Clone, Default)]
pub struct Tally(BTreeMap<(&'static str, &'static str), u64>);

impl Tally {
    pub fn count(&mut self, call: &'static str, answer: &'static str) {
        self.add(call, answer, 1);
    }

    /// So many of an answer.
    pub fn add(&mut self, call: &'static str, answer: &'static str, n: u64) {
        *self.0.entry((call, answer)).or_default() += n;
    }

    pub fn merge(&mut self, other: &Tally) {
        for (key, n) in &other.0 {
            *self.0.entry(*key).or_default() += n;
        }
    }

    /// An error that names the answers of `call` that never came.
    pub fn require(&self, call: &'static str, answers: &[&'static str]) -> Result<(), String> {
        let missing: Vec<&str> = answers.iter().copied().filter(|&a| !self.0.contains_key(&(call, a))).collect();
        if missing.is_empty() {
            Ok(())
        } else {
            Err(format!("{call}: never answered {}", missing.join(", ")))
        }
    }
}

impl AsRef<Tally> for Tally {
    fn as_ref(&self) -> &Tally {
        self
    }
}

impl fmt::Display for Tally {
    fn fmt(&self, f: &mut fmt::Formatter<'_>) -> fmt::Result {
        let mut last = "";
        for ((call, answer), n) in &self.0 {
            if *call != last {
                write!(f, "{}  {call}:", if last.is_empty() { "" } else { "\n" })?;
                last = call;
            }
            write!(f, " {answer} {n};")?;
        }
        Ok(())
    }
}

/// The label of a status of our library.
pub fn status(status: u32) -> &'static str {
    match status {
        link::DONE => "done",
        link::NONE => "none",
        number => refusal(number as u8),
    }
}

/// The label of a refusal number.
pub fn refusal(number: u8) -> &'static str {
    match number {
        1 => "1",
        2 => "2",
        3 => "3",
        4 => "4",
        5 => "5",
        6 => "6",
        10 => "10",
        11 => "11",
        12 => "12",
        13 => "13",
        14 => "14",
        21 => "21",
        22 => "22",
        23 => "23",
        24 => "24",
        25 => "25",
        35 => "35",
        _ => panic!("no refusal has the number {number}"),
    }
}
