//! A group of comparisons: how many there were, how many differ, and how often each answer was met.

use std::fmt::{Debug, Display};

const SHOWN: usize = 3;

/// What stands before an answer in a group's list: the profile of what was asked.
pub fn profile_word(number: u8) -> &'static str {
    match number {
        second::FINITE => "finite",
        second::LAST => "last",
        _ => "unknown",
    }
}

/// Each answer after each word.
pub fn after_each(words: &[&str], answers: &[&str]) -> Vec<String> {
    let mut all = Vec::new();
    for word in words {
        all.extend(answers.iter().map(|answer| format!("{word} {answer}")));
    }
    all
}

/// The answers under each profile, and the one to a number that no profile has.
pub fn by_profile(known: &[&str], unknown: &str) -> Vec<String> {
    let mut answers = after_each(&["finite", "last"], known);
    answers.push(format!("unknown {unknown}"));
    answers
}

pub struct Group {
    name: &'static str,
    compared: usize,
    differences: usize,
    /// Every answer that the call can give, with how often it was met.
    answers: Vec<(String, usize)>,
}

impl Group {
    /// A group that passes only if each of these answers is met, and no other.
    pub fn new(name: &'static str, answers: &[impl ToString]) -> Group {
        Group {
            name,
            compared: 0,
            differences: 0,
            answers: answers
                .iter()
                .map(|answer| (answer.to_string(), 0))
                .collect(),
        }
    }

    /// Compares two outcomes; the first few that differ are shown with their input.
    pub fn compare<T: PartialEq + Debug>(
        &mut self,
        library: T,
        second: T,
        input: impl FnOnce() -> String,
    ) {
        self.compared += 1;
        if library == second {
            return;
        }
        self.differences += 1;
        if self.differences <= SHOWN {
            println!("{}: library {library:?}, second {second:?}", self.name);
            println!("  on {}", input());
        }
    }

    /// Counts an answer; one that the call cannot give is a difference.
    pub fn met(&mut self, answer: impl ToString) {
        let answer = answer.to_string();
        match self.answers.iter_mut().find(|(known, _)| *known == answer) {
            Some((_, times)) => *times += 1,
            None => {
                self.differences += 1;
                println!("{}: {answer} is no answer of this call", self.name);
            }
        }
    }

    /// Counts an answer under the profile with this number.
    pub fn met_under(&mut self, profile: u8, answer: impl Display) {
        self.met(format!("{} {answer}", profile_word(profile)));
    }

    /// How often each answer was met, and its share.
    fn shares(&self) -> String {
        let all: usize = self.answers.iter().map(|(_, times)| times).sum();
        let share = |times: usize| 100.0 * times as f64 / all.max(1) as f64;
        let shares: Vec<String> = self
            .answers
            .iter()
            .map(|(answer, times)| format!("; {answer}: {times} ({:.1} %)", share(*times)))
            .collect();
        shares.concat()
    }

    /// Writes the group's line and what was never met, and says whether it passed.
    pub fn passed(&self) -> bool {
        println!(
            "{}: {} compared, {} differences{}",
            self.name,
            self.compared,
            self.differences,
            self.shares()
        );
        let missed = self.answers.iter().filter(|(_, times)| *times == 0);
        for (answer, _) in missed.clone() {
            println!("{}: {answer} was never met", self.name);
        }
        self.compared > 0 && self.differences == 0 && missed.count() == 0
    }
}
