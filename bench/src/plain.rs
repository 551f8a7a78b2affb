//! The plain judge beside the same loop in Rust.

use crate::library::{self, RuleBytes};
use crate::timing::{best, report};
use second::generator::{alternating_text, Random, FIXED_SEED};
use second::{Entry, Profile, Rule};
use std::hint::black_box;

const DATES: usize = 1_000_000;

fn has(mask: u64, number: u8) -> bool {
    mask >> number & 1 == 1
}

/// What holds after the last date, where no flag stands.
fn at_end(formulas: &[Entry]) -> u64 {
    let mut here = 0u64;
    for (k, formula) in formulas.iter().enumerate() {
        let holds = match *formula {
            Entry::Flag(_) | Entry::False | Entry::Next(_) => false,
            Entry::NotFlag(_) | Entry::True | Entry::WeakNext(_) => true,
            Entry::And(p, q) => has(here, p) & has(here, q),
            Entry::Or(p, q) => has(here, p) | has(here, q),
            Entry::Until(_, q) | Entry::Release(_, q) => has(here, q),
        };
        here |= (holds as u64) << k;
    }
    here
}

/// What holds at a date, by what would hold after it: next and weak next are the same there.
fn at_date(formulas: &[Entry], date: u8, after: u64) -> u64 {
    let mut here = 0u64;
    for (k, formula) in formulas.iter().enumerate() {
        let number = k as u8;
        let holds = match *formula {
            Entry::Flag(flag) => date >> flag & 1 == 1,
            Entry::NotFlag(flag) => date >> flag & 1 == 0,
            Entry::True => true,
            Entry::False => false,
            Entry::And(p, q) => has(here, p) & has(here, q),
            Entry::Or(p, q) => has(here, p) | has(here, q),
            Entry::Next(p) | Entry::WeakNext(p) => has(after, p),
            Entry::Until(p, q) => has(here, q) | has(here, p) & has(after, number),
            Entry::Release(p, q) => has(here, q) & (has(here, p) | has(after, number)),
        };
        here |= (holds as u64) << k;
    }
    here
}

/// What holds at the last date where no place follows it.
fn at_last_date(formulas: &[Entry], date: u8) -> u64 {
    let mut here = 0u64;
    for (k, formula) in formulas.iter().enumerate() {
        let holds = match *formula {
            Entry::Flag(flag) => date >> flag & 1 == 1,
            Entry::NotFlag(flag) => date >> flag & 1 == 0,
            Entry::True | Entry::WeakNext(_) => true,
            Entry::False | Entry::Next(_) => false,
            Entry::And(p, q) => has(here, p) & has(here, q),
            Entry::Or(p, q) => has(here, p) | has(here, q),
            Entry::Until(_, q) | Entry::Release(_, q) => has(here, q),
        };
        here |= (holds as u64) << k;
    }
    here
}

/// The answer, by what holds at the place behind these dates.
fn backwards(formulas: &[Entry], dates: &[u8], mut here: u64) -> u8 {
    for &date in dates.iter().rev() {
        here = at_date(formulas, date, here);
    }
    u8::from(has(here, formulas.len() as u8 - 1))
}

#[inline(never)]
fn judge(profile: Profile, formulas: &[Entry], series: &[u8]) -> u8 {
    match (profile, series) {
        (Profile::Finite, _) => backwards(formulas, series, at_end(formulas)),
        (Profile::Last, []) => 0,
        (Profile::Last, [earlier @ .., last]) => {
            backwards(formulas, earlier, at_last_date(formulas, *last))
        }
    }
}

fn compare(profile: Profile, text: &[u8], series: &[u8]) {
    let rule: Rule = second::read(profile.number(), text).expect("a rule");
    let given = RuleBytes::of(&rule);
    let formulas = rule.formulas();
    let times = best(
        || library::judge_plain(black_box(&given), black_box(series)),
        || judge(profile, black_box(formulas), black_box(series)),
    );
    let under = match profile {
        Profile::Finite => "",
        Profile::Last => " under last",
    };
    let what = format!("plain, {} formulas{under}", rule.count);
    report(&what, "date and formula", series.len() * rule.count, times);
}

pub fn bench() {
    let mut random = Random::new(FIXED_SEED);
    let series: Vec<u8> = (0..DATES).map(|_| random.byte()).collect();
    let small = b"G (a -> F b) & F (c & X d)";
    compare(Profile::Finite, b"a U b", &series);
    compare(Profile::Finite, small, &series);
    compare(Profile::Last, small, &series);
    compare(Profile::Finite, &alternating_text(63), &series);
}
