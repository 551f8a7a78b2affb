//! Reading and printing, with everything that a call leaves in what it is lent.

use super::rules::{any_bytes, limit_bytes, rule_of, RULE_SIZE};
use crate::group::{by_profile, Group};
use crate::library::{self, RuleBytes};
use second::generator::{
    damaged_text, every_short_text, large_text, limit_texts, small_text, unknown_profile, Random,
};
use second::tree::LONGEST_TEXT;
use second::{Profile, FINITE, LAST};

/// Every answer of reading under a profile, with what was wanted where that is said.
const READ_ANSWERS: &[&str] = &[
    "0",
    "1",
    "2 operand",
    "2 operator",
    "2 arrow",
    "3 operand",
    "3 operator",
    "3 arrow",
    "4",
    "5",
    "8",
];

/// What stands in the lent slots: the count, the bytes, the place and what was wanted there.
#[derive(Clone, Debug, PartialEq)]
pub struct Lent {
    count: usize,
    bytes: Vec<u8>,
    place: usize,
    wanted: u8,
}

/// Slots for so many bytes, with something in them already.
pub fn lent_of_size(random: &mut Random, size: usize) -> Lent {
    Lent {
        count: random.below(1000),
        bytes: (0..size).map(|_| random.byte()).collect(),
        place: random.below(1000),
        wanted: random.byte(),
    }
}

fn any_lent(random: &mut Random) -> Lent {
    let size = if random.one_in(20) {
        random.below(RULE_SIZE)
    } else {
        RULE_SIZE + random.below(4)
    };
    lent_of_size(random, size)
}

fn by_library(profile: u8, text: &[u8], lent: &Lent) -> (u8, Lent) {
    let mut left = lent.clone();
    let number = library::read(
        profile,
        text,
        &mut left.count,
        &mut left.bytes,
        &mut left.place,
        &mut left.wanted,
    );
    (number, left)
}

fn by_second(profile: u8, text: &[u8], lent: &Lent) -> (u8, Lent) {
    let mut left = lent.clone();
    // The profile is looked at before the slice, the text after it.
    if Profile::numbered(profile).is_some() && left.bytes.len() < RULE_SIZE {
        return (8, left);
    }
    match second::read(profile, text) {
        Ok(rule) => {
            left.bytes[..RULE_SIZE].copy_from_slice(&rule.to_bytes());
            left.count = rule.count;
            (0, left)
        }
        Err(refusal) => {
            left.place = refusal.place;
            left.wanted = refusal.wanted_number();
            (refusal.number, left)
        }
    }
}

/// The answer as it is listed: 2 and 3 with their word; one that has none is not listed, and so counts as a difference.
fn listed(number: u8, wanted: u8) -> String {
    match (number, wanted) {
        (2 | 3, 1) => format!("{number} operand"),
        (2 | 3, 2) => format!("{number} operator"),
        (2 | 3, 3) => format!("{number} arrow"),
        _ => number.to_string(),
    }
}

/// Reads a text by both into the same slots, and gives the library's answer as it is listed.
pub fn compare_reading(group: &mut Group, profile: u8, text: &[u8], lent: &Lent) -> String {
    let (number, left) = by_library(profile, text, lent);
    let answer = listed(number, left.wanted);
    group.compare((number, left), by_second(profile, text, lent), || {
        format!("profile {profile}: {}", String::from_utf8_lossy(text))
    });
    answer
}

/// A profile's number, each of the two by turns and at times one that is none.
fn profile_for(random: &mut Random, number: usize) -> u8 {
    if random.one_in(50) {
        unknown_profile(random)
    } else {
        [FINITE, LAST][number % 2]
    }
}

fn read_and_count(group: &mut Group, random: &mut Random, profile: u8, text: &[u8]) {
    let lent = any_lent(random);
    let answer = compare_reading(group, profile, text, &lent);
    group.met_under(profile, answer);
}

/// Each limit, twice for the two profiles; then texts of a few signs and of many, texts at the limits,
/// and all of these damaged.
fn text_for(random: &mut Random, limits: &[Vec<u8>], number: usize) -> Vec<u8> {
    if let Some(limit) = limits.get(number / 2) {
        return limit.clone();
    }
    let sound = match number / 2 % 4 {
        0 => limits[random.below(limits.len())].clone(),
        1 => large_text(random),
        _ => small_text(random),
    };
    match random.below(5) {
        0 | 1 => sound,
        2 => (0..random.below(20)).map(|_| random.pick(SIGNS)).collect(),
        _ => damaged_text(random, &sound),
    }
}

const SIGNS: &[u8] = b"abh10!XNFGUR&|->() \t";

pub fn read(random: &mut Random, inputs: usize) -> Group {
    let mut group = Group::new("read", &by_profile(READ_ANSWERS, "12"));
    let limits = limit_texts();
    for number in 0..inputs {
        let text = text_for(random, &limits, number);
        let profile = profile_for(random, number);
        read_and_count(&mut group, random, profile, &text);
    }
    group
}

/// A text is cut at every place, so there are fewer than in the other groups.
const INPUTS_A_CUT_TEXT: usize = 50;

/// Every short text under each profile, and the texts of `read`, each cut at every place.
pub fn short_and_cut_texts(random: &mut Random, inputs: usize) -> Group {
    let mut group = Group::new("short and cut texts", &by_profile(READ_ANSWERS, "12"));
    for text in every_short_text() {
        for profile in [FINITE, LAST] {
            read_and_count(&mut group, random, profile, &text);
        }
    }
    let limits = limit_texts();
    for number in 0..inputs / INPUTS_A_CUT_TEXT {
        let text = text_for(random, &limits, number);
        let profile = profile_for(random, number);
        for end in 0..=text.len() {
            read_and_count(&mut group, random, profile, &text[..end]);
        }
    }
    group
}

/// A buffer with old bytes in it, at times one byte or more too short.
fn any_buffer(random: &mut Random) -> Vec<u8> {
    let size = if random.one_in(20) {
        random.pick(&[0, 1, LONGEST_TEXT - 1])
    } else {
        LONGEST_TEXT + random.below(3)
    };
    vec![random.byte(); size]
}

/// Prints by both into the same buffer, and gives the library's answer.
pub fn compare_printing(
    group: &mut Group,
    given: &RuleBytes,
    buffer: Vec<u8>,
    old_length: usize,
) -> u8 {
    let (mut out, mut length) = (buffer.clone(), old_length);
    let answer = library::print(given, &mut out, &mut length);
    let library = (answer, out, length);
    let mut out = buffer;
    let rule = rule_of(given).ok_or(6);
    let second = match rule.and_then(|rule| second::print(&rule, &mut out)) {
        Ok(length) => (0, out, length),
        Err(refusal) => (refusal, out, old_length),
    };
    group.compare(library, second, || format!("{given:?}"));
    answer
}

pub fn print(random: &mut Random, inputs: usize) -> Group {
    let mut group = Group::new("print", &by_profile(&["0", "6", "7", "8"], "6"));
    let limits = limit_bytes();
    for number in 0..inputs {
        let given = match limits.get(number) {
            Some(limit) => limit.clone(),
            None => any_bytes(random, number),
        };
        let (buffer, old_length) = (any_buffer(random), random.below(1000));
        let answer = compare_printing(&mut group, &given, buffer, old_length);
        group.met_under(given.profile, answer);
    }
    group
}
