//! Numbers that no profile has, each by every call that takes one, and every limit under each profile.

use super::builds::{compare_building, lent_of, SIZES};
use super::fits::compare_fitting;
use super::plain::{compare_judging, short_or_any};
use super::rules::{compare_is_rule, limit_bytes, RULE_SIZE};
use super::texts::{compare_printing, compare_reading, lent_of_size};
use crate::group::{after_each, Group};
use crate::library::RuleBytes;
use second::generator::{alternating_text, limit_texts, table_limit_texts, varied_text, Random};
use second::tree::LONGEST_TEXT;
use second::{Profile, FINITE, FIT_SIZE};

/// What a call that takes a profile's number answers to one that is none.
const UNKNOWN_ANSWERS: &[&str] = &[
    "read 12",
    "is_rule 0",
    "print 6",
    "judge_plain 6",
    "build 6",
];

/// Texts that are sound, and such as every other refusal is due for.
fn read_unknown(group: &mut Group, random: &mut Random, profile: u8) {
    let long = [b'a'; LONGEST_TEXT + 1];
    let many = alternating_text(64);
    let texts: [&[u8]; 7] = [b"a U b", b"", b"a)", b"a -", &[b'X'; 33], &many, &long];
    for text in texts {
        for size in [0, RULE_SIZE - 1, RULE_SIZE, RULE_SIZE + 1] {
            let lent = lent_of_size(random, size);
            let answer = compare_reading(group, profile, text, &lent);
            group.met(format!("read {answer}"));
        }
    }
}

/// A rule that a known number would make sound.
fn take_unknown(group: &mut Group, random: &mut Random, given: &RuleBytes) {
    let answer = compare_is_rule(group, given);
    group.met(format!("is_rule {answer}"));
    for size in [0, LONGEST_TEXT - 1, LONGEST_TEXT] {
        let answer = compare_printing(group, given, vec![7; size], 1);
        group.met(format!("print {answer}"));
    }
    for series in [&[][..], &[2]] {
        let answer = compare_judging(group, given, series);
        group.met(format!("judge_plain {answer}"));
    }
    for lengths in [[0; 4], SIZES] {
        let lent = lent_of(random, lengths);
        let (answer, _) = compare_building(group, given, lent);
        group.met(format!("build {answer}"));
    }
}

/// Each unknown number, with what is lent too short as well as not.
pub fn unknown_numbers(random: &mut Random, _: usize) -> Group {
    let mut group = Group::new("unknown profiles", UNKNOWN_ANSWERS);
    let rule = second::read(FINITE, b"a U b").expect("a rule");
    for profile in 2..=u8::MAX {
        read_unknown(&mut group, random, profile);
        let given = RuleBytes {
            profile,
            ..RuleBytes::of(&rule)
        };
        take_unknown(&mut group, random, &given);
    }
    group
}

/// What the calls answer at the limits under each profile; under last alone a limit text's rule can be none.
const LIMIT_ANSWERS: &[&str] = &[
    "read 0",
    "read 1",
    "read 2 operator",
    "read 2 arrow",
    "read 3 operand",
    "read 3 arrow",
    "read 4",
    "read 5",
    "is_rule 1",
    "print 0",
    "print 7",
    "judge_plain 0",
    "judge_plain 1",
    "build 0",
    "build 9",
    "fit 0",
    "fit 1",
];

const LIMIT_ANSWERS_OF_NO_RULE: &[&str] = &["is_rule 0", "print 6", "judge_plain 6", "build 6"];

/// Builds in slices of the sizes, and searches the tables.
fn build_and_fit(group: &mut Group, random: &mut Random, given: &RuleBytes) {
    let lent = lent_of(random, SIZES);
    let (answer, made) = compare_building(group, given, lent);
    group.met_under(given.profile, format!("build {answer}"));
    if answer == 0 {
        let answer = compare_fitting(group, &made, vec![7; FIT_SIZE], 0);
        group.met_under(given.profile, format!("fit {answer}"));
    }
}

/// Every call on a rule that stands at a limit.
fn all_calls(group: &mut Group, random: &mut Random, given: &RuleBytes) {
    let answer = compare_is_rule(group, given);
    group.met_under(given.profile, format!("is_rule {answer}"));
    let answer = compare_printing(group, given, vec![7; LONGEST_TEXT], 0);
    group.met_under(given.profile, format!("print {answer}"));
    for _ in 0..4 {
        let series = short_or_any(random);
        let answer = compare_judging(group, given, &series);
        group.met_under(given.profile, format!("judge_plain {answer}"));
    }
    build_and_fit(group, random, given);
}

/// Building is slow close to its limits, so there are fewer texts than in the other groups.
const INPUTS_A_VARIED_TEXT: usize = 50;

/// Each limit under each profile; then texts close to the limits of tables.
pub fn limits(random: &mut Random, inputs: usize) -> Group {
    let mut answers = after_each(&["finite", "last"], LIMIT_ANSWERS);
    answers.extend(after_each(&["last"], LIMIT_ANSWERS_OF_NO_RULE));
    let mut group = Group::new("limits", &answers);
    for text in limit_texts() {
        for profile in Profile::ALL {
            let lent = lent_of_size(random, RULE_SIZE);
            let answer = compare_reading(&mut group, profile.number(), &text, &lent);
            group.met_under(profile.number(), format!("read {answer}"));
        }
    }
    for given in limit_bytes() {
        all_calls(&mut group, random, &given);
    }
    let near = table_limit_texts();
    for number in 0..inputs / INPUTS_A_VARIED_TEXT {
        let text = varied_text(random, &near[number % near.len()]);
        for profile in Profile::ALL {
            if let Ok(rule) = second::read(profile.number(), &text) {
                build_and_fit(&mut group, random, &RuleBytes::of(&rule));
            }
        }
    }
    group
}
