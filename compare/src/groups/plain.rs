//! The plain judge.

use super::rules::{any_bytes, rule_of};
use crate::group::{by_profile, Group};
use crate::library::{self, RuleBytes};
use second::generator::{any_series, Random};

/// Series of no dates and of one date come often, since the end decides there.
pub fn short_or_any(random: &mut Random) -> Vec<u8> {
    match random.below(4) {
        0 => vec![],
        1 => vec![random.byte()],
        _ => any_series(random),
    }
}

/// Judges a series by both, and gives the library's answer.
pub fn compare_judging(group: &mut Group, given: &RuleBytes, series: &[u8]) -> u8 {
    let rule = rule_of(given).ok_or(6);
    let second = rule.and_then(|rule| second::judge_plain(&rule, series));
    let library = library::judge_plain(given, series);
    group.compare(
        library,
        second.map_or_else(|refusal| refusal, u8::from),
        || format!("{given:?} {series:?}"),
    );
    library
}

pub fn judge_plain(random: &mut Random, inputs: usize) -> Group {
    let mut group = Group::new("judge_plain", &by_profile(&["0", "1", "6"], "6"));
    for number in 0..inputs {
        let given = any_bytes(random, number);
        let series = short_or_any(random);
        let answer = compare_judging(&mut group, &given, &series);
        group.met_under(given.profile, answer);
    }
    group
}
