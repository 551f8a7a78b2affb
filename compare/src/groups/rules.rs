//! Which bytes are those of a rule.

use crate::group::{by_profile, Group};
use crate::library::{self, RuleBytes};
use second::generator::{any_rule, damaged_rule, limit_texts, random_rule, shared_rule, Random};
use second::rule::{Entry, MOST_FORMULAS};
use second::{Profile, Rule};

/// The size of a rule's byte form.
pub const RULE_SIZE: usize = 3 * MOST_FORMULAS;

/// All that a profile allows of the formula before and itself: small to hold, beyond measure written out.
pub fn doubled(profile: Profile) -> Rule {
    let count = profile.most_formulas();
    let mut entries = [Entry::False; MOST_FORMULAS];
    entries[0] = Entry::Flag(0);
    for (part, entry) in (0..).zip(&mut entries[1..count]) {
        *entry = Entry::And(part, part);
    }
    Rule {
        profile: profile.number(),
        count,
        entries,
    }
}

/// A profile, a count and bytes: of a sound rule, of a damaged one, or of none.
pub fn any_bytes(random: &mut Random, number: usize) -> RuleBytes {
    let profile = random.pick(&Profile::ALL);
    let rule = match number % 8 {
        0 if number % 512 == 0 => doubled(profile),
        1 => {
            let size = 1 + random.below(profile.most_formulas());
            shared_rule(random, profile, size)
        }
        2 | 3 => damaged_rule(random, profile),
        // Few of these: their generator makes every limit text anew.
        4 if number % 64 == 4 => any_rule(random, profile),
        _ => random_rule(random, profile),
    };
    let mut given = RuleBytes::of(&rule);
    if number % 8 == 7 {
        let place = random.below(RULE_SIZE);
        match random.below(4) {
            0 => given.bytes.truncate(place),
            1 => given.bytes.push(random.byte()),
            2 => given.bytes[place] = random.byte(),
            _ => given.bytes[place] = random.below(12) as u8,
        }
    }
    given
}

/// The bytes of a sound rule.
pub fn random_bytes(random: &mut Random) -> RuleBytes {
    let profile = random.pick(&Profile::ALL);
    RuleBytes::of(&random_rule(random, profile))
}

/// The bytes of each limit text's rule under each profile, also where they are one formula too many.
pub fn limit_bytes() -> Vec<RuleBytes> {
    let read = |text: Vec<u8>| second::read(second::FINITE, &text).ok();
    let rules = limit_texts().into_iter().filter_map(read);
    let under_each = |rule: Rule| {
        Profile::ALL.map(|profile| RuleBytes {
            profile: profile.number(),
            ..RuleBytes::of(&rule)
        })
    };
    rules.flat_map(under_each).collect()
}

/// The second program's rule of these bytes.
pub fn rule_of(given: &RuleBytes) -> Option<Rule> {
    Rule::from_bytes(
        given.profile,
        given.count,
        given.bytes.as_slice().try_into().ok()?,
    )
}

/// Tests the bytes by both, and gives the library's answer.
pub fn compare_is_rule(group: &mut Group, given: &RuleBytes) -> u8 {
    let second = rule_of(given).is_some_and(|rule| second::is_rule(&rule));
    let library = library::is_rule(given);
    group.compare(library, u8::from(second), || format!("{given:?}"));
    library
}

pub fn is_rule(random: &mut Random, inputs: usize) -> Group {
    let mut group = Group::new("is_rule", &by_profile(&["0", "1"], "0"));
    for number in 0..inputs {
        let given = any_bytes(random, number);
        let answer = compare_is_rule(&mut group, &given);
        group.met_under(given.profile, answer);
    }
    group
}
