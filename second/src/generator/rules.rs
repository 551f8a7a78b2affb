//! Rules made of entries, without any text, sound and damaged, under each profile.

use super::texts::limit_texts;
use super::{unknown_profile, Random};
use crate::profile::Profile;
use crate::reading::read;
use crate::rule::{rule_of_last, Entry, Rule, MOST_FORMULAS};

fn leaf(random: &mut Random) -> Entry {
    match random.below(6) {
        0..=2 => Entry::Flag(random.below(3) as u8),
        3 => Entry::NotFlag(random.below(8) as u8),
        4 => Entry::True,
        _ => Entry::False,
    }
}

fn over_two(random: &mut Random, p: u8, q: u8) -> Entry {
    match random.below(4) {
        0 => Entry::And(p, q),
        1 => Entry::Or(p, q),
        2 => Entry::Until(p, q),
        _ => Entry::Release(p, q),
    }
}

fn over_one(random: &mut Random, p: u8) -> Entry {
    if random.one_in(2) {
        Entry::Next(p)
    } else {
        Entry::WeakNext(p)
    }
}

fn sound(profile: Profile, formulas: &[Entry]) -> Rule {
    rule_of_last(profile, formulas).expect("no formula too many, parts before wholes")
}

/// Formulas of which the later ones are made of the earlier.
struct Growing {
    formulas: Vec<Entry>,
    /// The numbers of those that are part of none yet, the last formula's always among them.
    loose: Vec<u8>,
}

impl Growing {
    fn push(&mut self, entry: Entry) {
        self.loose.push(self.formulas.len() as u8);
        self.formulas.push(entry);
    }

    /// A part for the next formula: a loose one, or at times any.
    fn part(&mut self, random: &mut Random) -> u8 {
        let any = random.below(self.formulas.len()) as u8;
        if random.one_in(6) {
            any
        } else {
            self.loose.pop().unwrap_or(any)
        }
    }

    fn grow(&mut self, random: &mut Random) {
        let entry = match random.below(5) {
            0 | 1 => leaf(random),
            2 => {
                let p = self.part(random);
                over_one(random, p)
            }
            _ => {
                let (q, p) = (self.part(random), self.part(random));
                over_two(random, p, q)
            }
        };
        self.push(entry);
    }

    /// Makes one formula of all loose ones.
    fn join(&mut self, random: &mut Random) {
        while let [.., p, q] = self.loose[..] {
            self.loose.truncate(self.loose.len() - 2);
            self.push(over_two(random, p, q));
        }
    }
}

/// A sound rule grown from entries, its parts at times shared.
pub fn random_rule(random: &mut Random, profile: Profile) -> Rule {
    let most = random.pick(&[4, 8, 16, profile.most_formulas()]);
    let size = 1 + random.below(most);
    let mut growing = Growing {
        formulas: vec![leaf(random)],
        loose: vec![0],
    };
    while growing.formulas.len() + growing.loose.len() <= size {
        growing.grow(random);
    }
    growing.join(random);
    sound(profile, &growing.formulas)
}

/// A sound rule that doubles at every formula: small to hold, beyond measure written out.
pub fn shared_rule(random: &mut Random, profile: Profile, size: usize) -> Rule {
    let kind = random.below(5);
    let mut formulas = vec![leaf(random)];
    while formulas.len() < size {
        let p = formulas.len() as u8 - 1;
        let mixed = random.below(4);
        formulas.push(match if kind == 4 { mixed } else { kind } {
            0 => Entry::And(p, p),
            1 => Entry::Or(p, p),
            2 => Entry::Until(p, p),
            _ => Entry::Release(p, p),
        });
    }
    sound(profile, &formulas)
}

fn any_entry(random: &mut Random) -> Entry {
    let (p, q) = (random.below(66) as u8, random.below(66) as u8);
    let kind = random.below(10) as u8;
    let bytes = match kind {
        0 | 1 => [kind, random.pick(&[0, 1, 7, 8, 255]), 0],
        2 | 3 => [kind, 0, 0],
        6 | 7 => [kind, p, 0],
        _ => [kind, p, q],
    };
    Entry::from_bytes(bytes).expect("only operands that the kind has")
}

/// A sound rule with one thing changed, which most often makes it none.
pub fn damaged_rule(random: &mut Random, profile: Profile) -> Rule {
    let mut rule = random_rule(random, profile);
    let count = rule.count;
    let (one, other) = (random.below(count), random.below(count));
    let past = random.below(MOST_FORMULAS);
    match random.below(10) {
        0 => rule.count = random.pick(&[0, 65, 66, 128, 256, usize::MAX]),
        1 => rule.count = 1 + random.below(MOST_FORMULAS),
        2 => rule.entries.swap(one, other),
        3 => rule.entries[one] = rule.entries[other],
        4 => rule.entries[one] = any_entry(random),
        5 => rule.entries[past] = any_entry(random),
        6 if count < MOST_FORMULAS => {
            // A whole formula that is none of its own parts' numbering.
            rule.entries[count] = over_two(random, one as u8, other as u8);
            rule.count += 1;
        }
        7 => rule.profile = unknown_profile(random),
        8 => {
            // One formula too many for last alone.
            rule = shared_rule(random, Profile::Finite, MOST_FORMULAS);
            rule.profile = profile.number();
        }
        _ => rule.entries[one] = rule.entries[one].renumbered(|part| part.wrapping_add(1)),
    }
    rule
}

/// A rule of any of these sorts, or one read from a text at a limit.
pub fn any_rule(random: &mut Random, profile: Profile) -> Rule {
    match random.below(8) {
        0 => {
            let most = profile.most_formulas();
            let size = random.pick(&[1, 2, 10, 11, 12, most - 1, most]);
            shared_rule(random, profile, size)
        }
        1 => {
            let texts = limit_texts();
            let text = &texts[random.below(texts.len())];
            read(profile.number(), text).unwrap_or_else(|_| random_rule(random, profile))
        }
        2 | 3 => damaged_rule(random, profile),
        _ => random_rule(random, profile),
    }
}
