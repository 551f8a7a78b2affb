//! Rules as numbered formulas, and the numbering itself.

use crate::profile::Profile;
use std::collections::BTreeMap;

pub const MOST_FORMULAS: usize = 64;
pub const MOST_FLAGS: u8 = 8;

/// One formula; its parts are the numbers of earlier formulas.
#[derive(Clone, Copy, Debug, PartialEq, Eq, PartialOrd, Ord)]
pub enum Entry {
    Flag(u8),
    NotFlag(u8),
    True,
    False,
    And(u8, u8),
    Or(u8, u8),
    Next(u8),
    WeakNext(u8),
    Until(u8, u8),
    Release(u8, u8),
}

impl Entry {
    /// The kind's number, then the operands, zero where there is none.
    pub fn to_bytes(self) -> [u8; 3] {
        match self {
            Entry::Flag(flag) => [0, flag, 0],
            Entry::NotFlag(flag) => [1, flag, 0],
            Entry::True => [2, 0, 0],
            Entry::False => [3, 0, 0],
            Entry::And(p, q) => [4, p, q],
            Entry::Or(p, q) => [5, p, q],
            Entry::Next(p) => [6, p, 0],
            Entry::WeakNext(p) => [7, p, 0],
            Entry::Until(p, q) => [8, p, q],
            Entry::Release(p, q) => [9, p, q],
        }
    }

    /// The entry these bytes stand for; an operand that is not there must be zero.
    pub fn from_bytes(bytes: [u8; 3]) -> Option<Entry> {
        match bytes {
            [0, flag, 0] => Some(Entry::Flag(flag)),
            [1, flag, 0] => Some(Entry::NotFlag(flag)),
            [2, 0, 0] => Some(Entry::True),
            [3, 0, 0] => Some(Entry::False),
            [4, p, q] => Some(Entry::And(p, q)),
            [5, p, q] => Some(Entry::Or(p, q)),
            [6, p, 0] => Some(Entry::Next(p)),
            [7, p, 0] => Some(Entry::WeakNext(p)),
            [8, p, q] => Some(Entry::Until(p, q)),
            [9, p, q] => Some(Entry::Release(p, q)),
            _ => None,
        }
    }

    /// The numbers of its parts, left before right.
    pub fn parts(self) -> Vec<u8> {
        match self {
            Entry::Flag(_) | Entry::NotFlag(_) | Entry::True | Entry::False => vec![],
            Entry::Next(p) | Entry::WeakNext(p) => vec![p],
            Entry::And(p, q) | Entry::Or(p, q) | Entry::Until(p, q) | Entry::Release(p, q) => {
                vec![p, q]
            }
        }
    }

    /// The same formula over parts numbered anew.
    pub fn renumbered(self, new: impl Fn(u8) -> u8) -> Entry {
        match self {
            Entry::Flag(_) | Entry::NotFlag(_) | Entry::True | Entry::False => self,
            Entry::And(p, q) => Entry::And(new(p), new(q)),
            Entry::Or(p, q) => Entry::Or(new(p), new(q)),
            Entry::Next(p) => Entry::Next(new(p)),
            Entry::WeakNext(p) => Entry::WeakNext(new(p)),
            Entry::Until(p, q) => Entry::Until(new(p), new(q)),
            Entry::Release(p, q) => Entry::Release(new(p), new(q)),
        }
    }

    fn flag_is_known(self) -> bool {
        match self {
            Entry::Flag(flag) | Entry::NotFlag(flag) => flag < MOST_FLAGS,
            _ => true,
        }
    }
}

/// A rule: its profile's number, its formulas, then `False` in every entry not used.
#[derive(Clone, Debug, PartialEq, Eq)]
pub struct Rule {
    pub profile: u8,
    pub count: usize,
    pub entries: [Entry; MOST_FORMULAS],
}

impl Rule {
    /// The formulas in use; only for a rule whose count is sound.
    pub fn formulas(&self) -> &[Entry] {
        &self.entries[..self.count]
    }

    pub fn to_bytes(&self) -> [u8; 3 * MOST_FORMULAS] {
        let mut bytes = [0; 3 * MOST_FORMULAS];
        for (to, entry) in bytes.chunks_exact_mut(3).zip(&self.entries) {
            to.copy_from_slice(&entry.to_bytes());
        }
        bytes
    }

    /// The rule of this profile, count and bytes; none where some entry has no sense.
    pub fn from_bytes(profile: u8, count: usize, bytes: &[u8; 3 * MOST_FORMULAS]) -> Option<Rule> {
        let mut entries = [Entry::False; MOST_FORMULAS];
        for (entry, from) in entries.iter_mut().zip(bytes.chunks_exact(3)) {
            *entry = Entry::from_bytes([from[0], from[1], from[2]])?;
        }
        Some(Rule {
            profile,
            count,
            entries,
        })
    }
}

/// Gives out formula numbers by first meeting.
pub struct Numbering {
    profile: Profile,
    met: Vec<Entry>,
    known: BTreeMap<Entry, u8>,
}

impl Numbering {
    pub fn under(profile: Profile) -> Numbering {
        Numbering {
            profile,
            met: Vec::new(),
            known: BTreeMap::new(),
        }
    }

    /// The number of a formula; none when it would be one too many.
    pub fn number(&mut self, entry: Entry) -> Option<u8> {
        if let Some(&number) = self.known.get(&entry) {
            return Some(number);
        }
        if self.met.len() == self.profile.most_formulas() {
            return None;
        }
        let number = self.met.len() as u8;
        self.met.push(entry);
        self.known.insert(entry, number);
        Some(number)
    }

    pub fn rule(self) -> Rule {
        let mut entries = [Entry::False; MOST_FORMULAS];
        entries[..self.met.len()].copy_from_slice(&self.met);
        Rule {
            profile: self.profile.number(),
            count: self.met.len(),
            entries,
        }
    }
}

/// Numbers what hangs below `at`, each old number once, so shared parts cost nothing.
fn renumber(
    formulas: &[Entry],
    at: u8,
    done: &mut BTreeMap<u8, u8>,
    numbering: &mut Numbering,
) -> Option<()> {
    if done.contains_key(&at) {
        return Some(());
    }
    let entry = formulas[usize::from(at)];
    for part in entry.parts() {
        renumber(formulas, part, done, numbering)?;
    }
    let number = numbering.number(entry.renumbered(|part| done[&part]))?;
    done.insert(at, number);
    Some(())
}

/// The rule of the last of these formulas, whose parts all stand earlier in the list.
pub fn rule_of_last(profile: Profile, formulas: &[Entry]) -> Option<Rule> {
    let last = u8::try_from(formulas.len().checked_sub(1)?).ok()?;
    let mut numbering = Numbering::under(profile);
    renumber(formulas, last, &mut BTreeMap::new(), &mut numbering)?;
    Some(numbering.rule())
}

fn parts_stand_earlier(formulas: &[Entry]) -> bool {
    formulas
        .iter()
        .enumerate()
        .all(|(number, entry)| entry.parts().iter().all(|&part| usize::from(part) < number))
}

/// The profile of what is the numbering of some formula, that of its own last one; none for all else.
pub fn profile_of(rule: &Rule) -> Option<Profile> {
    let profile = Profile::numbered(rule.profile)?;
    if rule.count == 0 || rule.count > profile.most_formulas() {
        return None;
    }
    let formulas = rule.formulas();
    let numbered = formulas.iter().all(|entry| entry.flag_is_known())
        && parts_stand_earlier(formulas)
        && rule_of_last(profile, formulas).as_ref() == Some(rule);
    numbered.then_some(profile)
}

pub fn is_rule(rule: &Rule) -> bool {
    profile_of(rule).is_some()
}
