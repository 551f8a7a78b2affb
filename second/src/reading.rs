//! From the tree as written to the numbered rule.

use crate::profile::Profile;
use crate::rule::{Entry, Numbering, Rule};
use crate::text::{Binary, Prefix};
use crate::tree::{read_tree, Refusal, Tree};

/// Walks the tree, the negations met so far in `negated`, and numbers as it leaves.
struct Leaving {
    numbering: Numbering,
}

impl Leaving {
    fn number(&mut self, tree: &Tree, negated: bool) -> Option<u8> {
        match tree {
            Tree::Flag(flag) if negated => self.numbering.number(Entry::NotFlag(*flag)),
            Tree::Flag(flag) => self.numbering.number(Entry::Flag(*flag)),
            Tree::True => self.constant(!negated),
            Tree::False => self.constant(negated),
            Tree::Under(prefix, part) => self.under(*prefix, part, negated),
            Tree::Between(binary, left, right) => self.between(*binary, left, right, negated),
        }
    }

    fn constant(&mut self, value: bool) -> Option<u8> {
        self.numbering
            .number(if value { Entry::True } else { Entry::False })
    }

    fn under(&mut self, prefix: Prefix, part: &Tree, negated: bool) -> Option<u8> {
        let entry = match prefix {
            Prefix::Not => return self.number(part, !negated),
            Prefix::Next | Prefix::WeakNext => {
                let p = self.number(part, negated)?;
                // A negated next is a weak next, and the other way round.
                if (prefix == Prefix::Next) != negated {
                    Entry::Next(p)
                } else {
                    Entry::WeakNext(p)
                }
            }
            Prefix::Eventually => return self.between(Binary::Until, &Tree::True, part, negated),
            Prefix::Always => return self.between(Binary::Release, &Tree::False, part, negated),
        };
        self.numbering.number(entry)
    }

    fn between(&mut self, binary: Binary, left: &Tree, right: &Tree, negated: bool) -> Option<u8> {
        // The arrow negates its left part once more than the rest.
        let p = self.number(left, negated != (binary == Binary::Implies))?;
        let q = self.number(right, negated)?;
        let entry = match (binary, negated) {
            (Binary::And, false) | (Binary::Or | Binary::Implies, true) => Entry::And(p, q),
            (Binary::And, true) | (Binary::Or | Binary::Implies, false) => Entry::Or(p, q),
            (Binary::Until, false) | (Binary::Release, true) => Entry::Until(p, q),
            (Binary::Until, true) | (Binary::Release, false) => Entry::Release(p, q),
        };
        self.numbering.number(entry)
    }
}

/// The rule of a tree; none for too many distinct formulas.
pub fn rule_of_tree(profile: Profile, tree: &Tree) -> Option<Rule> {
    let mut leaving = Leaving {
        numbering: Numbering::under(profile),
    };
    leaving.number(tree, false)?;
    Some(leaving.numbering.rule())
}

/// Reads a text as a rule of the profile with this number: refusals 12, then 1 to 5.
pub fn read(profile: u8, text: &[u8]) -> Result<Rule, Refusal> {
    let profile = Profile::numbered(profile).ok_or(Refusal::at(12, 0))?;
    let tree = read_tree(text)?;
    rule_of_tree(profile, &tree).ok_or(Refusal::at(5, text.len()))
}
