//! From a rule to its text.

use crate::rule::{is_rule, Entry, Rule};
use crate::tree::{read_tree, LONGEST_TEXT};

const PRINT_SIZE: usize = LONGEST_TEXT;

/// How tightly a text holds together, loosest first.
#[derive(Clone, Copy, PartialEq, Eq, PartialOrd, Ord)]
enum Tightness {
    Or,
    And,
    Until,
    Prefix,
}

/// A formula's own text, without parentheses around it.
struct Printed {
    text: Vec<u8>,
    tightness: Tightness,
}

impl Printed {
    fn new(text: impl Into<Vec<u8>>, tightness: Tightness) -> Printed {
        Printed {
            text: text.into(),
            tightness,
        }
    }

    /// The text as a part, in parentheses where it is looser than the place needs.
    fn part(&self, needed: Tightness) -> Vec<u8> {
        if self.tightness >= needed {
            return self.text.clone();
        }
        [b"(", self.text.as_slice(), b")"].concat()
    }
}

fn flag_letter(flag: u8) -> u8 {
    b'a' + flag
}

fn prefixed(sign: &str, part: &Printed) -> Printed {
    let text = [sign.as_bytes(), b" ", &part.part(Tightness::Prefix)].concat();
    Printed::new(text, Tightness::Prefix)
}

fn joined(p: Vec<u8>, sign: &str, q: Vec<u8>, tightness: Tightness) -> Printed {
    Printed::new(
        [p.as_slice(), b" ", sign.as_bytes(), b" ", &q].concat(),
        tightness,
    )
}

/// The text of one formula, given those of the earlier ones.
fn printed(formulas: &[Entry], entry: Entry, earlier: &[Printed]) -> Printed {
    use Tightness::{And, Or, Prefix, Until};
    let text = |number: u8| &earlier[usize::from(number)];
    let is = |number: u8, wanted: Entry| formulas[usize::from(number)] == wanted;
    match entry {
        Entry::Flag(flag) => Printed::new([flag_letter(flag)], Prefix),
        Entry::NotFlag(flag) => Printed::new([b'!', flag_letter(flag)], Prefix),
        Entry::True => Printed::new("1", Prefix),
        Entry::False => Printed::new("0", Prefix),
        Entry::Next(p) => prefixed("X", text(p)),
        Entry::WeakNext(p) => prefixed("N", text(p)),
        Entry::Until(p, q) if is(p, Entry::True) => prefixed("F", text(q)),
        Entry::Release(p, q) if is(p, Entry::False) => prefixed("G", text(q)),
        // Right grouping: another of the same level stands bare on the right only.
        Entry::Until(p, q) => joined(text(p).part(Prefix), "U", text(q).part(Until), Until),
        Entry::Release(p, q) => joined(text(p).part(Prefix), "R", text(q).part(Until), Until),
        // Left grouping: on the left only.
        Entry::And(p, q) => joined(text(p).part(And), "&", text(q).part(Until), And),
        Entry::Or(p, q) => joined(text(p).part(Or), "|", text(q).part(And), Or),
    }
}

/// The whole text; none when it is too long or too deep.
fn text_of(rule: &Rule) -> Option<Vec<u8>> {
    let formulas = rule.formulas();
    let mut texts: Vec<Printed> = Vec::new();
    for &entry in formulas {
        let next = printed(formulas, entry, &texts);
        // Every formula is part of the whole, so the first overlong text decides;
        // stopping here keeps shared parts from growing without bound.
        if next.text.len() > LONGEST_TEXT {
            return None;
        }
        texts.push(next);
    }
    let whole = texts.pop()?.text;
    // Only the depth can keep a printed text of this length from being read.
    read_tree(&whole).is_ok().then_some(whole)
}

/// Prints a rule to the front of `out`: refusals 6, 8, 7.
pub fn print(rule: &Rule, out: &mut [u8]) -> Result<usize, u8> {
    if !is_rule(rule) {
        return Err(6);
    }
    if out.len() < PRINT_SIZE {
        return Err(8);
    }
    let text = text_of(rule).ok_or(7)?;
    out[..text.len()].copy_from_slice(&text);
    Ok(text.len())
}
