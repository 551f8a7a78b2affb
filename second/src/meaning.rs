//! What rules and trees mean on a series, place by place.

use crate::profile::Profile;
use crate::rule::{profile_of, Entry, Rule};
use crate::text::{Binary, Prefix};
use crate::tree::Tree;

/// For each place that counts, whether a formula holds there.
type Column = Vec<bool>;

/// The dates, under finite one place more: the profiles differ in nothing else.
fn places_of(profile: Profile, series: &[u8]) -> usize {
    match profile {
        Profile::Finite => series.len() + 1,
        Profile::Last => series.len(),
    }
}

fn each(places: usize, holds: impl Fn(usize) -> bool) -> Column {
    (0..places).map(holds).collect()
}

/// Where no place counts, the answer is no, whatever the formula.
fn answer_of(column: &Column) -> bool {
    column.first() == Some(&true)
}

fn flag_column(flag: u8, series: &[u8], places: usize) -> Column {
    each(places, |i| {
        series.get(i).is_some_and(|date| date >> flag & 1 == 1)
    })
}

/// For each place the first place from it on with this value; the column's length if none.
fn first_from(column: &Column, value: bool) -> Vec<usize> {
    let mut firsts = vec![column.len(); column.len()];
    let mut first = column.len();
    for place in (0..column.len()).rev() {
        if column[place] == value {
            first = place;
        }
        firsts[place] = first;
    }
    firsts
}

/// If any place will do for the right part, the first one where it holds will.
fn until_column(p: &Column, q: &Column) -> Column {
    let (q_holds, p_fails) = (first_from(q, true), first_from(p, false));
    each(q.len(), |i| {
        q_holds[i] < q.len() && p_fails[i] >= q_holds[i]
    })
}

/// If the right part ever fails unreleased, it does at the first place where it fails.
fn release_column(p: &Column, q: &Column) -> Column {
    let (q_fails, p_holds) = (first_from(q, false), first_from(p, true));
    each(q.len(), |i| {
        q_fails[i] == q.len() || p_holds[i] < q_fails[i]
    })
}

/// What holds one place later, and `beyond` at the last place.
fn later_column(p: &Column, beyond: bool) -> Column {
    let later = p.iter().skip(1).copied().chain([beyond]);
    later.take(p.len()).collect()
}

fn entry_column(entry: Entry, earlier: &[Column], series: &[u8], places: usize) -> Column {
    let column = |number: u8| &earlier[usize::from(number)];
    match entry {
        Entry::Flag(flag) => flag_column(flag, series, places),
        Entry::NotFlag(flag) => {
            let has = flag_column(flag, series, places);
            each(places, |i| !has[i])
        }
        Entry::True => vec![true; places],
        Entry::False => vec![false; places],
        Entry::And(p, q) => each(places, |i| column(p)[i] && column(q)[i]),
        Entry::Or(p, q) => each(places, |i| column(p)[i] || column(q)[i]),
        Entry::Next(p) => later_column(column(p), false),
        Entry::WeakNext(p) => later_column(column(p), true),
        Entry::Until(p, q) => until_column(column(p), column(q)),
        Entry::Release(p, q) => release_column(column(p), column(q)),
    }
}

/// Judges a series by the meaning of the rule: refusal 6.
pub fn judge_plain(rule: &Rule, series: &[u8]) -> Result<bool, u8> {
    let profile = profile_of(rule).ok_or(6)?;
    let places = places_of(profile, series);
    let mut columns: Vec<Column> = Vec::new();
    for &entry in rule.formulas() {
        columns.push(entry_column(entry, &columns, series, places));
    }
    Ok(answer_of(&columns[rule.count - 1]))
}

/// A tree's meaning by the quantifiers word for word, those of the profile's own paper.
struct Wording<'a> {
    profile: Profile,
    series: &'a [u8],
    places: usize,
}

impl Wording<'_> {
    fn under(&self, prefix: Prefix, p: &Column) -> Column {
        let from = |i: usize| i..self.places;
        each(self.places, |i| match prefix {
            Prefix::Not => !p[i],
            Prefix::Next => i + 1 < self.places && p[i + 1],
            Prefix::WeakNext => i + 1 == self.places || p[i + 1],
            Prefix::Eventually => from(i).any(|j| p[j]),
            Prefix::Always => from(i).all(|j| p[j]),
        })
    }

    fn between(&self, binary: Binary, p: &Column, q: &Column) -> Column {
        let from = |i: usize| i..self.places;
        each(self.places, |i| match (binary, self.profile) {
            (Binary::And, _) => p[i] && q[i],
            (Binary::Or, _) => p[i] || q[i],
            (Binary::Implies, _) => !p[i] || q[i],
            (Binary::Until, _) => from(i).any(|j| q[j] && (i..j).all(|k| p[k])),
            (Binary::Release, Profile::Finite) => from(i).all(|j| q[j] || (i..j).any(|k| p[k])),
            (Binary::Release, Profile::Last) => {
                from(i).all(|j| q[j]) || from(i).any(|j| p[j] && (i..=j).all(|k| q[k]))
            }
        })
    }

    fn column(&self, tree: &Tree) -> Column {
        match tree {
            Tree::Flag(flag) => flag_column(*flag, self.series, self.places),
            Tree::True => vec![true; self.places],
            Tree::False => vec![false; self.places],
            Tree::Under(prefix, part) => self.under(*prefix, &self.column(part)),
            Tree::Between(binary, left, right) => {
                self.between(*binary, &self.column(left), &self.column(right))
            }
        }
    }
}

/// Whether a tree as written holds on a series.
pub fn tree_holds(profile: Profile, tree: &Tree, series: &[u8]) -> bool {
    let wording = Wording {
        profile,
        series,
        places: places_of(profile, series),
    };
    answer_of(&wording.column(tree))
}
