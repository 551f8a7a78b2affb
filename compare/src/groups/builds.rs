//! Building tables: every entry of every lent slice, those above the sizes too.

use super::rules::{any_bytes, limit_bytes, random_bytes, rule_of};
use crate::group::{by_profile, Group};
use crate::library::{self, RuleBytes};
use second::generator::Random;
use second::tables::{ACCEPTS_SIZE, EDGES_SIZE, MASKS_SIZE, STARTS_SIZE};
use second::OwnTables;
use std::collections::HashSet;

/// A slice's length: its size and a few more, at times too short.
fn length(random: &mut Random, size: usize) -> usize {
    if random.one_in(100) {
        random.pick(&[0, size - 1])
    } else {
        size + random.below(3)
    }
}

/// The sizes of the slices, as `lent_of` takes them.
pub const SIZES: [usize; 4] = [MASKS_SIZE, STARTS_SIZE, ACCEPTS_SIZE, EDGES_SIZE];

/// Slices of these lengths and counts, with something in them already.
pub fn lent_of(random: &mut Random, [masks, starts, accepts, edges]: [usize; 4]) -> OwnTables {
    let old = random.word() | 1;
    OwnTables {
        states: random.below(1000),
        edge_count: random.below(1000),
        masks: vec![old; masks],
        starts: vec![old as u16; starts],
        accepts: vec![old as u8; accepts],
        edges: vec![old as u32; edges],
    }
}

fn any_lent(random: &mut Random) -> OwnTables {
    let lengths = SIZES.map(|size| length(random, size));
    lent_of(random, lengths)
}

fn by_second(given: &RuleBytes, lent: &mut OwnTables) -> u8 {
    let Some(rule) = rule_of(given) else {
        return 6;
    };
    let built = second::build(
        &rule,
        &mut lent.masks,
        &mut lent.starts,
        &mut lent.accepts,
        &mut lent.edges,
    );
    match built {
        Ok((states, edge_count)) => {
            lent.states = states;
            lent.edge_count = edge_count;
            0
        }
        Err(refusal) => refusal,
    }
}

/// Builds by both into the same slices, and gives the library's answer and what it left.
pub fn compare_building(group: &mut Group, given: &RuleBytes, lent: OwnTables) -> (u8, OwnTables) {
    let (mut left, mut other) = (lent.clone(), lent);
    let library = library::build(given, &mut left);
    let second = by_second(given, &mut other);
    group.compare((library, &left), (second, &other), || format!("{given:?}"));
    (library, left)
}

pub fn build(random: &mut Random, inputs: usize) -> Group {
    let mut group = Group::new("build", &by_profile(&["0", "6", "8", "9"], "6"));
    let limits = limit_bytes();
    let mut rules = HashSet::new();
    for number in 0..inputs {
        let given = match limits.get(number) {
            Some(limit) => limit.clone(),
            None if number % 8 == 0 => any_bytes(random, number / 8),
            None => random_bytes(random),
        };
        let lent = any_lent(random);
        let (answer, _) = compare_building(&mut group, &given, lent);
        group.met_under(given.profile, answer);
        if matches!(answer, 0 | 9) {
            rules.insert((given.profile, given.bytes));
        }
    }
    println!("build: {} different rules", rules.len());
    group
}
