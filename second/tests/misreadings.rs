//! Readings that look right, each beside a case where it gives another outcome.

use second::generator::{any_series, choices_text, Random, FIXED_SEED};
use second::tables::StateNo;
use second::{build_own, fit, judge_plain, read, Entry, OwnTables, Rule, Tables, FINITE, LAST};
use std::collections::{btree_map, BTreeMap, VecDeque};

fn rule(text: &str) -> Rule {
    read(FINITE, text.as_bytes()).unwrap()
}

fn tables(text: &str) -> OwnTables {
    build_own(&rule(text)).unwrap()
}

fn fitting(text: &str) -> Option<Vec<u8>> {
    let mut room = [0; 127];
    let length = fit(&tables(text).lend(), &mut room).unwrap()?;
    Some(room[..length].to_vec())
}

#[test]
fn until_and_release_go_on_to_the_empty_suffix() {
    let has_a = |date: &u8| date & 1 == 1;
    let stops_early_until = |series: &[u8]| series.iter().any(|date| !has_a(date));
    let stops_early_release = |series: &[u8]| series.iter().all(has_a);
    assert_ne!(
        judge_plain(&rule("F !a"), &[1]),
        Ok(stops_early_until(&[1]))
    );
    assert_ne!(
        judge_plain(&rule("G a"), &[1]),
        Ok(stops_early_release(&[1]))
    );
    let mut random = Random::new(FIXED_SEED);
    for _ in 0..200 {
        assert_eq!(
            judge_plain(&rule("F !a"), &any_series(&mut random)),
            Ok(true)
        );
    }
}

#[test]
fn next_and_weak_next_differ_after_the_last_date() {
    let (strong, weak) = (tables("X a"), tables("N a"));
    assert_eq!(
        (strong.edge_count, &strong.edges),
        (weak.edge_count, &weak.edges)
    );
    assert_ne!(strong.accepts, weak.accepts);
    assert_ne!(
        judge_plain(&rule("X a"), &[]),
        judge_plain(&rule("N a"), &[])
    );
}

#[test]
fn nothing_fits_although_no_row_is_empty() {
    let made = tables("G a");
    assert!(made.starts[..=made.states]
        .windows(2)
        .all(|pair| pair[0] < pair[1]));
    assert_eq!(fitting("G a"), None);
}

/// The misreading: edges in row order, the first path to each state kept.
fn along_the_first_short_path(tables: &Tables) -> Option<Vec<u8>> {
    let mut paths = BTreeMap::from([(StateNo(0), vec![])]);
    let mut waiting = VecDeque::from([StateNo(0)]);
    while let Some(state) = waiting.pop_front() {
        if tables.accepts(state) {
            return paths.remove(&state);
        }
        for edge in tables.row(state) {
            let longer = [paths[&state].as_slice(), &[edge.present]].concat();
            if let btree_map::Entry::Vacant(first) = paths.entry(edge.target) {
                first.insert(longer);
                waiting.push_back(edge.target);
            }
        }
    }
    None
}

#[test]
fn the_first_short_path_is_not_the_first_in_byte_order() {
    for (text, first) in [
        ("b & X a | a & X b", [1, 2]),
        ("X (b & c) | X a", [0, 1]),
        ("X b & c | X c & a", [1, 4]),
    ] {
        assert_eq!(fitting(text), Some(first.to_vec()), "{text}");
        assert_ne!(
            along_the_first_short_path(&tables(text).lend()),
            fitting(text),
            "{text}"
        );
    }
}

#[test]
fn choices_are_not_cut() {
    // Cut after 1,024 choices, this would go on and lose its last edge.
    let text = [&choices_text(1024)[..], b" | c"].concat();
    let made = rule(std::str::from_utf8(&text).unwrap());
    assert_eq!(build_own(&made), Err(9));
    assert_eq!(judge_plain(&made, &[4]), Ok(true));
}

/// The misreading: a normal form made for building, in which each literal, weak next and release
/// wants a date to follow.
fn by_the_normal_form(rule: &Rule, number: u8, suffix: &[u8]) -> bool {
    let has = |flag: u8| suffix[0] >> flag & 1 == 1;
    let here = |part: u8| by_the_normal_form(rule, part, suffix);
    let later = |part: u8| suffix.len() > 1 && by_the_normal_form(rule, part, &suffix[1..]);
    match rule.entries[usize::from(number)] {
        Entry::Flag(flag) => has(flag) && suffix.len() > 1,
        Entry::NotFlag(flag) => !has(flag) && suffix.len() > 1,
        Entry::True => true,
        Entry::False => false,
        Entry::And(p, q) => here(p) && here(q),
        Entry::Or(p, q) => here(p) || here(q),
        Entry::Next(p) | Entry::WeakNext(p) => later(p),
        Entry::Until(p, q) => here(q) || here(p) && later(number),
        Entry::Release(p, q) => here(q) && (here(p) || later(number)),
    }
}

#[test]
fn the_list_is_not_the_later_normal_form() {
    for text in ["a", "!b", "N a", "N 0", "G a", "G 1", "F a", "a R a"] {
        let rule = read(LAST, text.as_bytes()).unwrap();
        let whole = rule.count as u8 - 1;
        assert_eq!(judge_plain(&rule, &[0x01]), Ok(true), "{text}");
        assert!(!by_the_normal_form(&rule, whole, &[0x01]), "{text}");
    }
}

#[test]
fn a_negated_rule_is_no_opposite_where_there_are_no_dates() {
    let [plain, negated] = ["a", "!a"].map(|text| read(LAST, text.as_bytes()).unwrap());
    assert_eq!(judge_plain(&plain, &[]), judge_plain(&negated, &[]));
}
