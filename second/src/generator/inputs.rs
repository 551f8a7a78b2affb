//! Inputs of the program, which reads under the profile finite: a rule's text, then a series a line.

use super::texts::{any_text, limit_text, small_text};
use super::{any_series, random_rule, Random};
use crate::printing::print;
use crate::profile::{Profile, FINITE};
use crate::reading::read;
use crate::tables::{build_own, OwnTables, StateNo};
use crate::tree::LONGEST_TEXT;

fn tables_of(text: &[u8]) -> Option<OwnTables> {
    build_own(&read(FINITE, text).ok()?).ok()
}

/// A series along edges of good tables drawn at random, so that its last dates still decide.
pub fn walked_series(random: &mut Random, tables: &OwnTables, dates: usize) -> Vec<u8> {
    let mut state = StateNo(0);
    let mut series = Vec::new();
    for _ in 0..dates {
        let row: Vec<_> = tables.lend().row(state).collect();
        if row.is_empty() {
            break;
        }
        let edge = random.pick(&row);
        series.push((random.byte() | edge.present) & !edge.absent);
        state = edge.target;
    }
    series
}

fn hex(series: &[u8]) -> Vec<u8> {
    let digits = series.iter().map(|date| format!("{date:02x}"));
    digits.collect::<String>().into_bytes()
}

/// A line with one thing changed, which most often makes it no series.
fn spoiled(random: &mut Random, mut line: Vec<u8>) -> Vec<u8> {
    let place = random.below(line.len() + 1);
    match random.below(6) {
        0 => line.push(random.pick(b"0f")),
        1 => line.insert(place, random.byte()),
        2 => line.make_ascii_uppercase(),
        3 => line.push(b'\r'),
        4 => line = b" ".repeat(1 + random.below(3)),
        _ => line.splice(place..place, *b"0x").for_each(drop),
    }
    line
}

/// A series' line: short, at the limit of 4,096 dates, or spoiled.
fn any_line(random: &mut Random, tables: Option<&OwnTables>) -> Vec<u8> {
    let long = random.one_in(250);
    let dates = if long {
        random.pick(&[4095, 4096, 4096, 4097, 9000])
    } else {
        random.below(30)
    };
    let series = match tables {
        Some(tables) if long || random.one_in(2) => walked_series(random, tables, dates),
        _ if long => vec![random.byte(); dates],
        _ => any_series(random),
    };
    let line = hex(&series);
    if random.one_in(6) {
        spoiled(random, line)
    } else {
        line
    }
}

/// The text and so many lines; every other input has no newline at its end.
pub fn input_of(random: &mut Random, text: Vec<u8>, lines: usize) -> Vec<u8> {
    let tables = tables_of(&text);
    let mut input = text;
    for _ in 0..lines {
        input.push(b'\n');
        input.extend(any_line(random, tables.as_ref()));
    }
    if random.one_in(2) {
        input.push(b'\n');
    }
    input
}

/// A text of any sort with few lines or, at times, more than a reader takes at once.
pub fn any_input(random: &mut Random) -> Vec<u8> {
    let text = match random.below(40) {
        0 => small_text(random).repeat(20_000),
        _ => any_text(random),
    };
    let lines = match random.below(40) {
        0 => 2_000 + random.below(6_000),
        _ => random.below(40),
    };
    input_of(random, text, lines)
}

/// The text of a rule that has tables: grown as a text or as entries, or at a limit.
pub fn sound_text(random: &mut Random) -> Vec<u8> {
    loop {
        let text = match random.below(8) {
            0 => limit_text(random),
            1..=3 => {
                let mut room = [0; LONGEST_TEXT];
                let rule = random_rule(random, Profile::Finite);
                let length = print(&rule, &mut room).unwrap_or(0);
                room[..length].to_vec()
            }
            _ => small_text(random),
        };
        if tables_of(&text).is_some() {
            return text;
        }
    }
}
