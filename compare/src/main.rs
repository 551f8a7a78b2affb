//! Compares the proved library with the second program on generated inputs, under each profile; the program `judge`
//! has the profile finite alone.
//!
//! Without arguments every group is run; `groups N` gives each of them N inputs, and
//! `series N` runs the program alone, on N series over many rules.

mod group;
mod groups;
mod library;
mod program;

use group::Group;
use second::generator::{Random, FIXED_SEED};
use std::process::ExitCode;

const INPUTS: usize = 130_000;

type Comparing = fn(&mut Random, usize) -> Group;

const GROUPS: &[Comparing] = &[
    groups::cases::all,
    groups::profiles::unknown_numbers,
    groups::profiles::limits,
    groups::rules::is_rule,
    groups::texts::read,
    groups::texts::short_and_cut_texts,
    groups::texts::print,
    groups::plain::judge_plain,
    groups::builds::build,
    groups::walks::judge_tables,
    groups::walks::walks,
    groups::fits::fit,
    groups::programs::judge,
];

fn run(groups: &[Comparing], inputs: usize) -> ExitCode {
    let failed = groups
        .iter()
        .filter(|group| !group(&mut Random::new(FIXED_SEED), inputs).passed())
        .count();
    println!("{} passed, {failed} failed", groups.len() - failed);
    ExitCode::from(u8::from(failed > 0))
}

fn main() -> ExitCode {
    let words: Vec<String> = std::env::args().skip(1).collect();
    let number = words.get(1).and_then(|number| number.parse().ok());
    match (words.first().map(String::as_str), number) {
        (None, None) => run(GROUPS, INPUTS),
        (Some("groups"), Some(inputs)) => run(GROUPS, inputs),
        (Some("series"), Some(series)) => run(&[groups::programs::series], series),
        _ => {
            eprintln!("no arguments, or: groups NUMBER, or: series NUMBER");
            ExitCode::from(2)
        }
    }
}
