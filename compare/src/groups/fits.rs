//! The search for a fit.

use super::walks::{made_tables, Origin, NO_RULE};
use crate::group::{after_each, Group};
use crate::library;
use second::generator::{any_tables, chain_tables, damaged_tables, Random, BADNESSES};
use second::tables::OwnTables;
use second::{Profile, FIT_SIZE};

/// Each kind of badness in turn, tables that a rule made, chains with the longest fits, and any tables.
fn tables_for(random: &mut Random, number: usize) -> (Origin, OwnTables) {
    let others = match number % 8 {
        0 => damaged_tables(random, number / 8 % BADNESSES),
        1 | 2 => return made_tables(random, Profile::Finite),
        3 | 4 => return made_tables(random, Profile::Last),
        5 if number % 64 == 5 => {
            let states = random.pick(&[1, 2, 127, 128]);
            chain_tables(random, states)
        }
        _ => any_tables(random),
    };
    (NO_RULE, others)
}

/// A buffer with old bytes in it, at times one byte or more too short.
fn any_buffer(random: &mut Random) -> Vec<u8> {
    let size = if random.one_in(10) {
        random.pick(&[0, 1, FIT_SIZE - 1])
    } else {
        FIT_SIZE + random.below(3)
    };
    (0..size).map(|_| random.byte()).collect()
}

/// Searches by both with the same buffer, and gives the library's answer.
pub fn compare_fitting(
    group: &mut Group,
    own: &OwnTables,
    buffer: Vec<u8>,
    old_dates: usize,
) -> u8 {
    let tables = own.lend();
    let (mut out, mut dates) = (buffer.clone(), old_dates);
    let answer = library::fit(&tables, &mut out, &mut dates);
    let library = (answer, out, dates);
    let mut out = buffer;
    let second = match second::fit(&tables, &mut out) {
        Ok(Some(dates)) => (1, out, dates),
        Ok(None) => (0, out, old_dates),
        Err(refusal) => (refusal, out, old_dates),
    };
    group.compare(library, second, || format!("{tables:?}"));
    answer
}

pub fn fit(random: &mut Random, inputs: usize) -> Group {
    let mut answers = after_each(&["finite", "last", NO_RULE], &["0", "1", "8"]);
    answers.push(format!("{NO_RULE} 10"));
    let mut group = Group::new("fit", &answers);
    for number in 0..inputs {
        let (origin, own) = tables_for(random, number);
        let (buffer, old_dates) = (any_buffer(random), random.below(1000));
        let answer = compare_fitting(&mut group, &own, buffer, old_dates);
        group.met(format!("{origin} {answer}"));
    }
    group
}
