//! Judging by tables beside the same walk in Rust.

use crate::library;
use crate::timing::{best, report};
use second::generator::{states_text, Random, FIXED_SEED};
use second::{OwnTables, Tables, FINITE};
use std::hint::black_box;

const DATES: usize = 400_000;
const SHORT: usize = 20;

/// The lowest state of the walk from `from` on, 128 where there is none.
fn next(walk: [u64; 2], from: usize) -> usize {
    if from < 64 {
        let rest = walk[0] >> from;
        if rest != 0 {
            return from + rest.trailing_zeros() as usize;
        }
    }
    let skipped = from.max(64) - 64;
    if skipped == 64 || walk[1] >> skipped == 0 {
        return 128;
    }
    from.max(64) + (walk[1] >> skipped).trailing_zeros() as usize
}

/// Each state of the walk and each of its edges once, with no branch on what a date allows.
fn step(tables: &Tables, walk: [u64; 2], date: u8) -> [u64; 2] {
    let mut out = [0u64; 2];
    let mut state = next(walk, 0);
    while state < 128 {
        let row = tables.starts[state] as usize..tables.starts[state + 1] as usize;
        for &edge in &tables.edges[row] {
            let present = edge as u8;
            let absent = (edge >> 8) as u8;
            let allowed = u64::from(date & (present | absent) == present);
            let target = (edge >> 16) as usize;
            out[target / 64] |= allowed << (target % 64);
        }
        state = next(walk, state + 1);
    }
    out
}

/// Whether the tables, which are good, say yes.
pub fn walk(tables: &Tables, series: &[u8]) -> bool {
    let mut walk = [1, 0];
    for &date in series {
        walk = step(tables, walk, date);
    }
    let mut state = next(walk, 0);
    while state < 128 {
        if tables.accepts[state] == 1 {
            return true;
        }
        state = next(walk, state + 1);
    }
    false
}

#[inline(never)]
fn judge(tables: &Tables, series: &[u8]) -> u8 {
    if second::good_tables(tables) {
        u8::from(walk(tables, series))
    } else {
        10
    }
}

/// The tables of a text that has any.
pub fn tables_of(profile: u8, text: &[u8]) -> OwnTables {
    second::build_own(&second::read(profile, text).expect("a rule")).expect("tables")
}

fn compare(own: &OwnTables, dates: usize, series: &[u8]) {
    let tables = own.lend();
    let all = |judge: &dyn Fn(&[u8]) -> u8| -> usize {
        series.chunks(dates).map(|part| judge(part) as usize).sum()
    };
    let times = best(
        || all(&|part| library::judge_tables(black_box(&tables), part)),
        || all(&|part| judge(black_box(&tables), part)),
    );
    let what = format!("tables of {} states, {dates} dates a series", tables.states);
    report(&what, "date", series.len(), times);
}

pub fn bench() {
    let mut random = Random::new(FIXED_SEED);
    let series: Vec<u8> = (0..DATES).map(|_| random.byte()).collect();
    for dates in [DATES, SHORT] {
        let of = |text: &[u8]| tables_of(FINITE, text);
        compare(&of(b"G (a -> F b)"), dates, &series);
        compare(&of(b"F (a & X (b & X (c & X d)))"), dates, &series);
        compare(&of(&states_text(128)), dates, &series);
    }
}
