//! Walking a series through tables, date by date.

use crate::tables::{good_tables, StateNo, Tables, MOST_STATES};
use std::collections::BTreeSet;

/// A set of states handed in and out as two words: states 0 to 63, then 64 to 127.
#[derive(Clone, Copy, Debug, PartialEq, Eq)]
pub struct Walk {
    pub low: u64,
    pub high: u64,
}

type States = BTreeSet<StateNo>;

impl Walk {
    fn holds(self, state: usize) -> bool {
        let word = if state < 64 { self.low } else { self.high };
        word >> (state % 64) & 1 == 1
    }

    fn states(self) -> States {
        (0..MOST_STATES)
            .filter(|&state| self.holds(state))
            .map(StateNo)
            .collect()
    }

    fn of(states: &States) -> Walk {
        let word = |range: std::ops::Range<usize>| {
            range
                .clone()
                .filter(|&n| states.contains(&StateNo(n)))
                .map(|n| 1 << (n - range.start))
                .sum()
        };
        Walk {
            low: word(0..64),
            high: word(64..128),
        }
    }
}

fn moved(tables: &Tables, states: &States, date: u8) -> States {
    let edges = states.iter().flat_map(|&state| tables.row(state));
    edges
        .filter(|edge| edge.allows(date))
        .map(|edge| edge.target)
        .collect()
}

fn says_yes(tables: &Tables, states: &States) -> bool {
    states.iter().any(|&state| tables.accepts(state))
}

/// The states of a walk over these tables: refusal 10.
fn states_on(tables: &Tables, walk: &Walk) -> Result<States, u8> {
    let states = walk.states();
    let known = states.iter().all(|state| state.0 < tables.states);
    if known && good_tables(tables) {
        Ok(states)
    } else {
        Err(10)
    }
}

/// A walk before any date.
pub fn begin() -> Walk {
    Walk::of(&States::from([StateNo(0)]))
}

/// Moves a walk by one date: refusal 10 leaves it as given.
pub fn step(tables: &Tables, walk: &mut Walk, date: u8) -> Result<(), u8> {
    let states = states_on(tables, walk)?;
    *walk = Walk::of(&moved(tables, &states, date));
    Ok(())
}

/// What a walk answers: refusal 10.
pub fn answer(tables: &Tables, walk: &Walk) -> Result<bool, u8> {
    Ok(says_yes(tables, &states_on(tables, walk)?))
}

/// Whether a walk has no state left: refusal 10.
pub fn closed(tables: &Tables, walk: &Walk) -> Result<bool, u8> {
    Ok(states_on(tables, walk)?.is_empty())
}

/// Judges a series by tables: refusal 10.
pub fn judge_tables(tables: &Tables, series: &[u8]) -> Result<bool, u8> {
    let start = states_on(tables, &begin())?;
    let last = series
        .iter()
        .fold(start, |states, &date| moved(tables, &states, date));
    Ok(says_yes(tables, &last))
}
