//! Tables that no rule made, good and bad, and walks over them.

use super::Random;
use crate::tables::{OwnTables, EDGES_SIZE, MOST_STATES};
use crate::walking::Walk;

/// How many ways there are to be bad; `damaged_tables` takes any number below.
pub const BADNESSES: usize = 12;

fn edge(random: &mut Random, states: usize) -> u32 {
    let flags = random.pick(&[0x00, 0x01, 0x03, 0x0f, 0xff]);
    let present = random.byte() & flags & random.byte();
    let absent = random.byte() & flags & !present;
    let target = random.below(states) as u32;
    u32::from(present) | u32::from(absent) << 8 | target << 16
}

fn of_rows(random: &mut Random, rows: &[usize], accept_one_in: usize) -> OwnTables {
    let states = rows.len();
    let mut starts = vec![0];
    for row in rows {
        starts.push(starts[starts.len() - 1] + *row as u16);
    }
    let edge_count: usize = rows.iter().sum();
    let edges = (0..edge_count).map(|_| edge(random, states)).collect();
    let accepts = (0..states)
        .map(|_| u8::from(random.one_in(accept_one_in)))
        .collect();
    OwnTables {
        states,
        edge_count,
        masks: vec![],
        starts,
        accepts,
        edges,
    }
}

/// Noise past the counts, which nothing may look at.
fn with_noise(random: &mut Random, mut tables: OwnTables) -> OwnTables {
    for _ in 0..random.below(4) {
        tables.starts.push(random.word() as u16);
        tables.accepts.push(random.byte());
        tables.edges.push(random.word() as u32);
    }
    tables
}

/// Good tables of an automaton drawn at random.
pub fn random_tables(random: &mut Random) -> OwnTables {
    let most = random.pick(&[1, 2, 4, 8, 20, MOST_STATES]);
    let states = 1 + random.below(most);
    let widest = random.pick(&[1, 2, 3, 5, EDGES_SIZE / MOST_STATES]);
    let rows: Vec<usize> = (0..states).map(|_| random.below(widest + 1)).collect();
    let accept_one_in = random.pick(&[1, 3, 20, 1000]);
    let tables = of_rows(random, &rows, accept_one_in);
    with_noise(random, tables)
}

/// The good tables of a chain: one edge to the next state, the last accepting.
pub fn chain_tables(random: &mut Random, states: usize) -> OwnTables {
    let mut rows = vec![1; states];
    rows[states - 1] = 0;
    let mut tables = of_rows(random, &rows, usize::MAX);
    for (from, edge) in tables.edges.iter_mut().enumerate() {
        *edge = *edge & 0xffff | (from as u32 + 1) << 16;
    }
    tables.accepts.fill(0);
    tables.accepts[states - 1] = 1;
    tables
}

/// Nearly all the edges in the first row.
fn full_row(random: &mut Random, edges: usize) -> OwnTables {
    of_rows(random, &[edges - 1, 1, 0], 3)
}

/// Tables bad in one way.
pub fn damaged_tables(random: &mut Random, badness: usize) -> OwnTables {
    let rows: Vec<usize> = (0..2 + random.below(6))
        .map(|_| 1 + random.below(3))
        .collect();
    let mut tables = of_rows(random, &rows, 2);
    let (states, edges) = (tables.states, tables.edge_count);
    let (state, edge) = (random.below(states), random.below(edges));
    match badness {
        0 => tables.states = 0,
        1 => tables = of_rows(random, &[1; MOST_STATES + 1], 2),
        2 => tables.starts.truncate(random.below(states + 1)),
        3 => tables.accepts.truncate(state),
        4 => tables.edges.truncate(edge),
        5 => tables.starts[0] = 1,
        6 => tables.starts[1] = edges as u16 + 1,
        7 => tables = full_row(random, EDGES_SIZE + 1),
        8 => tables.edge_count = random.pick(&[edges - 1, edges + 1, 0, EDGES_SIZE, usize::MAX]),
        9 => tables.accepts[state] = random.pick(&[2, 3, 128, 255]),
        10 => {
            let both = 1 << random.below(8);
            tables.edges[edge] |= both | both << 8;
        }
        _ => {
            let target = random.pick(&[states as u32, 128, 0xffff]);
            tables.edges[edge] = tables.edges[edge] & 0xffff | target << 16;
        }
    }
    tables
}

/// Tables of any of these sorts.
pub fn any_tables(random: &mut Random) -> OwnTables {
    match random.below(16) {
        0..=3 => {
            let badness = random.below(BADNESSES);
            damaged_tables(random, badness)
        }
        4 => {
            let states = random.pick(&[1, 2, 127, 128]);
            chain_tables(random, states)
        }
        5 => full_row(random, EDGES_SIZE),
        _ => random_tables(random),
    }
}

/// A walk, most often within this many states.
pub fn any_walk(random: &mut Random, states: usize) -> Walk {
    let within = if states < MOST_STATES {
        (1 << states) - 1
    } else {
        u128::MAX
    };
    let word = u128::from(random.word()) << 64 | u128::from(random.word());
    let held = match random.below(8) {
        0 => word,
        1 => 0,
        2 => word & within & 3,
        // The first number that is no state.
        3 => within.wrapping_add(1),
        _ => word & within,
    };
    Walk {
        low: held as u64,
        high: (held >> 64) as u64,
    }
}
