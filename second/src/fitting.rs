//! Searching for the shortest series, first in byte order, that tables accept.

use crate::tables::{good_tables, Edge, StateNo, Tables};
use std::collections::{BTreeMap, BTreeSet};

pub const FIT_SIZE: usize = 127;

/// States first reached after one number of dates, each with the least series to it.
type Layer = BTreeMap<StateNo, Vec<u8>>;

fn least_date(edge: Edge) -> Option<u8> {
    (0..=u8::MAX).find(|&date| edge.allows(date))
}

/// The least series one date longer to each state not seen before.
///
/// A state reached again later is of no use: its first series makes a shorter fit.
fn next_layer(tables: &Tables, layer: &Layer, seen: &BTreeSet<StateNo>) -> Layer {
    let mut next = Layer::new();
    for (&state, series) in layer {
        for edge in tables
            .row(state)
            .filter(|edge| !seen.contains(&edge.target))
        {
            let Some(date) = least_date(edge) else {
                continue;
            };
            let longer = [series.as_slice(), &[date]].concat();
            let least = next.entry(edge.target).or_insert_with(|| longer.clone());
            if longer < *least {
                *least = longer;
            }
        }
    }
    next
}

fn first_of_the_shortest(tables: &Tables) -> Option<Vec<u8>> {
    let mut layer = Layer::from([(StateNo(0), vec![])]);
    let mut seen = BTreeSet::new();
    while !layer.is_empty() {
        let accepted = layer.iter().filter(|(&state, _)| tables.accepts(state));
        if let Some(fit) = accepted.map(|(_, series)| series).min() {
            return Some(fit.clone());
        }
        seen.extend(layer.keys().copied());
        layer = next_layer(tables, &layer, &seen);
    }
    None
}

/// Writes a fit to the front of `out` and gives its length: refusals 8, 10.
pub fn fit(tables: &Tables, out: &mut [u8]) -> Result<Option<usize>, u8> {
    if out.len() < FIT_SIZE {
        return Err(8);
    }
    if !good_tables(tables) {
        return Err(10);
    }
    let found = first_of_the_shortest(tables);
    Ok(found.map(|series| {
        out[..series.len()].copy_from_slice(&series);
        series.len()
    }))
}
