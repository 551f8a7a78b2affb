//! Inputs to compare programs on, the same ones every time for the same seed.

mod inputs;
mod rules;
mod tables;
mod texts;

pub use inputs::{any_input, input_of, sound_text, walked_series};
pub use rules::{any_rule, damaged_rule, random_rule, shared_rule};
pub use tables::{any_tables, any_walk, chain_tables, damaged_tables, random_tables, BADNESSES};
pub use texts::{
    alternating_text, any_text, balanced_text, choices_text, damaged_text, depth_texts, edges_text,
    every_short_text, large_text, lasting_texts, limit_texts, long_fit_text, marked_edges_text,
    marked_states_text, printed_length_text, small_text, states_text, table_limit_texts,
    varied_text,
};

pub const FIXED_SEED: u64 = 0x0123_4567_89ab_cdef;

/// A splitmix generator: small, even, and the same on every machine.
#[derive(Clone, Debug)]
pub struct Random {
    state: u64,
}

impl Random {
    pub fn new(seed: u64) -> Random {
        Random { state: seed }
    }

    pub fn word(&mut self) -> u64 {
        self.state = self.state.wrapping_add(0x9e37_79b9_7f4a_7c15);
        let mut word = self.state;
        word = (word ^ word >> 30).wrapping_mul(0xbf58_476d_1ce4_e5b9);
        word = (word ^ word >> 27).wrapping_mul(0x94d0_49bb_1331_11eb);
        word ^ word >> 31
    }

    pub fn byte(&mut self) -> u8 {
        self.word() as u8
    }

    /// A number below the bound, which is above zero.
    pub fn below(&mut self, bound: usize) -> usize {
        (self.word() % bound as u64) as usize
    }

    pub fn one_in(&mut self, chances: usize) -> bool {
        self.below(chances) == 0
    }

    /// One of the items, of which there is at least one.
    pub fn pick<T: Copy>(&mut self, items: &[T]) -> T {
        items[self.below(items.len())]
    }
}

/// A number that no profile has, often one beside those that have one or at an end.
pub fn unknown_profile(random: &mut Random) -> u8 {
    let any = 2 + random.below(254) as u8;
    random.pick(&[2, 3, 127, 128, 255, any])
}

/// A series, often with no date or one, its dates often with few flags.
pub fn any_series(random: &mut Random) -> Vec<u8> {
    let dates = match random.below(8) {
        0 => 0,
        1 => 1,
        2 => 20 + random.below(200),
        _ => random.below(12),
    };
    let flags = random.pick(&[0x00, 0x01, 0x03, 0x07, 0x0f, 0xff]);
    (0..dates).map(|_| random.byte() & flags).collect()
}
