//! The dialects in which a rule can be meant.

use crate::rule::MOST_FORMULAS;

/// The profiles' numbers, as calls and rules hold them; every other number is unknown.
pub const FINITE: u8 = 0;
pub const LAST: u8 = 1;

#[derive(Clone, Copy, Debug, PartialEq, Eq)]
pub enum Profile {
    /// The place behind the last date counts as well.
    Finite,
    /// Only dates count, and a series without any is answered no.
    Last,
}

impl Profile {
    pub const ALL: [Profile; 2] = [Profile::Finite, Profile::Last];

    pub fn number(self) -> u8 {
        match self {
            Profile::Finite => FINITE,
            Profile::Last => LAST,
        }
    }

    pub fn numbered(number: u8) -> Option<Profile> {
        let mut all = Profile::ALL.into_iter();
        all.find(|profile| profile.number() == number)
    }

    /// Under last, a state's mask has a bit less for formulas.
    pub fn most_formulas(self) -> usize {
        match self {
            Profile::Finite => MOST_FORMULAS,
            Profile::Last => MOST_FORMULAS - 1,
        }
    }
}
