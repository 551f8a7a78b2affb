//! A second, independent reading of the rules, to compare the proved library with.
//!
//! Everything here favours the plainest shape over speed, and sets, trees and
//! lists over masks, so that a mistake is unlikely to be made twice.

pub mod fitting;
pub mod generator;
pub mod meaning;
pub mod printing;
pub mod profile;
pub mod program;
pub mod reading;
pub mod rule;
pub mod tables;
pub mod text;
pub mod tree;
pub mod walking;

pub use fitting::{fit, FIT_SIZE};
pub use meaning::{judge_plain, tree_holds};
pub use printing::print;
pub use profile::{Profile, FINITE, LAST};
pub use program::judge_input;
pub use reading::{read, rule_of_tree};
pub use rule::{is_rule, Entry, Rule};
pub use tables::{build, build_own, good_tables, OwnTables, Tables};
pub use text::Wanted;
pub use tree::{read_tree, Refusal, Tree};
pub use walking::{answer, begin, closed, judge_tables, step, Walk};
