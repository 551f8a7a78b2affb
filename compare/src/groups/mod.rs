//! The groups, one file for each part of the library.

pub mod builds;
pub mod cases;
pub mod fits;
pub mod plain;
pub mod profiles;
pub mod programs;
pub mod rules;
pub mod texts;
pub mod walks;
