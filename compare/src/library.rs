//! The library's calls, behind safe functions. Nothing else here is unsafe.

use second::{OwnTables, Rule, Tables, Walk};

mod foreign {
    extern "C" {
        pub fn hourcricket_is_rule(
            profile: u8,
            count: usize,
            bytes: *const u8,
            length: usize,
        ) -> u8;
        pub fn hourcricket_read(
            profile: u8,
            text: *const u8,
            length: usize,
            count: *mut usize,
            bytes: *mut u8,
            bytes_length: usize,
            place: *mut usize,
            wanted: *mut u8,
        ) -> u8;
        pub fn hourcricket_print(
            profile: u8,
            count: usize,
            bytes: *const u8,
            length: usize,
            out: *mut u8,
            out_length: usize,
            printed: *mut usize,
        ) -> u8;
        pub fn hourcricket_build(
            profile: u8,
            count: usize,
            bytes: *const u8,
            length: usize,
            masks: *mut u64,
            masks_length: usize,
            starts: *mut u16,
            starts_length: usize,
            accepts: *mut u8,
            accepts_length: usize,
            edges: *mut u32,
            edges_length: usize,
            states: *mut usize,
            edge_count: *mut usize,
        ) -> u8;
        pub fn hourcricket_judge_plain(
            profile: u8,
            count: usize,
            bytes: *const u8,
            length: usize,
            series: *const u8,
            dates: usize,
        ) -> u8;
        pub fn hourcricket_judge_tables(
            states: usize,
            edge_count: usize,
            starts: *const u16,
            starts_length: usize,
            accepts: *const u8,
            accepts_length: usize,
            edges: *const u32,
            edges_length: usize,
            series: *const u8,
            dates: usize,
        ) -> u8;
        pub fn hourcricket_fit(
            states: usize,
            edge_count: usize,
            starts: *const u16,
            starts_length: usize,
            accepts: *const u8,
            accepts_length: usize,
            edges: *const u32,
            edges_length: usize,
            out: *mut u8,
            out_length: usize,
            dates: *mut usize,
        ) -> u8;
        pub fn hourcricket_walk_begin(low: *mut u64, high: *mut u64);
        pub fn hourcricket_walk_step(
            states: usize,
            edge_count: usize,
            starts: *const u16,
            starts_length: usize,
            accepts: *const u8,
            accepts_length: usize,
            edges: *const u32,
            edges_length: usize,
            low: *mut u64,
            high: *mut u64,
            date: u8,
        ) -> u8;
        pub fn hourcricket_walk_answer(
            states: usize,
            edge_count: usize,
            starts: *const u16,
            starts_length: usize,
            accepts: *const u8,
            accepts_length: usize,
            edges: *const u32,
            edges_length: usize,
            low: u64,
            high: u64,
        ) -> u8;
        pub fn hourcricket_walk_closed(
            states: usize,
            edge_count: usize,
            starts: *const u16,
            starts_length: usize,
            accepts: *const u8,
            accepts_length: usize,
            edges: *const u32,
            edges_length: usize,
            low: u64,
            high: u64,
        ) -> u8;
    }
}

// A call reads and writes only the slices that it is given, each as pointer then length.

/// A call that takes tables, with what follows them.
macro_rules! with_tables {
    ($call:ident, $tables:expr $(, $more:expr)*) => {
        unsafe {
            foreign::$call(
                $tables.states,
                $tables.edge_count,
                $tables.starts.as_ptr(),
                $tables.starts.len(),
                $tables.accepts.as_ptr(),
                $tables.accepts.len(),
                $tables.edges.as_ptr(),
                $tables.edges.len(),
                $($more),*
            )
        }
    };
}

/// A call that takes a rule, with what follows it.
macro_rules! with_rule {
    ($call:ident, $rule:expr $(, $more:expr)*) => {
        unsafe {
            foreign::$call(
                $rule.profile,
                $rule.count,
                $rule.bytes.as_ptr(),
                $rule.bytes.len(),
                $($more),*
            )
        }
    };
}

/// A rule as a call takes it, which may be none.
#[derive(Clone, Debug)]
pub struct RuleBytes {
    pub profile: u8,
    pub count: usize,
    pub bytes: Vec<u8>,
}

impl RuleBytes {
    pub fn of(rule: &Rule) -> RuleBytes {
        RuleBytes {
            profile: rule.profile,
            count: rule.count,
            bytes: rule.to_bytes().to_vec(),
        }
    }
}

pub fn is_rule(rule: &RuleBytes) -> u8 {
    with_rule!(hourcricket_is_rule, rule)
}

pub fn read(
    profile: u8,
    text: &[u8],
    count: &mut usize,
    bytes: &mut [u8],
    place: &mut usize,
    wanted: &mut u8,
) -> u8 {
    unsafe {
        foreign::hourcricket_read(
            profile,
            text.as_ptr(),
            text.len(),
            count,
            bytes.as_mut_ptr(),
            bytes.len(),
            place,
            wanted,
        )
    }
}

pub fn print(rule: &RuleBytes, out: &mut [u8], length: &mut usize) -> u8 {
    with_rule!(hourcricket_print, rule, out.as_mut_ptr(), out.len(), length)
}

/// The counts and the four slices of `tables` are lent as they are.
pub fn build(rule: &RuleBytes, tables: &mut OwnTables) -> u8 {
    with_rule!(
        hourcricket_build,
        rule,
        tables.masks.as_mut_ptr(),
        tables.masks.len(),
        tables.starts.as_mut_ptr(),
        tables.starts.len(),
        tables.accepts.as_mut_ptr(),
        tables.accepts.len(),
        tables.edges.as_mut_ptr(),
        tables.edges.len(),
        &mut tables.states,
        &mut tables.edge_count
    )
}

pub fn judge_plain(rule: &RuleBytes, series: &[u8]) -> u8 {
    with_rule!(hourcricket_judge_plain, rule, series.as_ptr(), series.len())
}

pub fn judge_tables(tables: &Tables, series: &[u8]) -> u8 {
    with_tables!(
        hourcricket_judge_tables,
        tables,
        series.as_ptr(),
        series.len()
    )
}

pub fn walk_begin() -> Walk {
    let mut walk = Walk { low: 0, high: 0 };
    unsafe { foreign::hourcricket_walk_begin(&mut walk.low, &mut walk.high) }
    walk
}

pub fn walk_step(tables: &Tables, walk: &mut Walk, date: u8) -> u8 {
    with_tables!(
        hourcricket_walk_step,
        tables,
        &mut walk.low,
        &mut walk.high,
        date
    )
}

pub fn walk_answer(tables: &Tables, walk: Walk) -> u8 {
    with_tables!(hourcricket_walk_answer, tables, walk.low, walk.high)
}

pub fn walk_closed(tables: &Tables, walk: Walk) -> u8 {
    with_tables!(hourcricket_walk_closed, tables, walk.low, walk.high)
}

pub fn fit(tables: &Tables, out: &mut [u8], dates: &mut usize) -> u8 {
    with_tables!(hourcricket_fit, tables, out.as_mut_ptr(), out.len(), dates)
}
