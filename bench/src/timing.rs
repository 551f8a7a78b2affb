//! Two ways to one answer, timed by turns.

use std::time::Instant;

const ROUNDS: usize = 15;

fn seconds<A>(work: impl Fn() -> A) -> (f64, A) {
    let start = Instant::now();
    let answer = work();
    (start.elapsed().as_secs_f64(), answer)
}

/// The best time of each side; their answers must be equal.
pub fn best<A: PartialEq + std::fmt::Debug>(
    proved: impl Fn() -> A,
    rust: impl Fn() -> A,
) -> (f64, f64) {
    let (mut ours, mut theirs) = (f64::MAX, f64::MAX);
    for _ in 0..ROUNDS {
        let (time, answer) = seconds(&proved);
        ours = ours.min(time);
        let (time, expected) = seconds(&rust);
        theirs = theirs.min(time);
        assert_eq!(answer, expected);
    }
    (ours, theirs)
}

/// One line: what, the time of each side for one of `units`, and the ratio.
pub fn report(what: &str, unit: &str, units: usize, (ours, theirs): (f64, f64)) {
    let each = 1e9 / units as f64;
    println!(
        "{what}: proved {:.2} ns, Rust {:.2} ns a {unit}, ratio {:.2}",
        ours * each,
        theirs * each,
        ours / theirs
    );
}
