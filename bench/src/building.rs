//! Building tables beside the second program, which builds them by sets and lists.

use crate::library::{self, RuleBytes};
use crate::timing::{best, report};
use second::generator::{choices_text, edges_text, marked_states_text, states_text};
use second::{OwnTables, FINITE, LAST};
use std::cell::RefCell;
use std::hint::black_box;

fn slices() -> RefCell<OwnTables> {
    RefCell::new(OwnTables {
        masks: vec![0; 128],
        starts: vec![0; 129],
        accepts: vec![0; 128],
        edges: vec![0; 8192],
        states: 0,
        edge_count: 0,
    })
}

fn compare(what: &str, profile: u8, text: &[u8]) {
    let rule = second::read(profile, text).expect("a rule");
    let given = RuleBytes::of(&rule);
    let (ours, theirs) = (slices(), slices());
    let times = best(
        || library::build(black_box(&given), &mut ours.borrow_mut()),
        || {
            let lent = &mut *theirs.borrow_mut();
            let built = second::build(
                black_box(&rule),
                &mut lent.masks,
                &mut lent.starts,
                &mut lent.accepts,
                &mut lent.edges,
            );
            built.map_or_else(|refusal| refusal, |_| 0)
        },
    );
    report(&format!("build, {what}"), "build", 1, times);
}

pub fn bench() {
    let small = b"G (a -> F b) & F (c & X d)";
    compare("a small rule", FINITE, small);
    compare("a small rule under last", LAST, small);
    compare("1,024 choices", FINITE, &choices_text(1024));
    compare("64 edges", FINITE, &edges_text(64));
    compare("128 states", FINITE, &states_text(128));
    compare("128 states under last", LAST, &marked_states_text(128));
}
