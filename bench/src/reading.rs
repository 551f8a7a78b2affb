//! Reading a text beside the second program, which reads by two stacks.

use crate::library;
use crate::timing::{best, report};
use second::FINITE;
use std::cell::RefCell;
use std::hint::black_box;

const READS: usize = 1_000;

struct Slots {
    count: usize,
    bytes: [u8; 192],
    place: usize,
    wanted: u8,
}

fn compare(what: &str, text: &[u8]) {
    let slots = RefCell::new(Slots {
        count: 0,
        bytes: [0; 192],
        place: 0,
        wanted: 0,
    });
    let ours = || {
        let lent = &mut *slots.borrow_mut();
        library::read(
            FINITE,
            black_box(text),
            &mut lent.count,
            &mut lent.bytes,
            &mut lent.place,
            &mut lent.wanted,
        )
    };
    let theirs =
        || second::read(FINITE, black_box(text)).map_or_else(|refusal| refusal.number, |_| 0);
    let times = best(|| repeated(ours), || repeated(theirs));
    report(&format!("read, {what}"), "text", READS, times);
}

/// Reads as often as it takes to be timed, and gives the last answer.
fn repeated(read: impl Fn() -> u8) -> u8 {
    (0..READS).fold(0, |_, _| read())
}

pub fn bench() {
    compare("a small rule", b"G (a -> F b) & F (c & X d)");
    compare("512 operands", ["a"; 512].join("&").as_bytes());
    let nested = ["("; 32].concat() + "a" + &[")"; 32].concat();
    compare("32 parentheses", nested.as_bytes());
    compare("refused at its end", b"G (a -> F b) & F (c & X d");
}
