//! Numbers, rows and printed texts worked out by hand, where the order is all.

use second::Entry::*;
use second::{build_own, print, read, Entry, OwnTables, FINITE};

fn tables(text: &str) -> OwnTables {
    build_own(&read(FINITE, text.as_bytes()).unwrap()).unwrap()
}

fn row(text: &str, state: usize) -> Vec<u32> {
    let made = tables(text);
    let (from, to) = (made.starts[state], made.starts[state + 1]);
    made.edges[from.into()..to.into()].to_vec()
}

#[test]
fn formulas_are_numbered_inner_first_and_left_first() {
    let cases: [(&str, &[Entry]); 9] = [
        ("a", &[Flag(0)]),
        ("!!h", &[Flag(7)]),
        ("!(a -> b)", &[Flag(0), NotFlag(1), And(0, 1)]),
        ("a & b | a & b", &[Flag(0), Flag(1), And(0, 1), Or(2, 2)]),
        (
            "F a -> b",
            &[False, NotFlag(0), Release(0, 1), Flag(1), Or(2, 3)],
        ),
        (
            "!(a U X b)",
            &[NotFlag(0), NotFlag(1), WeakNext(1), Release(0, 2)],
        ),
        ("!G N 1", &[True, False, Next(1), Until(0, 2)]),
        (
            "!(a R b) | !0",
            &[NotFlag(0), NotFlag(1), Until(0, 1), True, Or(2, 3)],
        ),
        ("(a | !a) & !a", &[Flag(0), NotFlag(0), Or(0, 1), And(2, 1)]),
    ];
    for (text, formulas) in cases {
        assert_eq!(
            read(FINITE, text.as_bytes()).unwrap().formulas(),
            formulas,
            "{text}"
        );
    }
}

#[test]
fn choices_come_in_order() {
    let (a_c, a_d, b_c, b_d) = (0x0001_0005, 0x0001_0009, 0x0001_0006, 0x0001_000a);
    assert_eq!(row("(a | b) & (c | d)", 0), [a_c, a_d, b_c, b_d]);
    assert_eq!(
        row("(a | b) U c", 0),
        [0x0001_0004, 0x0000_0001, 0x0000_0002]
    );
    assert_eq!(
        row("a R (b | c)", 0),
        [0x0001_0003, 0x0000_0002, 0x0001_0005, 0x0000_0004]
    );
    assert_eq!(row("!a & b", 0), [0x0001_0102]);
    assert_eq!(row("1", 0), [0x0001_0000]);
    assert_eq!(row("0", 0), []);
    assert_eq!(row("a & !a | a | a | b", 0), [0x0001_0001, 0x0001_0002]);
}

#[test]
fn members_join_in_rising_number() {
    // The later formula is wanted first, and still runs fastest.
    let text = "(a | b) U (X (c | d) & X (a | b))";
    let made = tables(text);
    assert_eq!(made.masks[..3], [1 << 9, 1 << 2 | 1 << 5, 0]);
    let to_the_end = [0x05, 0x09, 0x06, 0x0a].map(|present| 0x0002_0000 | present);
    assert_eq!(row(text, 1), to_the_end);
}

#[test]
fn states_are_numbered_by_first_meeting() {
    let made = tables("X X a | X b | a & X a");
    // Formulas: a, X a, X X a, b, X b, their or, a & X a, the whole.
    assert_eq!(made.masks[..6], [1 << 7, 1 << 1, 1 << 3, 1 << 0, 0, 0]);
    assert_eq!(made.states, 5);
    assert_eq!(made.edges[..3], [0x0001_0000, 0x0002_0000, 0x0003_0001]);
    assert_eq!(
        made.edges[3..7],
        [0x0003_0000, 0x0004_0002, 0x0004_0001, 0x0004_0000]
    );
    assert_eq!(made.accepts[..5], [0, 0, 0, 0, 1]);
}

#[test]
fn printed_texts() {
    for (text, expected) in [
        ("  a  ", "a"),
        ("((a U b)) R c", "(a U b) R c"),
        ("a U (b R c)", "a U b R c"),
        ("a & (b & c) & d", "a & (b & c) & d"),
        ("(a & b) | (c | d)", "a & b | (c | d)"),
        ("(a | b) & c", "(a | b) & c"),
        ("X(a U b)", "X (a U b)"),
        ("(F a) U G b", "F a U G b"),
        ("!X!a", "N a"),
        ("!(a -> X b)", "a & N !b"),
        ("1 U (0 R a)", "F G a"),
        ("1 U a & b", "F a & b"),
        ("1 U (a & b)", "F (a & b)"),
        ("1 R a | 0 U a", "1 R a | 0 U a"),
        ("(X a) R !b", "X a R !b"),
    ] {
        let mut room = [0; 1024];
        let length = print(&read(FINITE, text.as_bytes()).unwrap(), &mut room).unwrap();
        assert_eq!(String::from_utf8_lossy(&room[..length]), expected);
    }
}
