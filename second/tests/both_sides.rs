//! The cases that stand on both sides of each line.

use second::generator::{alternating_text, choices_text};
use second::{
    build_own, fit, judge_input, judge_plain, judge_tables, print, read, OwnTables, Refusal,
    Wanted, FINITE,
};

fn tables(text: &str) -> OwnTables {
    build_own(&read(FINITE, text.as_bytes()).unwrap()).unwrap()
}

/// The answer, the same one by meaning and by tables.
fn judged(text: &str, series: &[u8]) -> bool {
    let plain = judge_plain(&read(FINITE, text.as_bytes()).unwrap(), series).unwrap();
    assert_eq!(
        judge_tables(&tables(text).lend(), series),
        Ok(plain),
        "{text}"
    );
    plain
}

fn fitting(text: &str) -> Option<Vec<u8>> {
    let mut room = [0; 127];
    let length = fit(&tables(text).lend(), &mut room).unwrap()?;
    Some(room[..length].to_vec())
}

fn refused(text: &[u8], refusal: Refusal) {
    assert_eq!(
        read(FINITE, text),
        Err(refusal),
        "{}",
        String::from_utf8_lossy(text)
    );
}

fn program(input: &[u8]) -> String {
    let mut output = Vec::new();
    judge_input(input, &mut output).unwrap();
    String::from_utf8(output).unwrap()
}

#[test]
fn no_dates() {
    assert!(!judged("a", &[]));
    assert!(judged("!a", &[]));
    assert!(judged("1", &[]) && !judged("0", &[]));
    assert!(!judged("X 1", &[]) && judged("N 0", &[]));
}

#[test]
fn after_the_last_date() {
    assert!(!judged("N a", &[0x00]));
    assert!(judged("X !a", &[0x00]));
    assert!(!judged("G a", &[0x01]));
    assert!(judged("F !a", &[0x01]));
}

#[test]
fn always_until_the_last_date() {
    assert!(judged("G (a | N 0)", &[0x01, 0x01]));
    assert!(!judged("G (a | N 0)", &[0x01, 0x00]));
    assert!(judged("a R b", &[0x02, 0x03]));
}

#[test]
fn tables_of_until_and_release() {
    let made = tables("a U (b R c)");
    assert_eq!((made.states, made.edge_count), (3, 6));
    assert_eq!(made.starts[..2], [0, 3]);
    assert_eq!(made.edges[..3], [0x0001_0006, 0x0002_0004, 0x0000_0001]);
    assert_eq!(made.masks[..3], [1 << 4, 0, 1 << 3]);
    assert_eq!(made.accepts[..3], [0, 1, 0]);
    assert_eq!(fitting("a U (b R c)"), Some(vec![0x06]));
}

#[test]
fn tables_without_and_with_an_empty_fit() {
    let always = tables("G a");
    assert_eq!((always.states, always.edge_count), (1, 1));
    assert_eq!(fitting("G a"), None);
    let ended = tables("!X 1");
    assert_eq!((ended.states, ended.edge_count), (2, 1));
    assert_eq!(fitting("!X 1"), Some(vec![]));
}

#[test]
fn reading_refusals() {
    let around = |pairs: usize| [b"(".repeat(pairs), b"a".to_vec(), b")".repeat(pairs)].concat();
    assert!(read(FINITE, &around(32)).is_ok());
    refused(&around(33), Refusal::at(4, 32));
    refused(b"a)", Refusal::at(2, 1).wanting(Wanted::Operator));
    refused(b"", Refusal::at(3, 0).wanting(Wanted::Operand));
    refused(b"a -b", Refusal::at(2, 3).wanting(Wanted::Arrow));
}

#[test]
fn number_of_formulas() {
    assert_eq!(read(FINITE, &alternating_text(63)).unwrap().count, 64);
    let text = alternating_text(64);
    refused(&text, Refusal::at(5, text.len()));
}

#[test]
fn number_of_choices() {
    let ten = build_own(&read(FINITE, &choices_text(1024)).unwrap()).unwrap();
    assert_eq!((ten.states, ten.edge_count), (2, 4));
    let eleven = ["(a | b)"; 11].join(" & ");
    assert_eq!(build_own(&read(FINITE, eleven.as_bytes()).unwrap()), Err(9));
}

#[test]
fn read_but_too_deep_to_print() {
    let text = [&b"X".repeat(32)[..], b" a -> b"].concat();
    let mut room = [7; 1024];
    assert_eq!(print(&read(FINITE, &text).unwrap(), &mut room), Err(7));
    assert_eq!(room, [7; 1024]);
}

#[test]
fn the_listing() {
    let expected = "rule 2 states 3 edges\n1 yes\n2 no\n3 no\n4 yes\nfit 02\n";
    assert_eq!(program(b"a U b\n0102\n01\n\n03\n"), expected);
    assert_eq!(program(b"a U b\n0102\n01\n\n03"), expected);
}

#[test]
fn the_program_on_odd_input() {
    assert_eq!(program(b""), "refused 3 0 operand\n");
    assert_eq!(program(b"\n01\n"), "refused 3 0 operand\n");
    assert_eq!(program(b"a\r\n"), "refused 2 1 operator\n");
    assert_eq!(program(b"G a"), "rule 1 states 1 edges\nfit none\n");
    assert_eq!(program(b"!X 1\n"), "rule 2 states 1 edges\nfit empty\n");
    assert_eq!(
        program(b"1\n0\n \n0A\n00\r\n0g\n\n00"),
        "rule 2 states 2 edges\n1 bad\n2 bad\n3 bad\n4 bad\n5 bad\n6 yes\n7 yes\nfit empty\n"
    );
}

#[test]
fn the_program_on_refused_rules() {
    assert_eq!(program(b"a & )\n01\n"), "refused 2 4 operand\n");
    assert_eq!(program(b"a -b"), "refused 2 3 arrow\n");
    assert_eq!(program(b"(a\n)"), "refused 3 2 operator\n");
    assert_eq!(program(b"a -\n> b"), "refused 3 3 arrow\n");
    assert_eq!(program(&b"a ".repeat(1024)), "refused 1 1024\n");
    assert_eq!(program(&b"X".repeat(33)), "refused 4 32\n");
    assert_eq!(program(&alternating_text(64)), "refused 5 253\n");
    let eleven = ["(a | b)"; 11].join(" & ");
    assert_eq!(program(eleven.as_bytes()), "refused 9 0\n");
}

#[test]
fn the_program_on_long_lines() {
    let line = |dates: usize| "01".repeat(dates);
    let input = format!(
        "1 U (b & N N 0)\n{}02\n{}02\n{}\n",
        line(4095),
        line(4096),
        line(100_000)
    );
    let lines = program(input.as_bytes());
    assert!(lines.contains("1 yes\n2 bad\n3 bad\n"), "{lines}");
}
