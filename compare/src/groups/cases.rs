//! The cases on both sides of the scope's lines, and those of the profile last: run through the library, and held to
//! what the papers say as well as to the second program.

use super::rules::doubled;
use crate::group::Group;
use crate::library::{self, RuleBytes};
use crate::program;
use second::generator::Random;
use second::{OwnTables, Profile, Rule, FINITE, LAST};
use std::fmt::Debug;

/// A library's outcome, the second program's, and what is said of the case.
fn held<T: PartialEq + Debug>(group: &mut Group, case: &str, library: T, second: T, said: T) {
    group.compare(&library, &said, || format!("what is said of {case}"));
    group.compare(&library, &second, || case.to_string());
}

/// What reading answers, the count or the place, and what was wanted there; then the bytes.
fn read(profile: u8, text: &str) -> ((u8, usize, u8), [u8; 192]) {
    let (mut count, mut bytes, mut place, mut wanted) = (0, [0; 192], 0, 0);
    let answer = library::read(
        profile,
        text.as_bytes(),
        &mut count,
        &mut bytes,
        &mut place,
        &mut wanted,
    );
    let number = if answer == 0 { count } else { place };
    ((answer, number, wanted), bytes)
}

fn second_read(profile: u8, text: &str) -> ((u8, usize, u8), [u8; 192]) {
    match second::read(profile, text.as_bytes()) {
        Ok(rule) => ((0, rule.count, 0), rule.to_bytes()),
        Err(refusal) => (
            (refusal.number, refusal.place, refusal.wanted_number()),
            [0; 192],
        ),
    }
}

/// The second program's rule of a sound text, held to the library's.
fn sound(group: &mut Group, profile: u8, text: &str) -> Rule {
    let second = second_read(profile, text);
    group.compare(read(profile, text), second, || format!("reading {text}"));
    second::read(profile, text.as_bytes()).expect("a sound text")
}

/// What printing answers, and the text.
fn print(rule: &Rule) -> (u8, String) {
    let (mut out, mut length) = ([0; 1024], 0);
    let answer = library::print(&RuleBytes::of(rule), &mut out, &mut length);
    (answer, String::from_utf8_lossy(&out[..length]).into())
}

fn second_print(rule: &Rule) -> (u8, String) {
    let mut out = [0; 1024];
    match second::print(rule, &mut out) {
        Ok(length) => (0, String::from_utf8_lossy(&out[..length]).into()),
        Err(refusal) => (refusal, String::new()),
    }
}

fn empty_tables() -> OwnTables {
    OwnTables {
        masks: vec![0; 128],
        starts: vec![0; 129],
        accepts: vec![0; 128],
        edges: vec![0; 8192],
        states: 0,
        edge_count: 0,
    }
}

fn build(rule: &Rule) -> (u8, OwnTables) {
    let mut own = empty_tables();
    let answer = library::build(&RuleBytes::of(rule), &mut own);
    (answer, own)
}

fn second_build(rule: &Rule) -> (u8, OwnTables) {
    match second::build_own(rule) {
        Ok(own) => (0, own),
        Err(refusal) => (refusal, empty_tables()),
    }
}

/// What the search answers, and the dates.
fn fit(own: &OwnTables) -> (u8, Vec<u8>) {
    let (mut out, mut dates) = ([0; 127], 0);
    let answer = library::fit(&own.lend(), &mut out, &mut dates);
    (answer, out[..dates].to_vec())
}

fn second_fit(own: &OwnTables) -> (u8, Vec<u8>) {
    let mut out = [0; 127];
    match second::fit(&own.lend(), &mut out) {
        Ok(Some(dates)) => (1, out[..dates].to_vec()),
        Ok(None) => (0, vec![]),
        Err(refusal) => (refusal, vec![]),
    }
}

fn nested(pairs: usize) -> String {
    "(".repeat(pairs) + "a" + &")".repeat(pairs)
}

/// `a & b & a ..`, so many operands.
fn alternating(operands: usize) -> String {
    let flags: Vec<&str> = (0..operands).map(|k| ["a", "b"][k % 2]).collect();
    flags.join(" & ")
}

fn copies(number: usize) -> String {
    vec!["(a | b)"; number].join(" & ")
}

/// Texts with the answer, the count or the place, and what was wanted.
type Readings = Vec<(String, (u8, usize, u8))>;

fn finite_readings() -> Readings {
    vec![
        (nested(32), (0, 1, 0)),
        (nested(33), (4, 32, 0)),
        ("a)".into(), (2, 1, 2)),
        ("".into(), (3, 0, 1)),
        ("a -b".into(), (2, 3, 3)),
        ("-".into(), (2, 0, 1)),
        ("(a".into(), (3, 2, 2)),
        ("a -".into(), (3, 3, 3)),
        (alternating(63), (0, 64, 0)),
        (alternating(64), (5, 253, 0)),
        ("X".repeat(32) + "a -> b", (0, 35, 0)),
        ("X ".repeat(32) + "a -> b", (0, 35, 0)),
        ("X ".repeat(32) + "(a)", (4, 64, 0)),
    ]
}

/// As under finite, but for the number of formulas.
fn last_readings() -> Readings {
    let mut cases = finite_readings();
    cases.retain(|(text, _)| *text != alternating(63));
    cases.push((alternating(62), (0, 63, 0)));
    cases.push((alternating(63), (5, 249, 0)));
    cases
}

/// Before all else that could be said of these texts.
fn unknown_readings() -> Readings {
    let texts = ["a".into(), "".into(), "a -b".into(), "a".repeat(1025)];
    texts.map(|text| (text, (12, 0, 0))).to_vec()
}

fn reading(group: &mut Group) {
    let unknown = [2, 3, 127, 128, 255].map(|number| (number, unknown_readings()));
    let known = [(FINITE, finite_readings()), (LAST, last_readings())];
    for (profile, cases) in known.into_iter().chain(unknown) {
        for (text, said) in cases {
            let (library, second) = (read(profile, &text), second_read(profile, &text));
            group.compare(library, second, || text.clone());
            held(group, &text, library.0, second.0, said);
        }
    }
}

fn printing(group: &mut Group, profile: Profile) {
    let cases = [
        ("X ".repeat(32) + "a -> b", (7, "")),
        (vec!["1 U a"; 11].join(" U ") + " U 1", (7, "")),
        ("(1 U a) U b".into(), (0, "F a U b")),
        ("1 U a U b".into(), (0, "F (a U b)")),
        ("a & (b & c)".into(), (0, "a & (b & c)")),
        ("(a U b) U c".into(), (0, "(a U b) U c")),
        ("a U b U c".into(), (0, "a U b U c")),
        ("!(a -> X b)".into(), (0, "a & N !b")),
    ];
    for (text, (answer, printed)) in cases {
        let rule = sound(group, profile.number(), &text);
        let said = (answer, printed.to_string());
        held(group, &text, print(&rule), second_print(&rule), said);
    }
    let rule = doubled(profile);
    let said = (7, String::new());
    let printed = (print(&rule), second_print(&rule));
    held(group, "p & p over and over", printed.0, printed.1, said);
}

/// Rules that would be sound under another profile, or with one.
fn no_rules(group: &mut Group) {
    let of_64 = sound(group, FINITE, &alternating(63));
    let small = sound(group, LAST, "a U b");
    let unknown = [2, 3, 127, 128, 255].map(|profile| (profile, &small));
    for (profile, rule) in [(LAST, &of_64)].into_iter().chain(unknown) {
        let rule = Rule {
            profile,
            ..rule.clone()
        };
        let case = format!("{} formulas under {profile}", rule.count);
        let given = RuleBytes::of(&rule);
        let second_says = u8::from(second::is_rule(&rule));
        held(group, &case, library::is_rule(&given), second_says, 0);
        held(group, &case, print(&rule).0, second_print(&rule).0, 6);
        held(
            group,
            &case,
            build(&rule),
            second_build(&rule),
            (6, empty_tables()),
        );
        let plain = library::judge_plain(&given, &[1]);
        let second = second::judge_plain(&rule, &[1]);
        held(
            group,
            &case,
            plain,
            second.map_or_else(|refusal| refusal, u8::from),
            6,
        );
    }
}

/// The answer and the counts of a build, every entry held to the second program's.
fn building(group: &mut Group, case: &str, rule: &Rule, said: (u8, usize, usize)) -> OwnTables {
    let counts = |(answer, own): &(u8, OwnTables)| (*answer, own.states, own.edge_count);
    let (library, second) = (build(rule), second_build(rule));
    held(group, case, counts(&library), counts(&second), said);
    group.compare(&library, &second, || case.to_string());
    library.1
}

fn sizes(group: &mut Group, profile: Profile) {
    let cases = [
        (copies(10), (0, 2, 4)),
        (copies(11), (9, 0, 0)),
        ("a U b".into(), (0, 2, 3)),
    ];
    for (text, said) in cases {
        let rule = sound(group, profile.number(), &text);
        building(group, &text, &rule, said);
    }
    building(group, "p & p over and over", &doubled(profile), (0, 2, 2));
}

/// Rule, series, answer.
type Judgement = (&'static str, &'static [u8], u8);

/// The cases that are proved as well.
const FINITE_JUDGEMENTS: &[Judgement] = &[
    ("a", &[], 0),
    ("!a", &[], 1),
    ("N a", &[0x00], 0),
    ("X !a", &[0x00], 1),
    ("G a", &[0x01], 0),
    ("F !a", &[0x01], 1),
    ("G (a | N 0)", &[0x01, 0x01], 1),
    ("G (a | N 0)", &[0x01, 0x00], 0),
    ("a R b", &[0x02, 0x03], 1),
];

const LAST_JUDGEMENTS: &[Judgement] = &[
    ("1", &[], 0),
    ("a", &[], 0),
    ("!a", &[], 0),
    ("!(a & b)", &[], 0),
    ("N 0", &[], 0),
    ("G a", &[], 0),
    ("a", &[0x01], 1),
    ("N a", &[0x00], 1),
    ("N a", &[0x00, 0x00], 0),
    ("X 1", &[0x00], 0),
    ("X !a", &[0x00], 0),
    ("X 1", &[0x00, 0x00], 1),
    ("G a", &[0x01], 1),
    ("F !a", &[0x01], 0),
    ("a U !a", &[0x01, 0x01], 0),
    ("G (a | N 0)", &[0x01, 0x00], 1),
    ("a R b", &[0x02], 1),
    ("a R b", &[0x02, 0x03], 1),
    ("a R b", &[0x02, 0x01], 0),
];

/// Plainly and by tables.
fn judging(group: &mut Group, profile: u8, cases: &[Judgement]) {
    for &(text, series, said) in cases {
        let rule = sound(group, profile, text);
        let plain = library::judge_plain(&RuleBytes::of(&rule), series);
        let second = second::judge_plain(&rule, series).map_or(6, u8::from);
        held(group, text, plain, second, said);
        let own = build(&rule).1;
        let by_tables = library::judge_tables(&own.lend(), series);
        let second = second::judge_tables(&own.lend(), series).map_or(10, u8::from);
        held(group, text, by_tables, second, said);
    }
}

/// Rule; the build's answer and counts; the search's answer and dates.
type Fitting = (&'static str, (u8, usize, usize), (u8, &'static [u8]));

/// The tables and fits that are proved as well.
const FINITE_FITTINGS: &[Fitting] = &[
    ("a U (b R c)", (0, 3, 6), (1, &[0x06])),
    ("G a", (0, 1, 1), (0, &[])),
    ("!X 1", (0, 2, 1), (1, &[])),
];

const LAST_FITTINGS: &[Fitting] = &[
    ("a U b", (0, 2, 3), (1, &[0x02])),
    ("X a", (0, 3, 3), (1, &[0x00, 0x01])),
    ("N a", (0, 3, 3), (1, &[0x00])),
    ("G a", (0, 2, 2), (1, &[0x01])),
    ("1", (0, 2, 2), (1, &[0x00])),
    ("0", (0, 1, 0), (0, &[])),
    ("G X 1", (0, 2, 2), (0, &[])),
    ("X a | N a", (0, 4, 5), (1, &[0x00])),
];

fn fitting(group: &mut Group, profile: u8, cases: &[Fitting]) {
    for &(text, sizes, (answer, dates)) in cases {
        let rule = sound(group, profile, text);
        let own = building(group, text, &rule, sizes);
        let said = (answer, dates.to_vec());
        held(group, text, fit(&own), second_fit(&own), said);
    }
}

/// Entries that are said one by one.
fn entries(group: &mut Group) {
    let made = build(&sound(group, FINITE, "a U (b R c)")).1;
    let said = vec![0x0001_0006, 0x0002_0004, 0x0000_0001];
    group.compare(made.edges[..3].to_vec(), said, || {
        "row 0 of a U (b R c)".into()
    });
    const MARK: u64 = 1 << 63;
    for (text, masks) in [
        ("X a", [MARK | 2, MARK | 1, 0]),
        ("N a", [MARK | 2, 1, 0]),
        ("a U b", [MARK | 4, 0, 0]),
        ("G a", [MARK | 4, 4, 0]),
    ] {
        let made = build(&sound(group, LAST, text)).1;
        group.compare(&made.masks[..3], &masks, || format!("masks of {text}"));
    }
}

/// The listing, byte for byte, with and without its last newline.
fn listing(group: &mut Group) {
    let printed = "rule 2 states 3 edges\n1 yes\n2 no\n3 no\n4 yes\nfit 02\n";
    for input in ["a U b\n0102\n01\n\n03\n", "a U b\n0102\n01\n\n03"] {
        let (library, second) = program::both(input.as_bytes(), usize::MAX);
        let said = Some(printed.as_bytes().to_vec());
        held(group, "the listing", library, second, said);
    }
}

pub fn all(_: &mut Random, _: usize) -> Group {
    let no_answers: [u8; 0] = [];
    let mut group = Group::new("cases", &no_answers);
    reading(&mut group);
    no_rules(&mut group);
    for profile in Profile::ALL {
        printing(&mut group, profile);
        sizes(&mut group, profile);
    }
    judging(&mut group, FINITE, FINITE_JUDGEMENTS);
    judging(&mut group, LAST, LAST_JUDGEMENTS);
    fitting(&mut group, FINITE, FINITE_FITTINGS);
    fitting(&mut group, LAST, LAST_FITTINGS);
    entries(&mut group);
    listing(&mut group);
    group
}
