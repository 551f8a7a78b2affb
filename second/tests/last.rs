//! The profile last: its meaning by the list itself, its tables worked out by hand, its limits.

use second::generator::*;
use second::text::{Binary, Prefix};
use second::*;

const MARK: u64 = 1 << 63;

fn rule(text: &str) -> Rule {
    read(LAST, text.as_bytes()).unwrap()
}

fn tables(text: &str) -> OwnTables {
    build_own(&rule(text)).unwrap()
}

/// The answer, the same one by the tree, by the rule and by its tables.
fn judged(text: &str, series: &[u8]) -> bool {
    let tree = read_tree(text.as_bytes()).unwrap();
    let holds = tree_holds(Profile::Last, &tree, series);
    let tabled = judge_tables(&tables(text).lend(), series);
    assert_eq!(judge_plain(&rule(text), series), Ok(holds), "{text}");
    assert_eq!(tabled, Ok(holds), "{text}");
    holds
}

fn fitting(text: &str) -> Option<Vec<u8>> {
    let mut room = [0; 127];
    let length = fit(&tables(text).lend(), &mut room).unwrap()?;
    Some(room[..length].to_vec())
}

#[test]
fn no_dates_are_always_answered_no() {
    let texts = [
        "1", "!0", "!a", "!(a)", "!!a", "a", "0", "N 0", "N a", "X 1", "G a", "!F a", "!X 1",
        "!G !a", "F !a", "a R b", "!(a U b)", "a -> b", "0 -> 0",
    ];
    for text in texts {
        assert!(!judged(text, &[]), "{text}");
        assert!(!judged(&format!("!({text})"), &[]), "!({text})");
    }
}

#[test]
fn the_last_date() {
    assert!(judged("N a", &[0x00]) && judged("N 0", &[0x00]));
    assert!(!judged("X 1", &[0x00]) && !judged("X !a", &[0x00]));
    assert!(judged("X 1", &[0x00, 0x00]) && !judged("N a", &[0x00, 0x00]));
    assert!(!judged("F !a", &[0x01]) && judged("F !a", &[0x01, 0x00]));
    assert!(judged("G a", &[0x01]) && !judged("G a", &[0x01, 0x00]));
    assert!(judged("a", &[0x01]) && judged("1", &[0x00]));
}

#[test]
fn until_and_release_look_at_dates_only() {
    assert!(!judged("a U !a", &[0x01, 0x01]));
    assert!(judged("a R b", &[0x02]) && judged("a R b", &[0x02, 0x03, 0x00]));
    assert!(!judged("a R b", &[0x02, 0x01]));
    assert!(judged("G (a | N 0)", &[0x01, 0x00]));
    assert!(!judged("G X 1", &[0x00, 0x00]) && judged("F N 0", &[0x00, 0x00]));
}

/// The list of the meaning, word for word on suffixes, of which each has a date.
fn listed(tree: &Tree, suffix: &[u8]) -> bool {
    let from = |i: usize| &suffix[i..];
    let mut places = 0..suffix.len();
    match tree {
        Tree::True => true,
        Tree::False => false,
        Tree::Flag(flag) => suffix[0] >> flag & 1 == 1,
        Tree::Under(Prefix::Not, p) => !listed(p, suffix),
        Tree::Under(Prefix::Next, p) => suffix.len() > 1 && listed(p, from(1)),
        Tree::Under(Prefix::WeakNext, p) => suffix.len() == 1 || listed(p, from(1)),
        Tree::Under(Prefix::Eventually, p) => places.any(|i| listed(p, from(i))),
        Tree::Under(Prefix::Always, p) => places.all(|i| listed(p, from(i))),
        Tree::Between(Binary::And, p, q) => listed(p, suffix) && listed(q, suffix),
        Tree::Between(Binary::Or, p, q) => listed(p, suffix) || listed(q, suffix),
        Tree::Between(Binary::Implies, p, q) => !listed(p, suffix) || listed(q, suffix),
        Tree::Between(Binary::Until, p, q) => {
            places.any(|i| listed(q, from(i)) && (0..i).all(|j| listed(p, from(j))))
        }
        Tree::Between(Binary::Release, p, q) => {
            let released = |i: usize| listed(p, from(i)) && (0..=i).all(|j| listed(q, from(j)));
            places.clone().all(|i| listed(q, from(i))) || places.any(released)
        }
    }
}

#[test]
fn the_meaning_is_the_list() {
    let mut random = Random::new(FIXED_SEED);
    let mut answers = [0; 2];
    for _ in 0..20_000 {
        let text = small_text(&mut random);
        let (Ok(tree), Ok(rule)) = (read_tree(&text), read(LAST, &text)) else {
            continue;
        };
        let series: Vec<u8> = (0..random.below(6)).map(|_| random.byte()).collect();
        let said = !series.is_empty() && listed(&tree, &series);
        let shown = String::from_utf8_lossy(&text);
        assert_eq!(judge_plain(&rule, &series), Ok(said), "{shown} {series:?}");
        answers[usize::from(said)] += 1;
    }
    assert!(answers.iter().all(|&met| met > 4_000), "{answers:?}");
}

#[test]
fn negation_exchanges_the_answers_of_all_but_no_dates() {
    let mut random = Random::new(FIXED_SEED + 1);
    for _ in 0..10_000 {
        let text = small_text(&mut random);
        let negated = [b"!(", &text[..], b")"].concat();
        let (Ok(plain), Ok(negated)) = (read(LAST, &text), read(LAST, &negated)) else {
            continue;
        };
        let series = any_series(&mut random);
        let answers = [&plain, &negated].map(|rule| judge_plain(rule, &series).unwrap());
        if series.is_empty() {
            assert_eq!(answers, [false, false]);
        } else {
            assert_ne!(answers[0], answers[1]);
        }
    }
}

/// The entries in use: masks, accept bytes, starts and edges.
#[derive(Debug, PartialEq)]
struct Used<'a> {
    masks: &'a [u64],
    accepts: &'a [u8],
    starts: &'a [u16],
    edges: &'a [u32],
}

fn used(made: &OwnTables) -> Used<'_> {
    Used {
        masks: &made.masks[..made.states],
        accepts: &made.accepts[..made.states],
        starts: &made.starts[..=made.states],
        edges: &made.edges[..made.edge_count],
    }
}

fn has_tables(text: &str, masks: &[u64], accepts: &[u8], starts: &[u16], edges: &[u32]) {
    let said = Used {
        masks,
        accepts,
        starts,
        edges,
    };
    assert_eq!(used(&tables(text)), said, "{text}");
}

#[test]
fn tables_without_a_next() {
    let start = MARK | 1;
    has_tables("1", &[start, 0], &[0, 1], &[0, 1, 2], &[0x1_0000; 2]);
    has_tables("0", &[start], &[0], &[0, 0], &[]);
    let edges = [0x1_0100, 0x1_0000];
    has_tables("!a", &[start, 0], &[0, 1], &[0, 1, 2], &edges);
}

#[test]
fn tables_of_both_nexts() {
    // Formulas: a, the whole.
    let edges = [0x1_0000, 0x2_0001, 0x2_0000];
    let strong = [MARK | 2, MARK | 1, 0];
    has_tables("X a", &strong, &[0, 0, 1], &[0, 1, 2, 3], &edges);
    let weak = [MARK | 2, 1, 0];
    has_tables("N a", &weak, &[0, 1, 1], &[0, 1, 2, 3], &edges);
}

#[test]
fn tables_of_until_and_release() {
    // Formulas: a, b, the whole. Until leads back to the start.
    let edges = [0x1_0002, 0x0_0001, 0x1_0000];
    has_tables("a U b", &[MARK | 4, 0], &[0, 1], &[0, 2, 3], &edges);
    // Release leads to the start's unmarked twin.
    let edges = [0x1_0003, 0x2_0002, 0x1_0000, 0x1_0003, 0x2_0002];
    let masks = [MARK | 4, 0, 4];
    has_tables("a R b", &masks, &[0, 1, 1], &[0, 2, 3, 5], &edges);
    // Formulas: 0, a, the whole.
    has_tables("G a", &[MARK | 4, 4], &[0, 1], &[0, 1, 2], &[0x1_0001; 2]);
}

#[test]
fn marks_tell_states_and_edges_apart() {
    // Formulas: a, X a, N a, the whole.
    let masks = [MARK | 8, MARK | 1, 1, 0];
    let edges = [0x1_0000, 0x2_0000, 0x3_0001, 0x3_0001, 0x3_0000];
    let (accepts, starts) = ([0, 0, 1, 1], [0, 2, 3, 4, 5]);
    has_tables("X a | N a", &masks, &accepts, &starts, &edges);
    // A choice repeated with the same mark is still one edge.
    assert_eq!(tables("X a | X a").edge_count, 3);
}

#[test]
fn one_strong_next_marks_a_joined_target() {
    let target = |text: &str| tables(text).masks[1];
    assert_eq!(target("X a & N b"), MARK | 5);
    assert_eq!(target("N a & X b"), MARK | 5);
    assert_eq!(target("N a & N b"), 5);
}

#[test]
fn marks_are_of_the_profile_last_alone() {
    for_each_rule(|finite, last| {
        let (finite, last) = (build_own(finite), build_own(last));
        if let Ok(made) = &finite {
            assert!(made.masks.iter().all(|mask| mask & MARK == 0));
        }
        if let Ok(made) = &last {
            assert_ne!(made.masks[0] & MARK, 0);
            for (mask, accept) in made.masks.iter().zip(&made.accepts).take(made.states) {
                assert_eq!(*accept == 1, mask & MARK == 0);
            }
            // Twins apart, the sets are the same, so nothing is refused for finite alone.
            assert!(finite.is_ok_and(|finite| finite.states <= made.states));
        }
    });
}

/// Rules that both profiles have, each under both.
fn for_each_rule(check: impl Fn(&Rule, &Rule)) {
    let mut random = Random::new(FIXED_SEED + 2);
    for _ in 0..5_000 {
        let last = random_rule(&mut random, Profile::Last);
        let finite = Rule {
            profile: FINITE,
            ..last.clone()
        };
        check(&finite, &last);
    }
}

#[test]
fn fits_have_a_date() {
    assert_eq!(fitting("1"), Some(vec![0x00]));
    assert_eq!(fitting("!a"), Some(vec![0x00]));
    assert_eq!(fitting("!X 1"), Some(vec![0x00]));
    assert_eq!(fitting("G a"), Some(vec![0x01]));
    assert_eq!(fitting("X 1"), Some(vec![0x00, 0x00]));
    assert_eq!(fitting("a U (b R c)"), Some(vec![0x04]));
    assert_eq!(fitting("0"), None);
    assert_eq!(fitting("G X 1"), None);
}

#[test]
fn at_most_63_formulas() {
    assert_eq!(read(LAST, &alternating_text(62)).unwrap().count, 63);
    let text = alternating_text(63);
    assert_eq!(read(LAST, &text), Err(Refusal::at(5, text.len())));
    assert_eq!(read(FINITE, &text).unwrap().count, 64);
    for text in lasting_texts(63) {
        let made = build_own(&read(LAST, &text).unwrap()).unwrap();
        assert_eq!(made.masks[0], MARK | 1 << 62);
    }
    for text in lasting_texts(64) {
        assert_eq!(read(LAST, &text), Err(Refusal::at(5, text.len())));
        let made = build_own(&read(FINITE, &text).unwrap()).unwrap();
        assert_eq!(made.masks[0], 1 << 63);
    }
}

#[test]
fn a_rule_of_64_is_none() {
    let mut of_64 = read(FINITE, &alternating_text(63)).unwrap();
    assert!(is_rule(&of_64));
    of_64.profile = LAST;
    assert!(!is_rule(&of_64));
    assert_eq!(judge_plain(&of_64, &[]), Err(6));
    assert_eq!(print(&of_64, &mut []), Err(6));
    assert_eq!(build_own(&of_64), Err(6));
    assert_eq!(build(&of_64, &mut [], &mut [], &mut [], &mut []), Err(6));
}

#[test]
fn unknown_profiles() {
    let refusal = Refusal::at(12, 0);
    for number in 2..=u8::MAX {
        for text in [&b"a"[..], b"", b")", b"a -b", &[b'a'; 1025], &[b'!'; 40]] {
            assert_eq!(read(number, text), Err(refusal));
        }
        let unknown = Rule {
            profile: number,
            ..rule("a U b")
        };
        assert!(!is_rule(&unknown));
        assert_eq!(judge_plain(&unknown, &[]), Err(6));
        assert_eq!(print(&unknown, &mut []), Err(6));
        assert_eq!(build_own(&unknown), Err(6));
        assert_eq!(build(&unknown, &mut [], &mut [], &mut [], &mut []), Err(6));
    }
    assert_eq!((refusal.place, refusal.wanted_number()), (0, 0));
}

#[test]
fn limits_of_marked_tables() {
    let built = |profile: u8, text: &[u8]| {
        build_own(&read(profile, text).unwrap()).map(|made| (made.states, made.starts[1]))
    };
    assert_eq!(built(LAST, &marked_states_text(127)).unwrap().0, 127);
    assert_eq!(built(LAST, &marked_states_text(128)).unwrap().0, 128);
    assert_eq!(built(LAST, &marked_states_text(129)), Err(9));
    assert_eq!(built(FINITE, &marked_states_text(129)).unwrap().0, 87);
    assert_eq!(built(LAST, &marked_edges_text(63)), Ok((4, 63)));
    assert_eq!(built(LAST, &marked_edges_text(64)), Ok((4, 64)));
    assert_eq!(built(LAST, &marked_edges_text(65)), Err(9));
    assert_eq!(built(FINITE, &marked_edges_text(65)), Ok((3, 33)));
    assert_eq!(built(LAST, &choices_text(1024)), Ok((2, 3)));
    assert_eq!(built(LAST, &choices_text(1025)), Err(9));
    assert_eq!(built(LAST, &states_text(127)), Err(9));
}

#[test]
fn the_longest_fit() {
    let made = tables(std::str::from_utf8(&long_fit_text()).unwrap());
    assert_eq!(fit(&made.lend(), &mut [0; 127]), Ok(Some(127)));
}
