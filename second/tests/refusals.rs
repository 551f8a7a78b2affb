//! Each refusal by its number, its order among the others, and what it leaves alone.

use second::generator::*;
use second::*;

fn rule(text: &str) -> Rule {
    read(FINITE, text.as_bytes()).unwrap()
}

fn of(count: usize, formulas: &[Entry]) -> Rule {
    let mut entries = [Entry::False; 64];
    entries[..formulas.len()].copy_from_slice(formulas);
    Rule {
        profile: FINITE,
        count,
        entries,
    }
}

fn reading(text: &str) -> (u8, usize, Option<Wanted>) {
    let refusal = read(FINITE, text.as_bytes()).unwrap_err();
    (refusal.number, refusal.place, refusal.wanted)
}

#[test]
fn two_wanting_an_operand() {
    let operand = Some(Wanted::Operand);
    assert_eq!(reading("a & & b"), (2, 4, operand));
    assert_eq!(reading("()"), (2, 1, operand));
    assert_eq!(reading("i"), (2, 0, operand));
    assert_eq!(reading("-"), (2, 0, operand));
    assert_eq!(reading("- a"), (2, 0, operand));
    assert_eq!(reading("a ->> b"), (2, 4, operand));
}

#[test]
fn two_wanting_an_operator() {
    let operator = Some(Wanted::Operator);
    assert_eq!(reading("a b"), (2, 2, operator));
    assert_eq!(reading("a)"), (2, 1, operator));
    assert_eq!(reading("(a))"), (2, 3, operator));
    assert_eq!(reading("(a)b"), (2, 3, operator));
    assert_eq!(reading("a\tb"), (2, 1, operator));
    assert_eq!(reading("a > b"), (2, 2, operator));
}

#[test]
fn two_wanting_an_arrow() {
    let arrow = Some(Wanted::Arrow);
    assert_eq!(reading("a -b"), (2, 3, arrow));
    assert_eq!(reading("a- >b"), (2, 2, arrow));
    assert_eq!(reading("a - > b"), (2, 3, arrow));
    assert_eq!(reading("(a--> b)"), (2, 3, arrow));
}

#[test]
fn three_by_what_was_wanted() {
    let operand = Some(Wanted::Operand);
    assert_eq!(reading(""), (3, 0, operand));
    assert_eq!(reading("   "), (3, 3, operand));
    assert_eq!(reading("!"), (3, 1, operand));
    assert_eq!(reading("a U"), (3, 3, operand));
    assert_eq!(reading(" a U "), (3, 5, operand));
    assert_eq!(reading("a ->"), (3, 4, operand));
    assert_eq!(reading("a -> "), (3, 5, operand));
    assert_eq!(reading("(a"), (3, 2, Some(Wanted::Operator)));
    assert_eq!(reading("((a) "), (3, 5, Some(Wanted::Operator)));
    assert_eq!(reading("a -"), (3, 3, Some(Wanted::Arrow)));
    assert_eq!(reading("(a-"), (3, 3, Some(Wanted::Arrow)));
}

#[test]
fn the_others_want_nothing() {
    let long = "a".repeat(1025);
    assert_eq!(reading(&long), (1, 1024, None));
    assert_eq!(reading(&"!".repeat(33)), (4, 32, None));
    let many = String::from_utf8(alternating_text(64)).unwrap();
    assert_eq!(reading(&many), (5, many.len(), None));
}

#[test]
fn wanted_by_number() {
    let refusal = Refusal::at(2, 0);
    let wanting = |wanted| refusal.wanting(wanted).wanted_number();
    assert_eq!(refusal.wanted_number(), 0);
    assert_eq!(
        [Wanted::Operand, Wanted::Operator, Wanted::Arrow].map(wanting),
        [1, 2, 3]
    );
}

#[test]
fn six_for_every_call() {
    let bad = of(0, &[]);
    let (mut masks, mut starts) = ([7; 128], [7; 129]);
    let (mut accepts, mut edges) = ([7; 128], [7; 8192]);
    assert_eq!(judge_plain(&bad, &[]), Err(6));
    assert_eq!(print(&bad, &mut []), Err(6));
    assert_eq!(build(&bad, &mut [], &mut [], &mut [], &mut []), Err(6));
    assert_eq!(
        build(&bad, &mut masks, &mut starts, &mut accepts, &mut edges),
        Err(6)
    );
    assert!(masks == [7; 128] && starts == [7; 129] && accepts == [7; 128] && edges == [7; 8192]);
}

#[test]
fn six_by_kind() {
    use Entry::*;
    assert!(is_rule(&of(1, &[False])) && is_rule(&of(1, &[Flag(7)])));
    assert!(is_rule(&of(3, &[Flag(0), NotFlag(0), And(0, 1)])));
    let bad = [
        of(65, &[Flag(0); 64]),
        of(usize::MAX, &[]),
        of(1, &[Flag(8)]),
        of(1, &[Next(0)]),
        of(1, &[Flag(0), True]),
        of(2, &[Flag(0), Flag(0)]),
        of(2, &[Flag(0), Flag(1)]),
        of(2, &[Flag(0), Next(1)]),
        of(3, &[Flag(0), Flag(1), And(1, 0)]),
        of(3, &[Flag(0), Flag(0), And(0, 1)]),
        of(3, &[Flag(0), Flag(1), Next(0)]),
        of(4, &[Flag(0), Flag(1), And(0, 1), Next(0)]),
        of(5, &[Flag(0), Next(0), Next(0), Or(1, 2), Next(3)]),
    ];
    for rule in bad {
        assert!(!is_rule(&rule), "{rule:?}");
        assert_eq!(judge_plain(&rule, &[]), Err(6));
    }
}

#[test]
fn seven_beyond_measure() {
    // Each formula doubles the one before it.
    let formulas: Vec<Entry> = (0..63).fold(vec![Entry::Flag(0)], |mut formulas, p| {
        formulas.push(Entry::And(p, p));
        formulas
    });
    let long = of(64, &formulas);
    let mut room = [7; 1100];
    assert_eq!(print(&long, &mut room), Err(7));
    assert_eq!(print(&long, &mut room[..1023]), Err(8));
    assert_eq!(room, [7; 1100]);
}

#[test]
fn eight_for_each_slice() {
    let fine = rule("a U b");
    let (mut masks, mut starts) = ([7u64; 128], [7u16; 129]);
    let (mut accepts, mut edges) = ([7u8; 128], [7u32; 8192]);
    for short in 0..4 {
        let size = |full: usize, which: usize| full - usize::from(short == which);
        let done = build(
            &fine,
            &mut masks[..size(128, 0)],
            &mut starts[..size(129, 1)],
            &mut accepts[..size(128, 2)],
            &mut edges[..size(8192, 3)],
        );
        assert_eq!(done, Err(8));
    }
    assert!(masks == [7; 128] && starts == [7; 129] && accepts == [7; 128] && edges == [7; 8192]);
    let bad = Tables {
        states: 0,
        edge_count: 0,
        starts: &[],
        accepts: &[],
        edges: &[],
    };
    assert_eq!(fit(&bad, &mut [0; 126]), Err(8));
    assert_eq!(fit(&bad, &mut [0; 127]), Err(10));
    assert_eq!(print(&fine, &mut [0; 1023]), Err(8));
}

#[test]
fn building_zeroes_up_to_the_sizes_only() {
    let eleven = ["(a | b)"; 11].join(" & ");
    for (text, done) in [("a U b", Ok((2, 3))), (eleven.as_str(), Err(9))] {
        let (mut masks, mut starts) = ([7; 130], [7; 130]);
        let (mut accepts, mut edges) = ([7; 130], [7; 8200]);
        assert_eq!(
            build(
                &rule(text),
                &mut masks,
                &mut starts,
                &mut accepts,
                &mut edges
            ),
            done
        );
        let (states, used) = done.unwrap_or_default();
        assert!(masks[states..128].iter().all(|&mask| mask == 0) && masks[128..] == [7; 2]);
        assert!(starts[states + 1..129].iter().all(|&start| start == 0) && starts[129..] == [7; 1]);
        assert!(accepts[states..128].iter().all(|&accept| accept == 0) && accepts[128..] == [7; 2]);
        assert!(edges[used..8192].iter().all(|&edge| edge == 0) && edges[8192..] == [7; 8]);
        assert_eq!(usize::from(starts[states]), used);
    }
}

#[test]
fn printing_and_fitting_touch_only_the_front() {
    let mut room = [7; 1030];
    assert_eq!(print(&rule("1 U !a"), &mut room), Ok(4));
    assert_eq!(&room[..4], b"F !a");
    assert!(room[4..].iter().all(|&byte| byte == 7));
    let mut room = [7; 130];
    let made = build_own(&rule("a & X b")).unwrap();
    assert_eq!(fit(&made.lend(), &mut room), Ok(Some(2)));
    assert_eq!(room[..3], [1, 2, 7]);
    let none = build_own(&rule("G a")).unwrap();
    let mut room = [7; 130];
    assert_eq!(fit(&none.lend(), &mut room), Ok(None));
    assert_eq!(room, [7; 130]);
}

#[test]
fn ten_for_every_badness() {
    let mut random = Random::new(FIXED_SEED);
    for badness in (0..BADNESSES).cycle().take(BADNESSES * 100) {
        let tables = damaged_tables(&mut random, badness);
        let tables = tables.lend();
        assert!(!good_tables(&tables), "{badness} {tables:?}");
        let mut walk = begin();
        assert_eq!(step(&tables, &mut walk, 0), Err(10));
        assert_eq!(walk, begin());
        assert_eq!(answer(&tables, &walk), Err(10));
        assert_eq!(closed(&tables, &walk), Err(10));
        assert_eq!(judge_tables(&tables, &[1]), Err(10));
        let mut room = [7; 127];
        assert_eq!(fit(&tables, &mut room), Err(10));
        assert_eq!(room, [7; 127]);
    }
}

#[test]
fn ten_for_a_bad_walk() {
    let made = build_own(&rule("a U b")).unwrap();
    let tables = made.lend();
    for mut walk in [
        Walk { low: 4, high: 0 },
        Walk {
            low: 1,
            high: 1 << 63,
        },
        Walk {
            low: u64::MAX,
            high: 0,
        },
    ] {
        let given = walk;
        assert_eq!(step(&tables, &mut walk, 1), Err(10));
        assert_eq!(walk, given);
        assert_eq!(
            (answer(&tables, &walk), closed(&tables, &walk)),
            (Err(10), Err(10))
        );
    }
    let mut walk = Walk { low: 3, high: 0 };
    assert_eq!(step(&tables, &mut walk, 0), Ok(()));
    assert_eq!(walk, Walk { low: 2, high: 0 });
    let mut walk = Walk { low: 1, high: 0 };
    assert_eq!(step(&tables, &mut walk, 0), Ok(()));
    assert_eq!(
        (answer(&tables, &walk), closed(&tables, &walk)),
        (Ok(false), Ok(true))
    );
}

#[test]
fn good_tables_hold_noise_past_the_counts() {
    let tables = Tables {
        states: 1,
        edge_count: 1,
        starts: &[0, 1, 0, 9999],
        accepts: &[1, 200],
        edges: &[0x0000_0201, 0xffff_ffff],
    };
    assert!(good_tables(&tables));
    assert_eq!(judge_tables(&tables, &[1, 5]), Ok(true));
    assert_eq!(judge_tables(&tables, &[1, 3]), Ok(false));
}
