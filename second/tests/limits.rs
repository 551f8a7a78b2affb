//! The generator's texts stand where they say, one step on each side of a limit.

use second::generator::*;
use second::{build_own, fit, judge_plain, print, read, read_tree, Refusal, Wanted, FINITE};

#[test]
fn lengths() {
    assert!(read(FINITE, &balanced_text(1023)).is_ok());
    assert!(read(FINITE, &balanced_text(1024)).is_ok());
    let too_long = Refusal::at(1, 1024);
    assert_eq!(read(FINITE, &balanced_text(1025)), Err(too_long));
    // Length comes first, whatever else is wrong.
    assert_eq!(read(FINITE, &[b')'; 1025]), Err(too_long));
}

#[test]
fn depths() {
    for text in depth_texts(31) {
        assert!(read_tree(&text).is_ok());
    }
    for text in depth_texts(33) {
        assert_eq!(
            read(FINITE, &text).unwrap_err().number,
            4,
            "{}",
            String::from_utf8_lossy(&text)
        );
    }
}

#[test]
fn depths_at_the_limit_have_no_room() {
    for text in depth_texts(32) {
        assert!(
            read_tree(&text).is_ok(),
            "{}",
            String::from_utf8_lossy(&text)
        );
        // One sign more around the innermost operand is one too many.
        let inner = text.iter().rposition(u8::is_ascii_lowercase).unwrap();
        for (sign, refusal) in [
            ("!", Refusal::at(4, inner)),
            ("(", Refusal::at(4, inner)),
            ("x", Refusal::at(2, inner).wanting(Wanted::Operand)),
        ] {
            let damaged = [&text[..inner], sign.as_bytes(), &text[inner..]].concat();
            assert_eq!(read(FINITE, &damaged), Err(refusal));
        }
    }
}

#[test]
fn a_dash_at_the_limit() {
    let deep = [b"a->".repeat(32), b"a".to_vec()].concat();
    let with = |more: &str| read(FINITE, &[&deep, more.as_bytes()].concat());
    assert!(with("").is_ok() && with("&a|a").is_ok());
    let refused = |number: u8, further: usize| Refusal::at(number, deep.len() + further);
    for (more, refusal) in [
        ("-", refused(3, 1).wanting(Wanted::Arrow)),
        ("- >", refused(2, 1).wanting(Wanted::Arrow)),
        ("-x", refused(2, 1).wanting(Wanted::Arrow)),
        ("->", refused(4, 0)),
        ("  ->x", refused(4, 2)),
        ("U", refused(4, 0)),
    ] {
        assert_eq!(with(more), Err(refusal), "{more}");
    }
}

#[test]
fn depth_falls_back_with_looser_signs() {
    let wide = [
        b"X".repeat(32),
        b"a U b & a U b | ".to_vec(),
        b"N".repeat(32),
        b"a".to_vec(),
    ]
    .concat();
    assert!(read_tree(&wide).is_ok());
    let arrow = [
        b"X".repeat(32),
        b"a -> ".to_vec(),
        b"N".repeat(31),
        b"a".to_vec(),
    ]
    .concat();
    assert!(read_tree(&arrow).is_ok());
    let deeper = [
        b"X".repeat(32),
        b"a -> ".to_vec(),
        b"N".repeat(32),
        b"a".to_vec(),
    ]
    .concat();
    assert_eq!(read_tree(&deeper), Err(Refusal::at(4, 37 + 31)));
}

#[test]
fn numbers_of_formulas() {
    for operands in 61..=63 {
        assert_eq!(
            read(FINITE, &alternating_text(operands)).unwrap().count,
            operands + 1
        );
    }
    assert_eq!(read(FINITE, &alternating_text(64)).unwrap_err().number, 5);
    // Too many formulas count only in a text otherwise sound.
    let text = [alternating_text(64), b")".to_vec()].concat();
    let refusal = Refusal::at(2, text.len() - 1).wanting(Wanted::Operator);
    assert_eq!(read(FINITE, &text), Err(refusal));
}

#[test]
fn numbers_of_choices_edges_and_states() {
    let built = |text: &[u8]| {
        build_own(&read(FINITE, text).unwrap()).map(|made| (made.states, made.starts[1]))
    };
    assert_eq!(built(&choices_text(1023)).unwrap(), (2, 1));
    assert_eq!(built(&choices_text(1024)).unwrap(), (2, 3));
    assert_eq!(built(&choices_text(1025)), Err(9));
    assert_eq!(built(&edges_text(63)).unwrap(), (2, 63));
    assert_eq!(built(&edges_text(64)).unwrap(), (2, 64));
    assert_eq!(built(&edges_text(65)), Err(9));
    assert_eq!(built(&states_text(127)).unwrap().0, 127);
    assert_eq!(built(&states_text(128)).unwrap().0, 128);
    assert_eq!(built(&states_text(129)), Err(9));
}

#[test]
fn no_choice_wins_over_too_many() {
    let eleven = ["(a | b)"; 11].join(" & ");
    let built = |text: String| {
        build_own(&read(FINITE, text.as_bytes()).unwrap()).map(|made| made.edge_count)
    };
    assert_eq!(built(format!("X 0 & X ({eleven})")), Ok(1));
    assert_eq!(built(format!("0 & ({eleven})")), Ok(0));
    assert_eq!(built(format!("({eleven}) R 0")), Ok(0));
    // A state that no edge reaches is not counted.
    assert_eq!(built(format!("a & !a & X ({eleven})")), Ok(0));
    assert_eq!(built(format!("0 | ({eleven})")), Err(9));
    assert_eq!(built(format!("X 1 & X ({eleven})")), Err(9));
    assert_eq!(built(format!("({eleven}) R b")), Err(9));
    assert_eq!(built(format!("a & X ({eleven})")), Err(9));
}

#[test]
fn choices_of_joined_members() {
    let chain = |operands: usize| vec!["a"; operands].join(" | ");
    let built = |p: usize, q: usize| {
        let text = format!("X ({}) & X ({})", chain(p), chain(q));
        build_own(&read(FINITE, text.as_bytes()).unwrap())
            .map(|made| (made.states, made.edge_count))
    };
    assert_eq!(built(31, 33), Ok((3, 3)));
    assert_eq!(built(25, 41), Err(9));
}

#[test]
fn the_longest_fit() {
    let rule = read(FINITE, &long_fit_text()).unwrap();
    let made = build_own(&rule).unwrap();
    assert_eq!(made.states, 128);
    let mut room = [0; 127];
    assert_eq!(fit(&made.lend(), &mut room), Ok(Some(127)));
    assert_eq!(judge_plain(&rule, &room), Ok(true));
    assert_eq!(room[126], 3);
    assert!(print(&rule, &mut [0; 1024]).is_ok());
}

#[test]
fn chains_of_states() {
    let mut random = Random::new(FIXED_SEED);
    for states in [1, 2, 127, 128] {
        let tables = chain_tables(&mut random, states);
        assert_eq!(fit(&tables.lend(), &mut [0; 127]), Ok(Some(states - 1)));
    }
}

#[test]
fn varied_texts_stay_sound() {
    let mut random = Random::new(FIXED_SEED);
    for text in table_limit_texts() {
        let varied = varied_text(&mut random, &text);
        assert!(read(FINITE, &varied).is_ok());
        assert_eq!(varied.len(), text.len());
    }
}

#[test]
fn printed_lengths() {
    let printed = |length| {
        print(
            &read(FINITE, &printed_length_text(length)).unwrap(),
            &mut [0; 1024],
        )
    };
    assert_eq!(printed(1023), Ok(1023));
    assert_eq!(printed(1024), Ok(1024));
    assert_eq!(printed(1025), Err(7));
}

#[test]
fn until_in_until_prints_deeper_than_it_reads() {
    let nested = |pairs: usize| [b"1 U a U ".repeat(pairs), b"b".to_vec()].concat();
    let printed = |pairs: usize| print(&read(FINITE, &nested(pairs)).unwrap(), &mut [0; 1024]);
    assert!(printed(10).is_ok());
    assert_eq!(printed(11), Err(7));
    assert!(read(FINITE, &nested(16)).is_ok());
}
