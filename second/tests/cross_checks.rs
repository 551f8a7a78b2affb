//! Several ways to the same outcome, compared on generated inputs under each profile.

use second::generator::*;
use second::tables::{Edge, StateNo};
use second::text::{Binary, Prefix};
use second::*;

/// Runs a check under each profile, both times with the same numbers drawn.
fn under_each_profile(seed: u64, check: impl Fn(Profile, &mut Random)) {
    for profile in Profile::ALL {
        check(profile, &mut Random::new(FIXED_SEED + seed));
    }
}

fn shown(text: &[u8]) -> String {
    String::from_utf8_lossy(text).into_owned()
}

fn printed(rule: &Rule) -> Result<Vec<u8>, u8> {
    let mut room = [0; 1024];
    print(rule, &mut room).map(|length| room[..length].to_vec())
}

#[test]
fn printing_then_reading_gives_the_rule_back() {
    under_each_profile(0, |profile, random| {
        let mut done = 0;
        for _ in 0..20_000 {
            let rule = any_rule(random, profile);
            match printed(&rule) {
                Ok(text) => {
                    done += 1;
                    let back = read(rule.profile, &text);
                    assert_eq!(back.as_ref(), Ok(&rule), "{}", shown(&text));
                }
                Err(number) => assert_eq!(number == 6, !is_rule(&rule)),
            }
            let bytes = rule.to_bytes();
            let back = Rule::from_bytes(rule.profile, rule.count, &bytes);
            assert_eq!(back, Some(rule));
        }
        assert!(done > 5_000);
    });
}

/// The profile shows in the limit alone: the formulas and their numbers are the same.
#[test]
fn the_text_leaves_the_profile_out() {
    under_each_profile(0, |profile, random| {
        for _ in 0..5_000 {
            let rule = random_rule(random, profile);
            for other in Profile::ALL {
                let moved = Rule {
                    profile: other.number(),
                    ..rule.clone()
                };
                if is_rule(&moved) {
                    assert_eq!(printed(&moved), printed(&rule));
                } else {
                    assert_eq!((other, rule.count), (Profile::Last, 64));
                }
            }
        }
    });
}

/// Every printed pair of parentheses is needed: without it the text reads otherwise.
#[test]
fn printed_parentheses_are_needed() {
    let mut random = Random::new(FIXED_SEED + 1);
    for _ in 0..3_000 {
        let Ok(rule) = read(FINITE, &small_text(&mut random)) else {
            continue;
        };
        let text = printed(&rule).unwrap();
        for (open, close) in pairs(&text) {
            let mut bare = text.clone();
            bare.remove(close);
            bare.remove(open);
            let otherwise = read_tree(&bare).unwrap();
            assert_ne!(otherwise, read_tree(&text).unwrap(), "{}", shown(&text));
        }
    }
}

fn pairs(text: &[u8]) -> Vec<(usize, usize)> {
    let (mut open, mut pairs) = (vec![], vec![]);
    for (place, byte) in text.iter().enumerate() {
        match byte {
            b'(' => open.push(place),
            b')' => pairs.push((open.pop().unwrap(), place)),
            _ => {}
        }
    }
    pairs
}

/// The tables' answer, the same one whole and date by date.
fn by_tables(tables: &Tables, series: &[u8]) -> bool {
    let mut walk = begin();
    for &date in series {
        step(tables, &mut walk, date).unwrap();
    }
    let walked = answer(tables, &walk).unwrap();
    assert_eq!(judge_tables(tables, series), Ok(walked));
    walked
}

/// Holds a text's rule on any series to its tree and, where it has any, to its tables.
fn ways_agree(profile: Profile, random: &mut Random, text: &[u8], times: usize) {
    let Ok(rule) = read(profile.number(), text) else {
        return;
    };
    let tree = read_tree(text).unwrap();
    let built = build_own(&rule);
    for _ in 0..times {
        let series = any_series(random);
        let plain = judge_plain(&rule, &series).unwrap();
        let shown = || format!("{profile:?} {} {series:?}", shown(text));
        assert_eq!(tree_holds(profile, &tree, &series), plain, "{}", shown());
        if let Ok(tables) = &built {
            assert_eq!(by_tables(&tables.lend(), &series), plain, "{}", shown());
        }
    }
}

#[test]
fn tree_plain_and_tables_agree() {
    under_each_profile(2, |profile, random| {
        for _ in 0..10_000 {
            let text = small_text(random);
            ways_agree(profile, random, &text, 4);
        }
    });
}

#[test]
fn limit_texts_agree_too() {
    under_each_profile(3, |profile, random| {
        for text in limit_texts() {
            ways_agree(profile, random, &text, 6);
        }
    });
}

#[test]
fn rules_without_text_agree() {
    under_each_profile(4, |profile, random| {
        let mut built = 0;
        for _ in 0..10_000 {
            let rule = any_rule(random, profile);
            let Ok(tables) = build_own(&rule) else {
                continue;
            };
            built += 1;
            let series = any_series(random);
            let plain = judge_plain(&rule, &series);
            let answer = by_tables(&tables.lend(), &series);
            assert_eq!(Ok(answer), plain, "{rule:?} {series:?}");
        }
        assert!(built > 4_000);
    });
}

#[test]
fn shared_rules_take_no_time() {
    under_each_profile(5, |profile, random| {
        for _ in 0..200 {
            let rule = shared_rule(random, profile, profile.most_formulas());
            assert!(is_rule(&rule));
            assert_eq!(printed(&rule), Err(7));
            let plain = judge_plain(&rule, &[1, 2, 3]);
            if let Ok(tables) = build_own(&rule) {
                assert_eq!(judge_tables(&tables.lend(), &[1, 2, 3]), plain);
            }
        }
    });
}

/// A formula written out in full, by which equal formulas are told.
fn written_out(rule: &Rule, number: usize) -> String {
    let entry = rule.entries[number];
    let parts: Vec<String> = entry
        .parts()
        .iter()
        .map(|&p| written_out(rule, p.into()))
        .collect();
    let [kind, operand, _] = entry.to_bytes();
    let own = if parts.is_empty() { operand } else { 0 };
    format!("{kind}.{own}({})", parts.join(","))
}

fn list_inner_first(rule: &Rule, number: usize, met: &mut Vec<String>) {
    for part in rule.entries[number].parts() {
        list_inner_first(rule, part.into(), met);
    }
    let formula = written_out(rule, number);
    if !met.contains(&formula) {
        met.push(formula);
    }
}

/// The numbering found again by writing everything out.
fn is_rule_written_out(rule: &Rule) -> bool {
    let earlier = |number: usize| {
        rule.entries[number]
            .parts()
            .iter()
            .all(|&p| usize::from(p) < number)
    };
    let flags = |entry: &Entry| !matches!(entry, Entry::Flag(8..) | Entry::NotFlag(8..));
    let most = match rule.profile {
        0 => 64,
        1 => 63,
        _ => 0,
    };
    if rule.count == 0 || rule.count > most || !(0..rule.count).all(earlier) {
        return false;
    }
    let mut met = vec![];
    list_inner_first(rule, rule.count - 1, &mut met);
    let numbered: Vec<String> = (0..rule.count)
        .map(|number| written_out(rule, number))
        .collect();
    met == numbered
        && rule.entries[..rule.count].iter().all(flags)
        && rule.entries[rule.count..]
            .iter()
            .all(|&entry| entry == Entry::False)
}

#[test]
fn rules_are_told_from_others() {
    under_each_profile(6, |profile, random| {
        let (mut good, mut bad) = (0, 0);
        for _ in 0..20_000 {
            let rule = if random.one_in(3) {
                random_rule(random, profile)
            } else {
                damaged_rule(random, profile)
            };
            let small = rule.count > 64 || rule.count <= 10;
            if !small {
                continue;
            }
            let is = is_rule(&rule);
            assert_eq!(is, is_rule_written_out(&rule), "{rule:?}");
            *(if is { &mut good } else { &mut bad }) += 1;
        }
        assert!(good > 2_000 && bad > 2_000);
    });
}

/// All series of a length over the first dates, in byte order.
fn all_series(dates: usize, below: usize) -> impl Iterator<Item = Vec<u8>> {
    (0..below.pow(dates as u32)).map(move |number| {
        let digit = |place: usize| (number / below.pow((dates - 1 - place) as u32) % below) as u8;
        (0..dates).map(digit).collect()
    })
}

fn first_accepted(longest: usize, below: usize, holds: impl Fn(&[u8]) -> bool) -> Option<Vec<u8>> {
    (0..=longest)
        .flat_map(|dates| all_series(dates, below))
        .find(|series| holds(series))
}

fn fitting(tables: &Tables) -> Option<Vec<u8>> {
    let mut room = [0; 127];
    let length = fit(tables, &mut room).unwrap()?;
    Some(room[..length].to_vec())
}

fn agrees(found: Option<Vec<u8>>, brute: Option<Vec<u8>>, longest: usize) -> bool {
    match (&found, &brute) {
        (Some(series), None) => series.len() > longest,
        _ => found == brute,
    }
}

#[test]
fn fits_of_rules_are_the_first_of_the_shortest() {
    under_each_profile(7, |profile, random| {
        for round in 0..1_500 {
            // Flags c and above are rare: for them the few rounds with all dates.
            let (longest, below) = if round % 30 == 0 { (2, 256) } else { (4, 8) };
            let text = small_text(random);
            if below == 8 && text.iter().any(|byte| (b'd'..=b'h').contains(byte)) {
                continue;
            }
            let Ok(rule) = read(profile.number(), &text) else {
                continue;
            };
            let Ok(tables) = build_own(&rule) else {
                continue;
            };
            let holds = |series: &[u8]| judge_plain(&rule, series).unwrap();
            let brute = first_accepted(longest, below, holds);
            let found = fitting(&tables.lend());
            assert!(agrees(found, brute, longest), "{}", shown(&text));
        }
    });
}

#[test]
fn fits_of_tables_are_the_first_of_the_shortest() {
    let mut random = Random::new(FIXED_SEED + 8);
    for _ in 0..2_000 {
        let mut tables = random_tables(&mut random);
        if tables.states > 20 {
            continue;
        }
        // Two flags only, so that all series are soon tried.
        tables
            .edges
            .iter_mut()
            .for_each(|edge| *edge &= 0xffff_0303);
        let brute = first_accepted(5, 4, |series| judge_tables(&tables.lend(), series).unwrap());
        assert!(agrees(fitting(&tables.lend()), brute, 5), "{tables:?}");
    }
}

#[test]
fn fits_are_accepted_and_nothing_before_them_is() {
    let mut random = Random::new(FIXED_SEED + 9);
    for _ in 0..800 {
        let tables = any_tables(&mut random);
        let tables = tables.lend();
        if !good_tables(&tables) {
            continue;
        }
        let Some(series) = fitting(&tables) else {
            continue;
        };
        assert_eq!(judge_tables(&tables, &series), Ok(true));
        for place in 0..series.len() {
            assert_eq!(judge_tables(&tables, &series[..place]), Ok(false));
            // No smaller date here can be completed to a series of the same length.
            for date in 0..series[place] {
                let start = [&series[..place], &[date]].concat();
                assert!(!can_accept_after(
                    &tables,
                    &start,
                    series.len() - start.len()
                ));
            }
        }
    }
}

/// Whether some series of this many more dates is accepted after the start.
fn can_accept_after(tables: &Tables, start: &[u8], more: usize) -> bool {
    let mut walk = begin();
    for &date in start {
        step(tables, &mut walk, date).unwrap();
    }
    let held =
        |state: usize| (u128::from(walk.high) << 64 | u128::from(walk.low)) >> state & 1 == 1;
    let mut reached: Vec<usize> = (0..tables.states).filter(|&state| held(state)).collect();
    for _ in 0..more {
        let rows = reached.iter().flat_map(|&state| tables.row(StateNo(state)));
        reached = rows.map(|Edge { target, .. }| target.0).collect();
        reached.sort_unstable();
        reached.dedup();
    }
    reached.iter().any(|&state| tables.accepts(StateNo(state)))
}

#[test]
fn walking_date_by_date_is_judging() {
    let mut random = Random::new(FIXED_SEED + 10);
    for _ in 0..5_000 {
        let tables = any_tables(&mut random);
        let tables = tables.lend();
        let series: Vec<u8> = any_series(&mut random).into_iter().take(12).collect();
        let mut walk = begin();
        let stepped = series
            .iter()
            .try_for_each(|&date| step(&tables, &mut walk, date));
        let answered = stepped.and_then(|()| answer(&tables, &walk));
        assert_eq!(answered, judge_tables(&tables, &series));
        if closed(&tables, &walk) == Ok(true) {
            assert_eq!(answered, Ok(false));
        }
    }
}

#[test]
fn walks_are_the_union_of_their_states() {
    let mut random = Random::new(FIXED_SEED + 11);
    for _ in 0..2_000 {
        let tables = random_tables(&mut random);
        let tables = tables.lend();
        let (one, other, date) = (
            any_walk(&mut random, tables.states),
            any_walk(&mut random, tables.states),
            random.byte(),
        );
        let union = |p: Walk, q: Walk| Walk {
            low: p.low | q.low,
            high: p.high | q.high,
        };
        let stepped = |mut walk: Walk| step(&tables, &mut walk, date).map(|()| walk);
        let together = stepped(union(one, other));
        let apart = stepped(one).and_then(|p| stepped(other).map(|q| union(p, q)));
        assert_eq!(together, apart);
    }
}

/// A text for a tree with every part in parentheses, so that nothing is left to grouping.
fn bracketed(tree: &Tree) -> String {
    match tree {
        Tree::Flag(flag) => char::from(b'a' + flag).to_string(),
        Tree::True => "1".to_string(),
        Tree::False => "0".to_string(),
        Tree::Under(prefix, part) => {
            let sign = match prefix {
                Prefix::Not => "!",
                Prefix::Next => "X",
                Prefix::WeakNext => "N",
                Prefix::Eventually => "F",
                Prefix::Always => "G",
            };
            format!("{sign}({})", bracketed(part))
        }
        Tree::Between(binary, left, right) => {
            let sign = match binary {
                Binary::Until => "U",
                Binary::Release => "R",
                Binary::And => "&",
                Binary::Or => "|",
                Binary::Implies => "->",
            };
            format!("({}){sign}({})", bracketed(left), bracketed(right))
        }
    }
}

#[test]
fn grouping() {
    for (text, meant) in [
        ("a U b U c", "(a)U((b)U(c))"),
        ("a R b U c", "(a)R((b)U(c))"),
        ("a & b & c", "((a)&(b))&(c)"),
        ("a | b | c", "((a)|(b))|(c)"),
        ("a -> b -> c", "(a)->((b)->(c))"),
        ("a | b & c U d", "(a)|((b)&((c)U(d)))"),
        ("a U b & c | d -> e", "((((a)U(b))&(c))|(d))->(e)"),
        ("!a U X b", "(!(a))U(X(b))"),
        ("G F a & 1", "(G(F(a)))&(1)"),
    ] {
        assert_eq!(bracketed(&read_tree(text.as_bytes()).unwrap()), meant);
    }
}

#[test]
fn brackets_change_nothing_but_depth() {
    let mut random = Random::new(FIXED_SEED + 12);
    for _ in 0..3_000 {
        let Ok(tree) = read_tree(&small_text(&mut random)) else {
            continue;
        };
        assert_eq!(read_tree(bracketed(&tree).as_bytes()), Ok(tree));
    }
}

/// Whether some short text goes on from these bytes to a sound rule, limits aside.
fn goes_on(start: &[u8]) -> bool {
    let open = start.iter().filter(|&&byte| byte == b'(').count();
    let ends: [&[u8]; 4] = [b"", b"a", b">a", b" "];
    (0..=open).any(|close| {
        ends.iter()
            .any(|end| read_tree(&[start, end, &b")".repeat(close)].concat()).is_ok())
    })
}

#[test]
fn refusals_come_at_the_first_byte_with_which_nothing_goes_on() {
    let mut random = Random::new(FIXED_SEED + 13);
    for _ in 0..20_000 {
        let small = small_text(&mut random);
        let text = damaged_text(&mut random, &small);
        let Err(Refusal { number, place, .. }) = read(FINITE, &text) else {
            continue;
        };
        match number {
            2 => assert!(
                goes_on(&text[..place]) && !goes_on(&text[..=place]),
                "{}",
                shown(&text)
            ),
            3 => assert!(place == text.len() && goes_on(&text), "{}", shown(&text)),
            _ => panic!("{number} for {}", shown(&text)),
        }
    }
}

#[test]
fn damage_never_breaks_a_call() {
    under_each_profile(14, |profile, random| {
        let mut numbers = [0; 6];
        for _ in 0..6_000 {
            let text = any_text(random);
            let refused = read(profile.number(), &text).err();
            numbers[refused.map_or(0, |refusal| usize::from(refusal.number))] += 1;
            if let Some(refusal) = refused {
                assert!(refusal.place <= text.len());
                assert_eq!(refusal.wanted.is_some(), matches!(refusal.number, 2 | 3));
            }
        }
        assert!(numbers.iter().all(|&met| met > 0), "{numbers:?}");
    });
}
