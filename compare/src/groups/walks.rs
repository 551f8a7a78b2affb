//! Judging by tables, and walks, on tables that rules made and on others.

use crate::group::{after_each, profile_word, Group};
use crate::library;
use second::generator::{any_series, any_tables, any_walk, random_rule, walked_series, Random};
use second::tables::OwnTables;
use second::{Profile, Tables, Walk};

/// The second program is slow on many edges, so long series are for tables of few.
const FEW_EDGES: usize = 200;
const SHORT: usize = 6;

/// Where tables come from, as a group's answers name it: a rule's profile, or no rule.
pub type Origin = &'static str;

pub const NO_RULE: Origin = "no rule";

/// Tables that a rule of the profile made.
pub fn made_tables(random: &mut Random, profile: Profile) -> (Origin, OwnTables) {
    loop {
        if let Ok(tables) = second::build_own(&random_rule(random, profile)) {
            return (profile_word(profile.number()), tables);
        }
    }
}

fn made_or_any(random: &mut Random, number: usize) -> (Origin, OwnTables) {
    match number / 2 % 4 {
        0 => made_tables(random, Profile::Finite),
        1 => made_tables(random, Profile::Last),
        _ => (NO_RULE, any_tables(random)),
    }
}

/// Any series, or one along the edges.
fn series_for(random: &mut Random, own: &OwnTables) -> Vec<u8> {
    if random.one_in(2) && second::good_tables(&own.lend()) {
        let dates = random.below(30);
        return walked_series(random, own, dates);
    }
    let mut series = any_series(random);
    if own.edge_count > FEW_EDGES {
        series.truncate(SHORT);
    }
    series
}

fn number(answer: Result<bool, u8>) -> u8 {
    answer.map_or_else(|refusal| refusal, u8::from)
}

pub fn judge_tables(random: &mut Random, inputs: usize) -> Group {
    let mut answers = after_each(&["finite", "last", NO_RULE], &["0", "1"]);
    answers.push(format!("{NO_RULE} 10"));
    let mut group = Group::new("judge_tables", &answers);
    for n in 0..inputs {
        let (origin, own) = made_or_any(random, n);
        let tables = own.lend();
        let series = series_for(random, &own);
        let library = library::judge_tables(&tables, &series);
        group.met(format!("{origin} {library}"));
        group.compare(
            library,
            number(second::judge_tables(&tables, &series)),
            || format!("{tables:?} {series:?}"),
        );
    }
    group
}

/// What a walk says after a step: its number, the walk left, its answer, whether it is closed.
type Said = (u8, Walk, u8, u8);

/// What the three calls can answer on good tables; a step is refused on others as well.
const WALK_ANSWERS: &[&str] = &[
    "step 0",
    "step 10, walk",
    "answer 0",
    "answer 1",
    "answer 10",
    "closed 0",
    "closed 1",
    "closed 10",
];

fn count_answers(group: &mut Group, origin: Origin, tables: &Tables, said: Said) {
    let (step, _, answer, closed) = said;
    let step = match step {
        10 if second::good_tables(tables) => "10, walk".into(),
        10 => "10, tables".into(),
        _ => step.to_string(),
    };
    group.met(format!("{origin} step {step}"));
    group.met(format!("{origin} answer {answer}"));
    group.met(format!("{origin} closed {closed}"));
}

pub fn walks(random: &mut Random, inputs: usize) -> Group {
    let mut answers = after_each(&["finite", "last", NO_RULE], WALK_ANSWERS);
    answers.push(format!("{NO_RULE} step 10, tables"));
    let mut group = Group::new("walk", &answers);
    group.compare(library::walk_begin(), second::begin(), String::new);
    for n in 0..inputs {
        let (origin, own) = made_or_any(random, n);
        let tables = own.lend();
        // Half begin as a walk does; the others hold states that no series may give.
        let start = if n % 2 == 0 {
            second::begin()
        } else {
            any_walk(random, tables.states)
        };
        let (mut walk, mut other) = (start, start);
        for _ in 0..1 + random.below(4) {
            let date = random.byte() & random.pick(&[0x01, 0x0f, 0xff]);
            let stepped = library::walk_step(&tables, &mut walk, date);
            let library: Said = (
                stepped,
                walk,
                library::walk_answer(&tables, walk),
                library::walk_closed(&tables, walk),
            );
            let stepped = second::step(&tables, &mut other, date);
            let second: Said = (
                stepped.map_or_else(|refusal| refusal, |()| 0),
                other,
                number(second::answer(&tables, &other)),
                number(second::closed(&tables, &other)),
            );
            count_answers(&mut group, origin, &tables, library);
            group.compare(library, second, || format!("{tables:?} {start:?} {date}"));
        }
    }
    group
}
