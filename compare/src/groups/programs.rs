//! The program `judge`, byte for byte.

use crate::group::Group;
use crate::program;
use second::generator::{any_input, input_of, limit_texts, sound_text, Random};

/// A process is started for each input, so there are fewer than in the other groups.
const INPUTS_A_PROCESS: usize = 52;

const SERIES_ANSWERS: &[&str] = &["yes", "no", "bad", "fit none", "fit empty", "fit dates"];

const REFUSALS: &[&str] = &[
    "refused 1",
    "refused 2 operand",
    "refused 2 operator",
    "refused 2 arrow",
    "refused 3 operand",
    "refused 3 operator",
    "refused 3 arrow",
    "refused 4",
    "refused 5",
    "refused 9",
];

/// How many bytes reach the program at once: fewer than it asks for, or as many as a pipe takes.
fn any_piece(random: &mut Random) -> usize {
    let few = 1 + random.below(5_000);
    random.pick(&[few, 65_536, usize::MAX])
}

/// Compares what the two print, and counts the answers. Says how many lines answer a series.
fn compare(group: &mut Group, input: &[u8], piece: usize) -> usize {
    let (library, second) = program::both(input, piece);
    let answers = program::answers(second.as_deref().unwrap_or_default());
    for answer in &answers {
        group.met(answer);
    }
    group.compare(library, second, || {
        String::from_utf8_lossy(input).into_owned()
    });
    answers
        .iter()
        .filter(|answer| SERIES_ANSWERS[..3].contains(&answer.as_str()))
        .count()
}

/// Each limit with a few lines, then any input.
pub fn judge(random: &mut Random, inputs: usize) -> Group {
    let mut group = Group::new("judge", &[SERIES_ANSWERS, REFUSALS].concat());
    let limits = limit_texts();
    for number in 0..inputs / INPUTS_A_PROCESS {
        let input = match limits.get(number) {
            Some(text) => input_of(random, text.clone(), number % 40),
            None => any_input(random),
        };
        let piece = any_piece(random);
        compare(&mut group, &input, piece);
    }
    group
}

/// The longer run: so many series over rules that have tables.
pub fn series(random: &mut Random, count: usize) -> Group {
    let mut group = Group::new("series", SERIES_ANSWERS);
    let mut rules = 0;
    let mut series = 0;
    while series < count {
        let text = sound_text(random);
        let most = if random.one_in(50) { 20_000 } else { 200 };
        let lines = (1 + random.below(most)).min(count - series);
        let input = input_of(random, text, lines);
        let piece = any_piece(random);
        series += compare(&mut group, &input, piece);
        rules += 1;
    }
    println!("{rules} rules, {series} series");
    group
}
