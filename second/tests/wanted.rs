//! What a refused text wanted, held to a search for the texts that go on, which knows no machine.

use second::generator::{damaged_text, every_short_text, small_text, Random, FIXED_SEED};
use second::{read, Refusal, Wanted, FINITE};
use std::collections::HashSet;

/// Bytes, some at the end perhaps unknown, and which stretches of them can be a whole text.
struct Stretches {
    bytes: Vec<Option<u8>>,
    whole: Vec<Vec<bool>>,
}

impl Stretches {
    fn of(bytes: Vec<Option<u8>>) -> Stretches {
        let ends = bytes.len() + 1;
        let whole = vec![vec![false; ends]; ends];
        let mut stretches = Stretches { bytes, whole };
        for length in 1..ends {
            for from in 0..ends - length {
                let to = from + length;
                stretches.whole[from][to] = stretches.can_be_whole(from, to);
            }
        }
        stretches
    }

    fn can_be(&self, place: usize, signs: &[u8]) -> bool {
        self.bytes[place].is_none_or(|byte| signs.contains(&byte))
    }

    /// Grouping aside, which decides nothing here; shorter stretches are known.
    fn can_be_whole(&self, from: usize, to: usize) -> bool {
        let last = to - 1;
        let parenthesis = || self.can_be(from, b"(") && self.can_be(last, b")");
        from == last && self.can_be(from, b"abcdefgh10")
            || self.can_be(from, b" !XNFG") && self.whole[from + 1][to]
            || self.can_be(last, b" ") && self.whole[from][last]
            || parenthesis() && self.whole[from + 1][last]
            || (from + 1..last).any(|sign| self.whole[from][sign] && self.joins(sign, to))
    }

    /// Whether a binary sign at the place can have a right part up to the end.
    fn joins(&self, sign: usize, to: usize) -> bool {
        let arrow = || self.can_be(sign, b"-") && self.can_be(sign + 1, b">");
        self.can_be(sign, b"UR&|") && self.whole[sign + 1][to]
            || arrow() && self.whole[sign + 2][to]
    }
}

/// Whether some whole text begins with these bytes.
fn goes_on(start: &[u8]) -> bool {
    // Enough for an arrow's second byte, an operand, and every closing parenthesis.
    let unknown = vec![None; start.len() + 2];
    let known = start.iter().copied().map(Some);
    let stretches = Stretches::of(known.chain(unknown).collect());
    stretches.whole[0][start.len()..].contains(&true)
}

fn is_whole(text: &[u8]) -> bool {
    Stretches::of(text.iter().copied().map(Some).collect()).whole[0][text.len()]
}

/// What can come next, by the bytes with which it begins.
fn can_come(start: &[u8]) -> Vec<Wanted> {
    let mut kinds = vec![
        (Wanted::Operand, &b"abcdefgh10!XNFG("[..]),
        (Wanted::Operator, b"UR&|-)"),
        (Wanted::Arrow, b">"),
    ];
    let comes = |byte: &u8| goes_on(&[start, &[*byte]].concat());
    kinds.retain(|(_, first)| first.iter().any(comes));
    kinds.into_iter().map(|(wanted, _)| wanted).collect()
}

fn refusal(number: u8, start: &[u8]) -> Refusal {
    match can_come(start)[..] {
        [wanted] => Refusal::at(number, start.len()).wanting(wanted),
        ref several => panic!("{several:?} after {}", shown(start)),
    }
}

/// The refusal of a text within all limits.
fn due(text: &[u8]) -> Option<Refusal> {
    let stop = (0..text.len()).find(|&place| !goes_on(&text[..=place]));
    match stop {
        Some(place) => Some(refusal(2, &text[..place])),
        None if is_whole(text) => None,
        None => Some(refusal(3, text)),
    }
}

fn shown(text: &[u8]) -> String {
    String::from_utf8_lossy(text).into_owned()
}

/// Holds each text to what is due; each refusal with each thing wanted is to be met.
fn hold(texts: impl IntoIterator<Item = Vec<u8>>) {
    let mut met = HashSet::new();
    for text in texts {
        let refused = read(FINITE, &text).err();
        assert_eq!(refused, due(&text), "{}", shown(&text));
        met.extend(refused.map(|refusal| (refusal.number, refusal.wanted_number())));
    }
    let all = [2, 3].map(|number| [1, 2, 3].map(|wanted| (number, wanted)));
    assert_eq!(met, HashSet::from_iter(all.concat()));
}

#[test]
fn every_short_text_says_what_was_wanted() {
    hold(every_short_text());
}

#[test]
fn longer_texts_do_too() {
    let mut random = Random::new(FIXED_SEED);
    hold((0..1_000).map(|_| {
        let sound = small_text(&mut random);
        damaged_text(&mut random, &sound)
    }));
}
