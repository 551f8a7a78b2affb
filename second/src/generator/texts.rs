//! Rule texts: small ones, ones at each limit, and damaged ones.

use super::Random;

const ATOMS: &[u8] = b"abcdefgh10";
const PREFIXES: &[u8] = b"!XNFG";
const BINARIES: &[&[u8]] = &[b"U", b"R", b"&", b"|", b"->"];
const SIGNS: &[u8] = b"abcdefgh10!XNFGUR&|->() ";
/// One sign of each kind, and a byte that is none.
const KINDS: [u8; 9] = *b"a!U->() x";
const SHORT: usize = 5;

fn spaces(random: &mut Random, text: &mut Vec<u8>) {
    while random.one_in(3) {
        text.push(b' ');
    }
}

fn atom(random: &mut Random) -> u8 {
    // Few flags, so that parts meet again and flags contradict each other.
    if random.one_in(3) {
        random.pick(ATOMS)
    } else {
        random.pick(b"abc")
    }
}

fn grow(random: &mut Random, size: usize, text: &mut Vec<u8>) {
    spaces(random, text);
    if size <= 1 {
        text.push(atom(random));
        return;
    }
    match random.below(8) {
        0..=2 => {
            text.push(random.pick(PREFIXES));
            grow(random, size - 1, text);
        }
        3 => {
            text.push(b'(');
            grow(random, size - 1, text);
            spaces(random, text);
            text.push(b')');
        }
        _ => {
            let left = 1 + random.below(size - 1);
            grow(random, left, text);
            spaces(random, text);
            text.extend_from_slice(random.pick(BINARIES));
            grow(random, size - left, text);
        }
    }
}

/// A sound text of a few signs, grouped at random.
pub fn small_text(random: &mut Random) -> Vec<u8> {
    let size = 1 + random.below(14);
    let mut text = Vec::new();
    grow(random, size, &mut text);
    spaces(random, &mut text);
    text
}

/// A text of many signs: its formulas may be too many, its depth too great.
pub fn large_text(random: &mut Random) -> Vec<u8> {
    let size = 20 + random.below(100);
    let mut text = Vec::new();
    grow(random, size, &mut text);
    text
}

/// A sound text with one byte replaced, dropped or put in, or cut short.
pub fn damaged_text(random: &mut Random, text: &[u8]) -> Vec<u8> {
    let mut damaged = text.to_vec();
    let place = random.below(text.len() + 1);
    let byte = if random.one_in(6) {
        random.byte()
    } else {
        random.pick(SIGNS)
    };
    match random.below(6) {
        0 if place < text.len() => damaged[place] = byte,
        1 if place < text.len() => drop(damaged.remove(place)),
        2 => damaged.truncate(place),
        3 => damaged.insert(place, b'-'),
        4 => {
            damaged.extend_from_slice(random.pick(&[b"-", b"->", b"- ", b"-x", b"))", b"(", b"U"]))
        }
        _ => damaged.insert(place, byte),
    }
    damaged
}

/// Another sign of the same sort; itself where there is none.
fn exchanged(sign: u8) -> u8 {
    const PAIRS: [[u8; 2]; 7] = [*b"XN", *b"FG", *b"UR", *b"&|", *b"ab", *b"cd", *b"10"];
    let mut both_ways = PAIRS.iter().flat_map(|&[p, q]| [(p, q), (q, p)]);
    both_ways
        .find(|(from, _)| *from == sign)
        .map_or(sign, |(_, to)| to)
}

/// A sound text of the same shape with a few signs exchanged, so that it stands close to the same limit.
pub fn varied_text(random: &mut Random, text: &[u8]) -> Vec<u8> {
    let mut varied = text.to_vec();
    for _ in 0..1 + random.below(3) {
        let place = random.below(text.len());
        varied[place] = exchanged(varied[place]);
    }
    varied
}

/// Every text of a few bytes, each of them for its kind.
fn every_text_of_kinds() -> Vec<Vec<u8>> {
    let mut texts = vec![vec![]];
    let mut grown = 0;
    while texts[grown].len() < SHORT {
        let longer = KINDS.map(|byte| [&texts[grown][..], &[byte]].concat());
        texts.extend(longer);
        grown += 1;
    }
    texts
}

/// Every byte after a start that wants each thing, in a parenthesis and outside.
fn every_last_byte() -> Vec<Vec<u8>> {
    let starts: [&[u8]; 6] = [b"", b"a", b"a-", b"(", b"(a", b"(a-"];
    (0..=u8::MAX)
        .flat_map(|byte| starts.map(|start| [start, &[byte]].concat()))
        .collect()
}

/// Short texts that leave nothing out: any kind of sign at any place, any byte at the last.
pub fn every_short_text() -> Vec<Vec<u8>> {
    [every_text_of_kinds(), every_last_byte()].concat()
}

/// The same operand over and over, joined in pairs so that few formulas are distinct.
pub fn balanced_text(length: usize) -> Vec<u8> {
    let mut text = b"a|a".to_vec();
    while 2 * text.len() + 5 <= length {
        text = [b"(", text.as_slice(), b")|(", &text, b")"].concat();
    }
    text.resize(length, b' ');
    text
}

fn length_texts(length: usize) -> Vec<Vec<u8>> {
    let mut late = vec![b' '; length];
    late[length - 1] = b'h';
    let mut bad = balanced_text(length);
    bad[length - 1] = b')';
    let mut many = b"a|".repeat(length / 2 + 1);
    many.truncate(length);
    vec![balanced_text(length), late, bad, vec![b' '; length], many]
}

/// Texts that reach exactly this depth, each in another way.
pub fn depth_texts(depth: usize) -> Vec<Vec<u8>> {
    let around = [b"(".repeat(depth), b"a".to_vec(), b")".repeat(depth)].concat();
    let mut texts = vec![around];
    for prefix in PREFIXES {
        texts.push([vec![*prefix; depth], b"a".to_vec()].concat());
    }
    for sign in [&b"a U "[..], b"b R ", b"a->", b"c & d U e -> "] {
        texts.push([sign.repeat(depth), b"e".to_vec()].concat());
    }
    let mixed = [&b"a U "[..], b"N ", b"("]
        .into_iter()
        .cycle()
        .take(depth)
        .collect::<Vec<_>>();
    texts.push([mixed.concat(), b"b".to_vec(), b")".repeat(depth / 3)].concat());
    texts
}

/// Every depth text with each ending that matters at the limit.
fn ends_at_depth(depth: usize) -> Vec<Vec<u8>> {
    let ends: [&[u8]; 9] = [
        b"", b"-", b"->", b"->a", b"- ", b"-a", b" & b", b" U b", b" | !a",
    ];
    let texts = depth_texts(depth);
    texts
        .iter()
        .flat_map(|text| ends.map(|end| [text, end].concat()))
        .collect()
}

/// This many operands, `a` and `b` in turn, joined by `&`.
pub fn alternating_text(operands: usize) -> Vec<u8> {
    let names: Vec<&str> = ["a", "b"].into_iter().cycle().take(operands).collect();
    names.join(" & ").into_bytes()
}

/// Texts of this many formulas, the whole one so made that it comes again after a date.
pub fn lasting_texts(formulas: usize) -> [Vec<u8>; 2] {
    // The constant and the whole one besides, and one less sign than operands.
    let inner = alternating_text(formulas - 3);
    [b"G (", b"F ("].map(|start| [start, &inner[..], b")"].concat())
}

fn copies(part: &str, sign: &str, number: usize) -> String {
    vec![part; number].join(sign)
}

/// A text whose start state has this many choices: 1,023, 1,024 or 1,025.
pub fn choices_text(choices: usize) -> Vec<u8> {
    let ten = copies("(a | b)", " & ", 10);
    let text = match choices {
        1023 => [3, 11, 31]
            .map(|n| format!("({})", copies("a", " | ", n)))
            .join(" & "),
        1024 => ten,
        _ => format!("{ten} | a"),
    };
    text.into_bytes()
}

/// A text whose start state has this many edges: 63, 64 or 65.
pub fn edges_text(edges: usize) -> Vec<u8> {
    let free: Vec<String> = "abcde"
        .chars()
        .map(|flag| format!("({flag} | !{flag})"))
        .collect();
    let all = |flags: usize| free[..flags].join(" & ");
    // 32 + 16 + 8 + 4 + 2 + 1 edges, then one for each further part.
    let parts = [
        all(5),
        format!("f & ({})", all(4)),
        format!("g & ({})", all(3)),
        format!("h & ({})", all(2)),
        format!("f & g & {}", all(1)),
        "f & h".to_string(),
        "g & h".to_string(),
        "!h".to_string(),
    ];
    parts[..edges - 57].join(" | ").into_bytes()
}

/// A text whose start state, under last, has this many edges, most in pairs that only the mark
/// tells apart: 63, 64 or 65.
pub fn marked_edges_text(edges: usize) -> Vec<u8> {
    let free = "abcd".chars().map(|flag| format!("({flag} | !{flag})"));
    let free: Vec<String> = free.collect();
    let twins = "(X e | N e)";
    // 32 + 16 + 8 + 4 + 2 edges, then one for each further part.
    let parts = [
        format!("{} & {twins}", free.join(" & ")),
        format!("f & {} & {twins}", free[..3].join(" & ")),
        format!("g & {} & {twins}", free[..2].join(" & ")),
        format!("h & {} & {twins}", free[0]),
        format!("f & g & {twins}"),
        "f & h & X e".to_string(),
        "f & h & N e".to_string(),
        "g & h & N e".to_string(),
    ];
    parts[..edges - 57].join(" | ").into_bytes()
}

/// A text with this many states: 127, 128 or 129.
pub fn states_text(states: usize) -> Vec<u8> {
    // Which of the next n dates must have b: two to the n states for each part.
    let parts: Vec<String> = (1..=6)
        .map(|n| format!("X G (a | {}b)", copies("X", " ", n) + " "))
        .collect();
    let more = ["", " | 1", " | X c"][states - 127];
    (parts.join(" | ") + more).into_bytes()
}

/// A text with this many states under last, many of them twins but for the mark: 127, 128 or 129.
pub fn marked_states_text(states: usize) -> Vec<u8> {
    // Three times two to the n states for each part; a twin is met where the latest want came by `X`.
    let parts = [1, 3, 5].map(|n| {
        let later = copies("N", " ", n) + " b";
        format!("N G (a | X {later} | N {later})")
    });
    let more = ["", " | 1", " | X c"][states - 127];
    (parts.join(" | ") + more).into_bytes()
}

/// A flag that must stay away for this many dates and then be there.
fn phase(flag: char, dates: usize) -> String {
    (0..dates).fold(flag.to_string(), |later, _| {
        format!("!{flag} & X ({later})")
    })
}

/// A text whose only short fit has 127 dates.
pub fn long_fit_text() -> Vec<u8> {
    // Two wheels of 11 and 12 dates, begun 126 dates before they meet.
    let (a, b) = (phase('a', 10), phase('b', 11));
    let turn = format!("!a & (!b | b & X ({b})) | a & !b & X ({a})");
    format!(
        "{} & {} & (({turn}) U (a & b))",
        phase('a', 5),
        phase('b', 6)
    )
    .into_bytes()
}

/// A text without spaces whose rule prints to this many bytes: 1,023, 1,024 or 1,025.
pub fn printed_length_text(length: usize) -> Vec<u8> {
    // Printed, these have 5, 15, 35, 75, 155, 315 and 635 bytes.
    let mut doubled = vec!["a|a".to_string()];
    for time in 0..6 {
        doubled.push(format!("{0}|({0})", doubled[time]));
    }
    let end = ["a|a", "a|!a", "!a|!a"][length - 1023];
    let text = format!(
        "{}|({})|({})|({})|{end}",
        doubled[6], doubled[5], doubled[2], doubled[1]
    );
    text.into_bytes()
}

/// Texts whose second state joins two members to 1,023, 1,024 or 1,025 choices.
fn joined_choices_texts() -> Vec<Vec<u8>> {
    let chain = |operands: usize| copies("a", " | ", operands);
    let five = |part: &str| copies(part, " & ", 5);
    let parts = [
        (chain(31), chain(33)),
        (five("(a | b)"), five("(c | d)")),
        (chain(25), chain(41)),
    ];
    parts
        .map(|(one, other)| format!("X ({one}) & X ({other})").into_bytes())
        .to_vec()
}

/// Too many choices, beside parts that keep them away or do not.
fn too_many_choices_texts() -> Vec<Vec<u8>> {
    let eleven = copies("(a | b)", " & ", 11);
    let starts = [
        "",
        "X 0 & X ",
        "0 & ",
        "0 & X ",
        "a & !a & X ",
        "b & X ",
        "0 | ",
        "a U ",
        "0 R ",
    ];
    let mut texts: Vec<String> = starts
        .iter()
        .map(|start| format!("{start}({eleven})"))
        .collect();
    texts.push(format!("({eleven}) R 0"));
    texts.push(format!("({eleven}) U 0"));
    texts.into_iter().map(String::into_bytes).collect()
}

/// Texts at the limits of the tables, each in the start state and one date later.
pub fn table_limit_texts() -> Vec<Vec<u8>> {
    let mut texts: Vec<Vec<u8>> = (1023..=1025).map(choices_text).collect();
    texts.extend((63..=65).map(edges_text));
    texts.extend((127..=129).map(states_text));
    texts.extend((63..=65).map(marked_edges_text));
    texts.extend((127..=129).map(marked_states_text));
    let later: Vec<_> = texts
        .iter()
        .map(|text| [b"X (", text.as_slice(), b")"].concat())
        .collect();
    texts.extend(later);
    texts
}

/// Texts on both sides of every limit.
pub fn limit_texts() -> Vec<Vec<u8>> {
    let mut texts = vec![vec![], b"a".to_vec(), long_fit_text()];
    texts.extend((1023..=1025).flat_map(length_texts));
    texts.extend((31..=33).flat_map(ends_at_depth));
    texts.extend((61..=64).map(alternating_text));
    texts.extend((62..=65).flat_map(lasting_texts));
    texts.extend((1023..=1025).map(printed_length_text));
    texts.extend(table_limit_texts());
    texts.extend(joined_choices_texts());
    texts.extend(too_many_choices_texts());
    texts.push([&b"X".repeat(32)[..], b"a -> b"].concat());
    texts.extend((10..=16).map(|pairs| [b"1 U a U ".repeat(pairs), b"b".to_vec()].concat()));
    texts
}

/// A text of any of these sorts.
pub fn any_text(random: &mut Random) -> Vec<u8> {
    match random.below(16) {
        0 => (0..random.below(20)).map(|_| random.pick(SIGNS)).collect(),
        1..=5 => {
            let text = small_text(random);
            damaged_text(random, &text)
        }
        6 | 7 => limit_text(random),
        8 | 9 => {
            let text = limit_text(random);
            damaged_text(random, &text)
        }
        10 | 11 => large_text(random),
        _ => small_text(random),
    }
}

pub fn limit_text(random: &mut Random) -> Vec<u8> {
    let mut texts = limit_texts();
    texts.swap_remove(random.below(texts.len()))
}
