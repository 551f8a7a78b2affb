//! Building a rule's tables, and telling good tables from bad.

use crate::profile::Profile;
use crate::rule::{profile_of, Entry, Rule};
use std::collections::{BTreeMap, BTreeSet};

pub const MOST_CHOICES: usize = 1024;
pub const MOST_EDGES_IN_ROW: usize = 64;
pub const MOST_STATES: usize = 128;
pub const MASKS_SIZE: usize = MOST_STATES;
pub const STARTS_SIZE: usize = MOST_STATES + 1;
pub const ACCEPTS_SIZE: usize = MOST_STATES;
pub const EDGES_SIZE: usize = MOST_STATES * MOST_EDGES_IN_ROW;

/// A state's number, never to be taken for a formula's.
#[derive(Clone, Copy, Debug, PartialEq, Eq, PartialOrd, Ord)]
pub struct StateNo(pub usize);

/// The mark's bit in a mask; where states are marked, no formula's number reaches it.
const MARK: usize = 63;

/// Whether states are marked at all; under finite the members alone say if a date has to follow.
fn marks(profile: Profile) -> bool {
    profile == Profile::Last
}

/// A state: the numbers of the formulas that must all hold.
#[derive(Clone, Default, PartialEq, Eq, PartialOrd, Ord)]
struct State {
    members: BTreeSet<u8>,
    /// A date has to follow.
    marked: bool,
}

impl State {
    fn of_one(formula: u8, marked: bool) -> State {
        State {
            members: BTreeSet::from([formula]),
            marked,
        }
    }

    fn join(&self, other: &State) -> State {
        State {
            members: self.members.union(&other.members).copied().collect(),
            marked: self.marked || other.marked,
        }
    }

    fn mask(&self) -> u64 {
        let members: u64 = self.members.iter().map(|&member| 1 << member).sum();
        members + (u64::from(self.marked) << MARK)
    }
}

/// One way for formulas to hold: flags now, formulas after the date.
#[derive(Clone, Default, PartialEq, Eq, PartialOrd, Ord)]
struct Choice {
    present: u8,
    absent: u8,
    target: State,
}

impl Choice {
    fn next(formula: u8, marked: bool) -> Choice {
        Choice {
            target: State::of_one(formula, marked),
            ..Choice::default()
        }
    }

    fn join(&self, other: &Choice) -> Choice {
        Choice {
            present: self.present | other.present,
            absent: self.absent | other.absent,
            target: self.target.join(&other.target),
        }
    }

    fn wants_both_ways(&self) -> bool {
        self.present & self.absent != 0
    }
}

/// The choices in order; none stands for more than the limit.
type Choices = Option<Vec<Choice>>;

fn only(choice: Choice) -> Choices {
    Some(vec![choice])
}

fn either(p: &Choices, q: &Choices) -> Choices {
    let (p, q) = (p.as_ref()?, q.as_ref()?);
    (p.len() + q.len() <= MOST_CHOICES).then(|| [p.as_slice(), q].concat())
}

fn both(p: &Choices, q: &Choices) -> Choices {
    // No choice on one side leaves none at all, however many the other has.
    let empty = |side: &Choices| side.as_ref().is_some_and(Vec::is_empty);
    if empty(p) || empty(q) {
        return Some(vec![]);
    }
    let (p, q) = (p.as_ref()?, q.as_ref()?);
    if p.len() * q.len() > MOST_CHOICES {
        return None;
    }
    Some(
        p.iter()
            .flat_map(|left| q.iter().map(|right| left.join(right)))
            .collect(),
    )
}

fn choices_of(profile: Profile, number: u8, entry: Entry, earlier: &[Choices]) -> Choices {
    let of = |part: u8| &earlier[usize::from(part)];
    let strong = |formula: u8| only(Choice::next(formula, marks(profile)));
    let weak = |formula: u8| only(Choice::next(formula, false));
    match entry {
        Entry::Flag(flag) => only(Choice {
            present: 1 << flag,
            ..Choice::default()
        }),
        Entry::NotFlag(flag) => only(Choice {
            absent: 1 << flag,
            ..Choice::default()
        }),
        Entry::True => only(Choice::default()),
        Entry::False => Some(vec![]),
        Entry::And(p, q) => both(of(p), of(q)),
        Entry::Or(p, q) => either(of(p), of(q)),
        Entry::Next(p) => strong(p),
        Entry::WeakNext(p) => weak(p),
        Entry::Until(p, q) => either(of(q), &both(of(p), &strong(number))),
        Entry::Release(p, q) => both(of(q), &either(of(p), &weak(number))),
    }
}

/// Whether each formula holds once no date is left.
fn holds_at_end(entry: Entry, earlier: &[bool]) -> bool {
    let of = |part: u8| earlier[usize::from(part)];
    match entry {
        Entry::Flag(_) | Entry::False | Entry::Next(_) => false,
        Entry::NotFlag(_) | Entry::True | Entry::WeakNext(_) => true,
        Entry::And(p, q) => of(p) && of(q),
        Entry::Or(p, q) => of(p) || of(q),
        Entry::Until(_, q) | Entry::Release(_, q) => of(q),
    }
}

/// What is known of every formula before any state is looked at.
struct Known {
    profile: Profile,
    choices: Vec<Choices>,
    at_end: Vec<bool>,
}

impl Known {
    fn of(profile: Profile, rule: &Rule) -> Known {
        let mut known = Known {
            profile,
            choices: vec![],
            at_end: vec![],
        };
        for (number, &entry) in (0..).zip(rule.formulas()) {
            let choices = choices_of(profile, number, entry, &known.choices);
            known.choices.push(choices);
            known.at_end.push(holds_at_end(entry, &known.at_end));
        }
        known
    }

    /// The edges of a state; none when a limit is passed.
    fn row(&self, state: &State) -> Option<Vec<Choice>> {
        let start = only(Choice::default());
        let joined = state.members.iter().fold(start, |so_far, &member| {
            both(&so_far, &self.choices[usize::from(member)])
        });
        let mut seen = BTreeSet::new();
        let mut row = joined?;
        row.retain(|choice| !choice.wants_both_ways() && seen.insert(choice.clone()));
        (row.len() <= MOST_EDGES_IN_ROW).then_some(row)
    }

    fn accepts(&self, state: &State) -> bool {
        let at_end = |&member: &u8| self.at_end[usize::from(member)];
        match self.profile {
            Profile::Finite => state.members.iter().all(at_end),
            Profile::Last => !state.marked,
        }
    }
}

/// States in order of first meeting.
#[derive(Default)]
struct Meeting {
    states: Vec<State>,
    numbers: BTreeMap<State, StateNo>,
}

impl Meeting {
    fn meet(&mut self, state: &State) -> Option<StateNo> {
        if let Some(&number) = self.numbers.get(state) {
            return Some(number);
        }
        if self.states.len() == MOST_STATES {
            return None;
        }
        let number = StateNo(self.states.len());
        self.states.push(state.clone());
        self.numbers.insert(state.clone(), number);
        Some(number)
    }
}

fn edge_word(choice: &Choice, target: StateNo) -> u32 {
    u32::from(choice.present) | u32::from(choice.absent) << 8 | (target.0 as u32) << 16
}

/// Tables with room of their own, each slice as long as its size.
#[derive(Clone, Debug, PartialEq, Eq)]
pub struct OwnTables {
    pub states: usize,
    pub edge_count: usize,
    pub masks: Vec<u64>,
    pub starts: Vec<u16>,
    pub accepts: Vec<u8>,
    pub edges: Vec<u32>,
}

impl OwnTables {
    pub fn lend(&self) -> Tables<'_> {
        Tables {
            states: self.states,
            edge_count: self.edge_count,
            starts: &self.starts,
            accepts: &self.accepts,
            edges: &self.edges,
        }
    }

    fn close(mut self) -> OwnTables {
        self.states = self.masks.len();
        self.edge_count = self.edges.len();
        self.starts.push(self.edge_count as u16);
        self.masks.resize(MASKS_SIZE, 0);
        self.starts.resize(STARTS_SIZE, 0);
        self.accepts.resize(ACCEPTS_SIZE, 0);
        self.edges.resize(EDGES_SIZE, 0);
        self
    }
}

fn tables_of(profile: Profile, rule: &Rule) -> Option<OwnTables> {
    let known = Known::of(profile, rule);
    let mut meeting = Meeting::default();
    meeting.meet(&State::of_one(rule.count as u8 - 1, marks(profile)));
    let (masks, starts, accepts, edges) = (vec![], vec![], vec![], vec![]);
    let mut tables = OwnTables {
        states: 0,
        edge_count: 0,
        masks,
        starts,
        accepts,
        edges,
    };
    // The list of states grows while its rows are made.
    while let Some(state) = meeting.states.get(tables.masks.len()).cloned() {
        tables.masks.push(state.mask());
        tables.starts.push(tables.edges.len() as u16);
        tables.accepts.push(u8::from(known.accepts(&state)));
        for choice in known.row(&state)? {
            tables
                .edges
                .push(edge_word(&choice, meeting.meet(&choice.target)?));
        }
    }
    Some(tables.close())
}

/// The tables of a rule in room of their own: refusals 6, 9.
pub fn build_own(rule: &Rule) -> Result<OwnTables, u8> {
    let profile = profile_of(rule).ok_or(6)?;
    tables_of(profile, rule).ok_or(9)
}

/// Fills the lent slices with a rule's tables: refusals 6, 8, 9.
pub fn build(
    rule: &Rule,
    masks: &mut [u64],
    starts: &mut [u16],
    accepts: &mut [u8],
    edges: &mut [u32],
) -> Result<(usize, usize), u8> {
    let profile = profile_of(rule).ok_or(6)?;
    let (Some(masks), Some(starts), Some(accepts), Some(edges)) = (
        masks.get_mut(..MASKS_SIZE),
        starts.get_mut(..STARTS_SIZE),
        accepts.get_mut(..ACCEPTS_SIZE),
        edges.get_mut(..EDGES_SIZE),
    ) else {
        return Err(8);
    };
    let Some(tables) = tables_of(profile, rule) else {
        masks.fill(0);
        starts.fill(0);
        accepts.fill(0);
        edges.fill(0);
        return Err(9);
    };
    masks.copy_from_slice(&tables.masks);
    starts.copy_from_slice(&tables.starts);
    accepts.copy_from_slice(&tables.accepts);
    edges.copy_from_slice(&tables.edges);
    Ok((tables.states, tables.edge_count))
}

/// Tables handed in; what lies past the counts is not looked at.
#[derive(Clone, Copy, Debug)]
pub struct Tables<'a> {
    pub states: usize,
    pub edge_count: usize,
    pub starts: &'a [u16],
    pub accepts: &'a [u8],
    pub edges: &'a [u32],
}

/// One edge taken apart.
#[derive(Clone, Copy, Debug, PartialEq, Eq)]
pub struct Edge {
    pub present: u8,
    pub absent: u8,
    pub target: StateNo,
}

impl Edge {
    pub fn of(word: u32) -> Edge {
        let [present, absent, low, high] = word.to_le_bytes();
        Edge {
            present,
            absent,
            target: StateNo(u16::from_le_bytes([low, high]).into()),
        }
    }

    pub fn allows(self, date: u8) -> bool {
        self.present & !date == 0 && self.absent & date == 0
    }
}

impl Tables<'_> {
    /// The edges of a state; only for good tables.
    pub fn row(&self, state: StateNo) -> impl Iterator<Item = Edge> + '_ {
        let (from, to) = (self.starts[state.0], self.starts[state.0 + 1]);
        self.edges[from.into()..to.into()]
            .iter()
            .map(|&word| Edge::of(word))
    }

    pub fn accepts(&self, state: StateNo) -> bool {
        self.accepts[state.0] == 1
    }

    fn starts_are_good(&self, starts: &[u16]) -> bool {
        let last = usize::from(starts[self.states]);
        starts[0] == 0
            && starts.windows(2).all(|pair| pair[0] <= pair[1])
            && last <= EDGES_SIZE
            && last == self.edge_count
    }

    fn edge_is_good(&self, edge: Edge) -> bool {
        edge.present & edge.absent == 0 && edge.target.0 < self.states
    }
}

/// Whether tables handed in describe an automaton.
pub fn good_tables(tables: &Tables) -> bool {
    if tables.states == 0 || tables.states > MOST_STATES {
        return false;
    }
    let (Some(starts), Some(accepts), Some(edges)) = (
        tables.starts.get(..=tables.states),
        tables.accepts.get(..tables.states),
        tables.edges.get(..tables.edge_count),
    ) else {
        return false;
    };
    tables.starts_are_good(starts)
        && accepts.iter().all(|&accept| accept <= 1)
        && edges
            .iter()
            .all(|&word| tables.edge_is_good(Edge::of(word)))
}
