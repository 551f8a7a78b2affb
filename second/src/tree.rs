//! From tokens to the tree as written, by two stacks.

use crate::text::{tokens, Binary, Prefix, Stop, Token, Wanted};
use std::rc::Rc;

pub const LONGEST_TEXT: usize = 1024;
pub const DEEPEST: usize = 32;

/// A refusal of a text.
#[derive(Clone, Copy, Debug, PartialEq, Eq)]
pub struct Refusal {
    pub number: u8,
    pub place: usize,
    /// Said by 2 and 3 alone.
    pub wanted: Option<Wanted>,
}

impl Refusal {
    pub fn at(number: u8, place: usize) -> Refusal {
        Refusal {
            number,
            place,
            wanted: None,
        }
    }

    pub fn wanting(self, wanted: Wanted) -> Refusal {
        Refusal {
            wanted: Some(wanted),
            ..self
        }
    }

    /// What was wanted, as the calls give it.
    pub fn wanted_number(&self) -> u8 {
        match self.wanted {
            None => 0,
            Some(Wanted::Operand) => 1,
            Some(Wanted::Operator) => 2,
            Some(Wanted::Arrow) => 3,
        }
    }
}

/// A rule as written, before any negation is pushed inward.
#[derive(Clone, Debug, PartialEq, Eq)]
pub enum Tree {
    Flag(u8),
    True,
    False,
    Under(Prefix, Rc<Tree>),
    Between(Binary, Rc<Tree>, Rc<Tree>),
}

/// A sign whose last part is still being read.
#[derive(Clone, Copy, PartialEq, Eq)]
enum Pending {
    Open,
    Prefix(Prefix),
    Binary(Binary),
}

impl Pending {
    fn raises_depth(self) -> bool {
        !matches!(self, Pending::Binary(Binary::And | Binary::Or))
    }
}

fn tightness(binary: Binary) -> u8 {
    match binary {
        Binary::Until | Binary::Release => 3,
        Binary::And => 2,
        Binary::Or => 1,
        Binary::Implies => 0,
    }
}

fn groups_left(binary: Binary) -> bool {
    matches!(binary, Binary::And | Binary::Or)
}

/// Whether a pending sign has all its parts once `coming` is met.
fn ends_before(pending: Pending, coming: Binary) -> bool {
    match pending {
        Pending::Open => false,
        Pending::Prefix(_) => true,
        Pending::Binary(earlier) => {
            let (held, new) = (tightness(earlier), tightness(coming));
            held > new || held == new && groups_left(coming)
        }
    }
}

#[derive(Default)]
struct Yard {
    operands: Vec<Rc<Tree>>,
    pending: Vec<Pending>,
}

impl Yard {
    /// The depth at the place reached: one for each pending sign that raises it.
    fn depth(&self) -> usize {
        self.pending
            .iter()
            .filter(|sign| sign.raises_depth())
            .count()
    }

    fn operand(&mut self) -> Rc<Tree> {
        self.operands
            .pop()
            .expect("the machine lets no sign stand without its parts")
    }

    fn finish(&mut self, sign: Pending) {
        let tree = match sign {
            Pending::Open => return,
            Pending::Prefix(prefix) => Tree::Under(prefix, self.operand()),
            Pending::Binary(binary) => {
                let right = self.operand();
                Tree::Between(binary, self.operand(), right)
            }
        };
        self.operands.push(Rc::new(tree));
    }

    fn finish_while(&mut self, ends: impl Fn(Pending) -> bool) {
        while self.pending.last().is_some_and(|&sign| ends(sign)) {
            if let Some(sign) = self.pending.pop() {
                self.finish(sign);
            }
        }
    }

    /// Takes one token and says whether the depth stays within its limit.
    fn take(&mut self, token: Token) -> bool {
        match token {
            Token::Flag(flag) => self.operands.push(Rc::new(Tree::Flag(flag))),
            Token::True => self.operands.push(Rc::new(Tree::True)),
            Token::False => self.operands.push(Rc::new(Tree::False)),
            Token::Open => self.pending.push(Pending::Open),
            Token::Prefix(prefix) => self.pending.push(Pending::Prefix(prefix)),
            Token::Binary(binary) => {
                self.finish_while(|sign| ends_before(sign, binary));
                self.pending.push(Pending::Binary(binary));
            }
            Token::Close => {
                self.finish_while(|sign| sign != Pending::Open);
                self.pending.pop();
            }
        }
        self.depth() <= DEEPEST
    }
}

/// Reads a text as a tree: refusals 1 to 4.
pub fn read_tree(text: &[u8]) -> Result<Rc<Tree>, Refusal> {
    if text.len() > LONGEST_TEXT {
        return Err(Refusal::at(1, LONGEST_TEXT));
    }
    let tokens = tokens(text);
    let mut yard = Yard::default();
    // Every token met lies before the stop, so a depth refusal has the smaller place.
    for (token, place) in tokens.met {
        if !yard.take(token) {
            return Err(Refusal::at(4, place));
        }
    }
    match tokens.stop {
        Some(Stop::NoTextGoesOn(place, wanted)) => {
            return Err(Refusal::at(2, place).wanting(wanted));
        }
        Some(Stop::TextEnds(place, wanted)) => return Err(Refusal::at(3, place).wanting(wanted)),
        None => {}
    }
    yard.finish_while(|_| true);
    Ok(yard.operand())
}
