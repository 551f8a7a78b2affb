//! From bytes to tokens: a small machine that knows whether some text goes on.

/// A sign that stands before its part.
#[derive(Clone, Copy, Debug, PartialEq, Eq)]
pub enum Prefix {
    Not,
    Next,
    WeakNext,
    Eventually,
    Always,
}

/// A sign that stands between its parts.
#[derive(Clone, Copy, Debug, PartialEq, Eq)]
pub enum Binary {
    Until,
    Release,
    And,
    Or,
    Implies,
}

#[derive(Clone, Copy, Debug, PartialEq, Eq)]
pub enum Token {
    Flag(u8),
    True,
    False,
    Prefix(Prefix),
    Binary(Binary),
    Open,
    Close,
}

/// What the bytes so far leave to come.
#[derive(Clone, Copy, Debug, PartialEq, Eq)]
pub enum Wanted {
    Operand,
    /// A binary sign or a closing parenthesis.
    Operator,
    /// The second byte of `->`.
    Arrow,
}

impl Wanted {
    /// As the program prints it.
    pub fn word(self) -> &'static str {
        match self {
            Wanted::Operand => "operand",
            Wanted::Operator => "operator",
            Wanted::Arrow => "arrow",
        }
    }
}

/// Why the machine stopped before taking the whole text as a rule, where, and what it wanted there.
#[derive(Clone, Copy, Debug, PartialEq, Eq)]
pub enum Stop {
    NoTextGoesOn(usize, Wanted),
    TextEnds(usize, Wanted),
}

/// The tokens met, each with the place of its first byte, up to the stop.
pub struct Tokens {
    pub met: Vec<(Token, usize)>,
    pub stop: Option<Stop>,
}

#[derive(Clone, Copy, PartialEq, Eq)]
enum Sign {
    Blank,
    /// A token of one byte.
    Whole(Token),
    Dash,
    Greater,
    Other,
}

fn sign_of(byte: u8) -> Sign {
    match byte {
        b' ' => Sign::Blank,
        b'-' => Sign::Dash,
        b'>' => Sign::Greater,
        b'a'..=b'h' => Sign::Whole(Token::Flag(byte - b'a')),
        b'1' => Sign::Whole(Token::True),
        b'0' => Sign::Whole(Token::False),
        b'!' => Sign::Whole(Token::Prefix(Prefix::Not)),
        b'X' => Sign::Whole(Token::Prefix(Prefix::Next)),
        b'N' => Sign::Whole(Token::Prefix(Prefix::WeakNext)),
        b'F' => Sign::Whole(Token::Prefix(Prefix::Eventually)),
        b'G' => Sign::Whole(Token::Prefix(Prefix::Always)),
        b'U' => Sign::Whole(Token::Binary(Binary::Until)),
        b'R' => Sign::Whole(Token::Binary(Binary::Release)),
        b'&' => Sign::Whole(Token::Binary(Binary::And)),
        b'|' => Sign::Whole(Token::Binary(Binary::Or)),
        b'(' => Sign::Whole(Token::Open),
        b')' => Sign::Whole(Token::Close),
        _ => Sign::Other,
    }
}

struct Machine {
    wanted: Wanted,
    open: usize,
}

impl Machine {
    /// What is wanted after this sign; none when no text goes on with it.
    fn after(&self, sign: Sign) -> Option<Wanted> {
        match (self.wanted, sign) {
            (Wanted::Operand | Wanted::Operator, Sign::Blank) => Some(self.wanted),
            (Wanted::Operand, Sign::Whole(token)) => match token {
                Token::Flag(_) | Token::True | Token::False => Some(Wanted::Operator),
                Token::Prefix(_) | Token::Open => Some(Wanted::Operand),
                Token::Binary(_) | Token::Close => None,
            },
            (Wanted::Operator, Sign::Whole(token)) => match token {
                Token::Binary(_) => Some(Wanted::Operand),
                Token::Close if self.open > 0 => Some(Wanted::Operator),
                _ => None,
            },
            (Wanted::Operator, Sign::Dash) => Some(Wanted::Arrow),
            (Wanted::Arrow, Sign::Greater) => Some(Wanted::Operand),
            _ => None,
        }
    }

    fn can_end(&self) -> bool {
        self.wanted == Wanted::Operator && self.open == 0
    }

    /// Moves on by one sign and says whether some text could.
    fn take(&mut self, sign: Sign) -> bool {
        let Some(wanted) = self.after(sign) else {
            return false;
        };
        match sign {
            Sign::Whole(Token::Open) => self.open += 1,
            Sign::Whole(Token::Close) => self.open -= 1,
            _ => {}
        }
        self.wanted = wanted;
        true
    }
}

/// Takes the text apart, limits aside.
pub fn tokens(text: &[u8]) -> Tokens {
    let mut machine = Machine {
        wanted: Wanted::Operand,
        open: 0,
    };
    let mut met = Vec::new();
    for (place, &byte) in text.iter().enumerate() {
        let sign = sign_of(byte);
        if !machine.take(sign) {
            return Tokens {
                met,
                stop: Some(Stop::NoTextGoesOn(place, machine.wanted)),
            };
        }
        match sign {
            Sign::Whole(token) => met.push((token, place)),
            // The arrow counts only once it is whole, and from its first byte.
            Sign::Greater => met.push((Token::Binary(Binary::Implies), place - 1)),
            _ => {}
        }
    }
    let stop = (!machine.can_end()).then_some(Stop::TextEnds(text.len(), machine.wanted));
    Tokens { met, stop }
}
