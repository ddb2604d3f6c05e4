//! Well-formed rules: trees over a table of operators, a bracket round most
//! operands that their place does not admit and round some others; blocks whose
//! declarations mostly pass the checks; names in quotes where they need them
//! and where not, some with quotes in them.

use super::{Random, Tokens, quoted};

#[derive(Clone, Copy, PartialEq)]
enum Side {
    Non,
    Left,
    Right,
}
use Side::{Left, Non, Right};

const FIXITIES: [&str; 3] = ["prefix", "infix", "postfix"];
const SIDES: [&[Side]; 3] = [&[Non, Right], &[Non, Left, Right], &[Non, Left]];

/// The precedence and side of each fixity.
type Roles = [Option<(u32, Side)>; 3];

#[derive(Clone)]
struct Operator {
    name: &'static str,
    roles: Roles,
}

/// The reserved operators: a block that declares one is refused.
const RESERVED: &[&str] = &["and", "or", "not"];

/// Names for other operators. Those that look alike have the same bytes in
/// part, or the same ones in another order.
const NAMES: &[&str] = &[
    "=", "<", "+", "-", "*", "-", "+", "s", "p", "r", "xor", "==>", "!", "?", "<=", "infix", "left", "plain",
    "non", "o", "And", "ands", "an", "ro", "no", "p_______q", "q_______p", "p_______", "inn", "Let",
    "w12345678901234567890123456789012345678901234567890123456789012",
    "w12345678901234567890123456789012345678901234567890123456789013",
];

const LEAVES: &[&str] = &[
    "a", "b", "c", "a1", "x_y", "A", "prefix", "postfix", "right", "a", "b", "0", "1", "42", "007",
    "999999999", "000000000", "'a'", "'not'", "'a b'", "'+'", "'end'", "'let'", "'('", "'12'", "/", "::",
    "p______p_", "'O''Neill'", "'D''Souza'", "''''", "'a'''",
];

fn start() -> Vec<Operator> {
    let operator = |name, roles| Operator { name, roles };
    let infix = |precedence, side| [None, Some((precedence, side)), None];
    vec![
        operator("or", infix(800, Left)),
        operator("and", infix(700, Left)),
        operator("not", [Some((600, Right)), None, None]),
        operator("=", infix(500, Non)),
        operator("<", infix(500, Non)),
        operator("+", infix(400, Left)),
        operator("-", [Some((400, Non)), Some((400, Left)), None]),
        operator("*", infix(300, Left)),
    ]
}

fn is_apart(roles: &Roles) -> bool {
    roles[1].is_none() || roles[2].is_none()
}

/// The four conditions.
fn is_consistent(roles: &Roles) -> bool {
    let mut precedences = roles.iter().flatten().map(|role| role.0);
    let first = precedences.next();
    let side = |fixity: usize| roles[fixity].map(|role| role.1);
    let only = |fixity, wanted| side(fixity).is_none_or(|side| side == wanted);
    precedences.all(|precedence| Some(precedence) == first)
        && match side(1) {
            None => true,
            Some(Non) => only(0, Non) && only(2, Non),
            Some(Left) => only(0, Non) && only(2, Left),
            Some(Right) => only(0, Right) && roles[2].is_none(),
        }
}

/// An expression's tokens, its root's precedence, and whether the root is
/// right-associative.
struct Expression {
    tokens: Tokens,
    precedence: u32,
    right: bool,
}

struct Rules<'r> {
    random: &'r mut Random,
    operators: Vec<Operator>,
    /// What any block so far has declared, still in force or not.
    declared: Vec<&'static str>,
    depth: u32,
}

/// The tokens of a rule, most often readable.
pub fn rule(random: &mut Random) -> Tokens {
    let size = match random.below(50) {
        0 => 100 + random.below(300),
        1..10 => 20 + random.below(60),
        _ => 1 + random.below(20),
    };
    let mut rules = Rules { random, operators: start(), declared: Vec::new(), depth: 0 };
    rules.expression(size, 1200).tokens
}

impl Rules<'_> {
    /// An expression of about `size` operators, its precedence mostly within
    /// the bound.
    fn expression(&mut self, size: u64, bound: u32) -> Expression {
        let deep = self.depth >= 30;
        if !deep && self.random.one_in(if size > 2 { 9 } else { 40 }) {
            return self.block(size);
        }
        if !deep && self.random.one_in(15) {
            let inner = self.nested(size);
            return bracket(inner);
        }
        if size == 0 {
            return self.leaf();
        }
        let roles = self.roles_within(bound);
        if roles.is_empty() {
            return self.leaf();
        }
        let &(name, fixity, (precedence, side)) = self.random.pick(&roles);
        let left = match fixity {
            0 => 0,
            1 => self.random.below(size),
            _ => size - 1,
        };
        let bound_where = |same: bool| if same { precedence } else { precedence - 1 };
        let mut tokens = Tokens::new();
        if fixity != 0 {
            let operand = self.expression(left, bound_where(side == Left));
            let same = side == Left && !operand.right;
            tokens.extend(self.fit(operand, precedence, same));
        }
        tokens.push(name.into());
        if fixity != 2 {
            let operand = self.expression(size - 1 - left, bound_where(side == Right));
            tokens.extend(self.fit(operand, precedence, side == Right));
        }
        Expression { tokens, precedence, right: side == Right }
    }

    /// Names, fixities and roles to choose from: those within the bound, now
    /// and then all.
    fn roles_within(&mut self, bound: u32) -> Vec<(&'static str, usize, (u32, Side))> {
        let bound = if self.random.one_in(6) { 1200 } else { bound };
        let mut found = Vec::new();
        for operator in &self.operators {
            for (fixity, role) in operator.roles.iter().enumerate() {
                found.extend(role.filter(|role| role.0 <= bound).map(|role| (operator.name, fixity, role)));
            }
        }
        found
    }

    /// The operand, in a bracket (but not always) if it is not admitted, else
    /// now and then in spare brackets.
    fn fit(&mut self, operand: Expression, precedence: u32, same: bool) -> Tokens {
        let admitted = operand.precedence < precedence || same && operand.precedence == precedence;
        let mut brackets = u64::from(!admitted && !self.random.one_in(60));
        if self.random.one_in(16) {
            brackets += 1 + self.random.below(3);
        }
        (0..brackets).fold(operand, |operand, _| bracket(operand)).tokens
    }

    fn nested(&mut self, size: u64) -> Expression {
        self.depth += 1;
        let inner = self.expression(size, 1200);
        self.depth -= 1;
        inner
    }

    fn leaf(&mut self) -> Expression {
        let leaf = match self.random.below(100) {
            0 => self.name(RESERVED),
            1..10 => self.name(NAMES),
            10..30 if !self.declared.is_empty() => self.name(&self.declared.clone()),
            30..40 => format!("{}{}", self.zeros(), self.random.below(1000)).into(),
            40..43 => quoted::short(self.random),
            _ => self.random.pick(LEAVES).as_bytes().to_vec(),
        };
        Expression { tokens: vec![leaf], precedence: 0, right: false }
    }

    /// A name in quotes if it is an operator here, else half of the time; now
    /// and then with a quote before or behind it, which is another name.
    fn name(&mut self, names: &[&str]) -> Vec<u8> {
        let name = *self.random.pick(names);
        if self.random.one_in(8) && name.len() < 63 {
            let [before, behind] = *self.random.pick(&[["", "'"], ["'", ""]]);
            return quoted::quoted(format!("{before}{name}{behind}").as_bytes());
        }
        let in_force = self.operators.iter().any(|o| o.name == name && o.roles != [None; 3]);
        if in_force || self.random.one_in(2) { format!("'{name}'").into() } else { name.into() }
    }

    /// At most five, often none.
    fn zeros(&mut self) -> &'static str {
        if self.random.one_in(3) { &"00000"[self.random.index(6)..] } else { "" }
    }

    fn block(&mut self, size: u64) -> Expression {
        let outer = self.operators.clone();
        let mut tokens = vec![b"let".to_vec()];
        for _ in 0..self.random.below(6) {
            self.declaration(&mut tokens);
        }
        if !self.random.one_in(12) {
            self.repair(&mut tokens);
        }
        if self.random.one_in(25) {
            self.spoil(&mut tokens);
        }
        tokens.push(b"in".to_vec());
        tokens.extend(self.nested(size).tokens);
        tokens.push(b"end".to_vec());
        self.operators = outer;
        Expression { tokens, precedence: 0, right: false }
    }

    fn operator(&mut self, name: &'static str) -> &mut Operator {
        let at = self.operators.iter().position(|operator| operator.name == name);
        let at = at.unwrap_or_else(|| {
            self.operators.push(Operator { name, roles: [None; 3] });
            self.operators.len() - 1
        });
        &mut self.operators[at]
    }

    fn precedence(&mut self) -> u32 {
        match self.random.below(8) {
            0 => 1 + self.random.below(1200) as u32,
            1 => *self.random.pick(&[1, 2, 1199, 1200]),
            _ => *self.random.pick(&[300, 350, 400, 400, 450, 500, 600, 700]),
        }
    }

    /// A reserved operator seldom, or too few blocks would be read.
    fn declaration(&mut self, tokens: &mut Tokens) {
        let names = if self.random.one_in(60) { RESERVED } else { NAMES };
        let name = *self.random.pick(names);
        if self.random.one_in(7) {
            return self.make_plain(name, tokens);
        }
        let fixity = self.random.index(3);
        let side = *self.random.pick(SIDES[fixity]);
        let former = self.operator(name).roles.iter().flatten().next().copied();
        let precedence = match former {
            Some((precedence, _)) if !self.random.one_in(3) => precedence,
            _ => self.precedence(),
        };
        self.declare(name, fixity, (precedence, side), tokens);
    }

    fn declare(&mut self, name: &'static str, fixity: usize, role: (u32, Side), tokens: &mut Tokens) {
        self.operator(name).roles[fixity] = Some(role);
        self.declared.push(name);
        let side = ["non", "left", "right"][role.1 as usize];
        let precedence = format!("{}{}", self.zeros(), role.0);
        tokens.extend([FIXITIES[fixity], side, &precedence, name, ";"].map(|token| token.into()));
    }

    fn make_plain(&mut self, name: &'static str, tokens: &mut Tokens) {
        self.operator(name).roles = [None; 3];
        tokens.extend(["plain", name, ";"].map(|token| token.into()));
    }

    /// Keeps the overloading rule: where an operator is both infix and
    /// postfix, declares all such operators anew, or all that break the four
    /// conditions.
    fn repair(&mut self, tokens: &mut Tokens) {
        if self.operators.iter().all(|operator| is_apart(&operator.roles)) {
            return;
        }
        let apart = self.random.one_in(3);
        let kept = if apart { is_apart } else { is_consistent };
        let broken = self.operators.iter().filter(|operator| !kept(&operator.roles));
        let broken: Vec<&str> = broken.map(|operator| operator.name).collect();
        for name in broken {
            self.make_plain(name, tokens);
            let common = self.precedence();
            for _ in 0..self.random.below(5) {
                let fixity = self.random.index(3);
                let precedence = if apart { self.precedence() } else { common };
                let role = (precedence, *self.random.pick(SIDES[fixity]));
                let mut roles = self.operator(name).roles;
                roles[fixity] = Some(role);
                if kept(&roles) {
                    self.declare(name, fixity, role, tokens);
                }
            }
        }
    }

    /// Adds a declaration that is mostly malformed or of a reserved operator.
    fn spoil(&mut self, tokens: &mut Tokens) {
        const SPOILT: &[&str] = &[
            "infix left 0 s ;", "infix left 1201 s ;", "prefix right 0000 s ;", "postfix non 999999999 s ;",
            "infix non 1000000000 s ;", "prefix left 400 s ;", "postfix right 400 s ;",
            "infix non 1200 ss ;", "prefix non 1 ss ;", "infix left 400 's' ;", "infix left 400 in ;",
            "infix left 400 7 ;", "infix left 400 s", "infix left 400 s s ;", "infix left s ;",
            "infix 400 left s ;", "plain ;", "plain 's' ;", "plain in ;", "plain s", "left infix 400 s ;",
            ";", "infix", "'infix' left 4 s ;", "plain let ;", "plain end ;", "infix left 400 ( ;",
            "INFIX left 400 s ;", "plain unknown ;", "plain and", "plain 'and' ;", "plain or or ;",
            "infix left 0 and ;", "prefix left 600 not ;", "infix left 700 and", "infix left 'or' ;",
            "plain 's''' ;", "infix left 4 '''' ;", "plain not ;", "infix left 700 and ;",
            "postfix left 700 and ;", "prefix right 600 not ;", "infix right 1200 or ;",
            "plain or ; plain s", "plain s plain or ;",
        ];
        let spoilt = self.random.pick(SPOILT);
        tokens.extend(spoilt.split(' ').map(|token| token.into()));
    }
}

fn bracket(inner: Expression) -> Expression {
    let mut tokens = vec![b"(".to_vec()];
    tokens.extend(inner.tokens);
    tokens.push(b")".to_vec());
    Expression { tokens, precedence: 0, right: false }
}
