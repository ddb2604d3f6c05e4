//! Random items under random small tables, in a span of their own: past checks
//! 1 to 10, and most of them without a tree, for each reason and in each kind
//! of span.

use super::{Random, Tokens, join, split};

/// What a small table declares; the starting operators are in force too.
const NAMES: &[&str] = &["s", "p", "m", "==>", "+", "-", "=", "<", "*"];

/// Few precedences, so that many are the same; most are starting operators'.
const PRECEDENCES: &[u32] = &[300, 350, 400, 400, 400, 500, 600, 800];

const PREFIX: &[Option<&str>] = &[None, Some("non"), Some("right")];
const INFIX: &[Option<&str>] = &[None, Some("non"), Some("left"), Some("right")];
const POSTFIX: &[Option<&str>] = &[None, Some("non"), Some("left")];

/// An operator by the associativity of its role as prefix, infix and postfix.
#[derive(Clone, Copy)]
struct Operator {
    name: &'static str,
    roles: [Option<&'static str>; 3],
}

const START: &[Operator] = &[
    Operator { name: "or", roles: [None, Some("left"), None] },
    Operator { name: "and", roles: [None, Some("left"), None] },
    Operator { name: "not", roles: [Some("right"), None, None] },
    Operator { name: "=", roles: [None, Some("non"), None] },
    Operator { name: "<", roles: [None, Some("non"), None] },
    Operator { name: "+", roles: [None, Some("left"), None] },
    Operator { name: "-", roles: [Some("non"), Some("left"), None] },
    Operator { name: "*", roles: [None, Some("left"), None] },
];

/// The overloading rule: every operator meets the four conditions, or none is
/// both infix and postfix.
#[derive(Clone, Copy, PartialEq)]
enum Sort {
    Conditions,
    Apart,
}

impl Sort {
    fn permits(self, [prefix, infix, postfix]: [Option<&str>; 3]) -> bool {
        let only = |role: Option<&str>, wanted| role.is_none() || role == Some(wanted);
        match (self, infix) {
            (Sort::Apart, _) => infix.is_none() || postfix.is_none(),
            (_, None) => true,
            (_, Some("right")) => only(prefix, "right") && postfix.is_none(),
            (_, Some(side)) => only(prefix, "non") && only(postfix, side),
        }
    }
}

/// Items inside a few brackets and blocks, one of these with a table.
pub fn text(random: &mut Random) -> Vec<u8> {
    let mut operators = START.to_vec();
    let (mut front, mut behind) = (Tokens::new(), Tokens::new());
    let with_table = !random.one_in(4);
    let around = random.index(3);
    let table = random.index(around + 1);
    for depth in 0..=around {
        if with_table && depth == table {
            front.extend(declarations(random, &mut operators));
            behind.push(b"end".to_vec());
        }
        if depth < around {
            let [open, close] = around_span(random);
            front.extend(split(open));
            behind.extend(split(close).into_iter().rev());
        }
    }
    front.extend(items(random, &operators));
    front.extend(behind.into_iter().rev());
    join(random, &front)
}

/// What stands before a span and behind it. `or` and `not` are reserved, so
/// these are read under every table.
fn around_span(random: &mut Random) -> [&'static str; 2] {
    *random.pick(&[
        ["(", ")"],
        ["(", ") or a"],
        ["not (", ")"],
        ["b or (", ")"],
        ["let in", "end"],
        ["let in", "end or ( c )"],
        ["( a ) or not let in", "end"],
    ])
}

/// A block's `let` to its `in`, with one to four operators declared anew.
fn declarations(random: &mut Random, operators: &mut Vec<Operator>) -> Tokens {
    let sort = *random.pick(&[Sort::Conditions, Sort::Apart]);
    let mut text = String::from("let ");
    for _ in 0..1 + random.below(4) {
        let name = *random.pick(NAMES);
        let operator = operator(random, name, sort);
        operators.retain(|other| other.name != name);
        operators.push(operator);
        text += &format!("plain {name} ; ");
        let common = *random.pick(PRECEDENCES);
        for (fixity, role) in ["prefix", "infix", "postfix"].iter().zip(operator.roles) {
            let own = *random.pick(PRECEDENCES);
            let precedence = if sort == Sort::Apart { own } else { common };
            text += &role.map_or(String::new(), |side| format!("{fixity} {side} {precedence} {name} ; "));
        }
    }
    split(&(text + "in"))
}

/// Half of the operators that may be are both infix and postfix.
fn operator(random: &mut Random, name: &'static str, sort: Sort) -> Operator {
    let both = sort == Sort::Conditions && random.one_in(2);
    loop {
        let roles = [*random.pick(PREFIX), *random.pick(INFIX), *random.pick(POSTFIX)];
        let wanted = if both { roles[1].is_some() && roles[2].is_some() } else { roles != [None; 3] };
        if wanted && sort.permits(roles) {
            return Operator { name, roles };
        }
    }
}

/// Some items; most operands and operators have a role for where they stand.
fn items(random: &mut Random, operators: &[Operator]) -> Tokens {
    let mut tokens = Tokens::new();
    let mut wanted = true;
    let odd = 4 + random.below(30);
    for _ in 0..random.below(14) {
        let fits = |operator: &&Operator| match operator.roles {
            [prefix, ..] if wanted => prefix.is_some(),
            [_, infix, postfix] => infix.is_some() || postfix.is_some(),
        };
        let fitting: Vec<&Operator> = operators.iter().rev().filter(fits).collect();
        let operand = if wanted { !random.one_in(4) } else { false };
        if operand != random.one_in(odd) || fitting.is_empty() {
            tokens.extend(split(self::operand(random)));
            wanted = false;
        } else {
            let operator = if random.one_in(odd) { random.pick(operators) } else { early(random, &fitting) };
            tokens.push(operator.name.into());
            wanted =
                wanted || operator.roles[1].is_some() && (operator.roles[2].is_none() || random.one_in(2));
        }
    }
    tokens
}

/// One of the first more often than one of the last.
fn early<'o>(random: &mut Random, operators: &[&'o Operator]) -> &'o Operator {
    let first = 1 + random.index(operators.len());
    operators[random.index(first)]
}

fn operand(random: &mut Random) -> &'static str {
    const OPERANDS: &[&str] = &[
        "a", "b", "a", "grade", "7", "007", "'a'", "'O''Neill'", "'not'", "( a )", "( a + b )", "( ( 7 ) )",
        "let in a end", "let infix left 400 t ; in a t b end", "( )", "( a b )", "let in end", "AND",
    ];
    random.pick::<&str>(OPERANDS)
}
