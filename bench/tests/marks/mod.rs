//! All trees of a span, enumerated from document 01's definition, under random
//! tables.

use rule_bench::texts::Random;
use std::fmt::Write;

#[derive(Clone, Copy, PartialEq)]
pub enum Side {
    Non,
    Left,
    Right,
}
pub use Side::{Left, Non, Right};

/// Level and side as prefix, infix and postfix.
pub type Mark = [Option<(u32, Side)>; 3];

/// Which tables: those whose marks all satisfy the four conditions, and those
/// in which no mark has both an infix and a postfix role (document 02,
/// section 2).
#[derive(Clone, Copy, PartialEq)]
pub enum Sort {
    Conditions,
    Apart,
}

/// Conditions 2 to 4 of the check at `in`.
fn allowed([prefix, infix, postfix]: [Option<Side>; 3]) -> bool {
    let only = |side: Option<Side>, wanted| side.is_none() || side == Some(wanted);
    match infix {
        None => true,
        Some(Non) => only(prefix, Non) && only(postfix, Non),
        Some(Left) => only(prefix, Non) && only(postfix, Left),
        Some(Right) => only(prefix, Right) && postfix.is_none(),
    }
}

fn random_mark(random: &mut Random, levels: u64, sort: Sort) -> Mark {
    const PREFIX: [Option<Side>; 3] = [None, Some(Non), Some(Right)];
    const INFIX: [Option<Side>; 4] = [None, Some(Non), Some(Left), Some(Right)];
    const POSTFIX: [Option<Side>; 3] = [None, Some(Non), Some(Left)];
    loop {
        let sides = [*random.pick(&PREFIX), *random.pick(&INFIX), *random.pick(&POSTFIX)];
        let fits = match sort {
            Sort::Conditions => allowed(sides),
            Sort::Apart => sides[1].is_none() || sides[2].is_none(),
        };
        if !fits || sides == [None; 3] {
            continue;
        }
        let common = 1 + random.below(levels) as u32;
        return sides.map(|side| {
            let own = 1 + random.below(levels) as u32;
            side.map(|side| (if sort == Sort::Apart { own } else { common }, side))
        });
    }
}

pub fn random_marks(random: &mut Random, count: u64, levels: u64) -> Vec<Mark> {
    let sort = *random.pick(&[Sort::Conditions, Sort::Apart]);
    (0..count).map(|_| random_mark(random, levels, sort)).collect()
}

/// The shape has for each node what it is, its item's position and its level.
pub struct Tree {
    pub level: u32,
    pub right: bool,
    pub shape: String,
}

pub const LEAF: u64 = u64::MAX;

/// Every tree of the items from `from` to `to`.
pub fn trees(marks: &[Mark], items: &[u64], from: usize, to: usize) -> Vec<Tree> {
    let mut found = Vec::new();
    if to - from == 1 && items[from] == LEAF {
        found.push(Tree { level: 0, right: false, shape: format!("{from}:0") });
    }
    for at in from..to {
        if items[at] == LEAF {
            continue;
        }
        let mark = marks[items[at] as usize];
        let on_right = |(level, side), t: &Tree| t.level < level || t.level == level && side == Right;
        let on_left =
            |(level, side), t: &Tree| t.level < level || t.level == level && side == Left && !t.right;
        let before = || trees(marks, items, from, at);
        let after = || trees(marks, items, at + 1, to);
        if let (Some(role @ (level, side)), true) = (mark[0], at == from) {
            for t in after().iter().filter(|t| on_right(role, t)) {
                let shape = format!("(3@{at}:{level} {})", t.shape);
                found.push(Tree { level, right: side == Right, shape });
            }
        }
        if let Some(role @ (level, side)) = mark[1] {
            for l in before().iter().filter(|t| on_left(role, t)) {
                for r in after().iter().filter(|t| on_right(role, t)) {
                    let shape = format!("(4@{at}:{level} {} {})", l.shape, r.shape);
                    found.push(Tree { level, right: side == Right, shape });
                }
            }
        }
        if let (Some(role @ (level, _)), true) = (mark[2], at + 1 == to) {
            for t in before().iter().filter(|t| on_left(role, t)) {
                found.push(Tree { level, right: false, shape: format!("(5@{at}:{level} {})", t.shape) });
            }
        }
    }
    found
}

/// The declarations of the marks m0, m1, ... up to `in`.
pub fn head(marks: &[Mark]) -> String {
    let mut text = String::from("let ");
    for (i, mark) in marks.iter().enumerate() {
        for (fixity, role) in ["prefix", "infix", "postfix"].iter().zip(mark) {
            if let Some((level, side)) = role {
                let side = ["non", "left", "right"][*side as usize];
                write!(text, "{fixity} {side} {level} m{i} ; ").unwrap();
            }
        }
    }
    text + "in"
}
