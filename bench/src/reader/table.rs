//! The table of operators, with a log to undo a block's changes.

use super::MAX_DEPTH;
use super::list::List;
use super::role::{Associativity, Fixity, Infix, Left, Non, Operator, Prefix, Right, Role};
use super::token::{Token, pack};

/// A word or sign that is an operator here or was made plain. The entries of
/// a bucket are chained from the latest to the first.
#[derive(Clone, Copy)]
struct Entry {
    key: u64,
    start: u16,
    len: u8,
    next: u8,
    operator: Operator,
}

const fn role(associativity: Associativity, precedence: u16) -> Role {
    Role { precedence, associativity }
}

const START: [(&[u8], Operator); 8] = [
    (b"or", Operator::PLAIN.with(Infix, role(Left, 800))),
    (b"and", Operator::PLAIN.with(Infix, role(Left, 700))),
    (b"not", Operator::PLAIN.with(Prefix, role(Right, 600))),
    (b"=", Operator::PLAIN.with(Infix, role(Non, 500))),
    (b"<", Operator::PLAIN.with(Infix, role(Non, 500))),
    (b"+", Operator::PLAIN.with(Infix, role(Left, 400))),
    (b"-", Operator::PLAIN.with(Infix, role(Left, 400)).with(Prefix, role(Non, 400))),
    (b"*", Operator::PLAIN.with(Infix, role(Left, 300))),
];

/// A declaration has at least three tokens and a new entry takes five.
const MAX_ENTRIES: usize = 216;
const MAX_CHANGES: usize = 344;
const BUCKETS: usize = 64;
const NONE: u8 = u8::MAX;

const fn bucket(key: u64) -> usize {
    (key.wrapping_mul(0x9E37_79B9_7F4A_7C15) >> 58) as usize
}

const START_BUCKETS: [u8; BUCKETS] = {
    let mut buckets = [NONE; BUCKETS];
    let mut i = 0;
    while i < START.len() {
        buckets[bucket(pack(START[i].0))] = i as u8;
        i += 1;
    }
    buckets
};

const START_ENTRIES: [Entry; START.len()] = {
    let mut buckets = [NONE; BUCKETS];
    let mut entries =
        [Entry { key: 0, start: 0, len: 0, next: NONE, operator: Operator::PLAIN }; START.len()];
    let mut i = 0;
    while i < START.len() {
        let (name, operator) = START[i];
        let key = pack(name);
        entries[i] = Entry { key, start: 0, len: name.len() as u8, next: buckets[bucket(key)], operator };
        buckets[bucket(key)] = i as u8;
        i += 1;
    }
    entries
};

/// A change to undo at a block's `end`.
#[derive(Clone, Copy)]
struct Change {
    entry: u8,
    former: Operator,
}

/// How many operators are in force, how many of them are both infix and
/// postfix, and how many do not meet the four conditions.
#[derive(Clone, Copy)]
struct Counts {
    in_force: u8,
    infix_and_postfix: u8,
    without_conditions: u8,
}

impl Counts {
    fn of(operator: Operator) -> Self {
        Counts {
            in_force: operator.has_role().into(),
            infix_and_postfix: operator.is_infix_and_postfix().into(),
            without_conditions: (!operator.meets_conditions()).into(),
        }
    }
}

/// The table's state at a block's `let`.
#[derive(Clone, Copy)]
struct Block {
    entries: u8,
    changes: u16,
    counts: Counts,
}

pub struct Table<'t> {
    text: &'t [u8],
    buckets: [u8; BUCKETS],
    entries: List<Entry, MAX_ENTRIES>,
    changes: List<Change, MAX_CHANGES>,
    blocks: List<Block, MAX_DEPTH>,
    counts: Counts,
}

impl<'t> Table<'t> {
    /// The starting table.
    #[inline(always)]
    pub fn new(text: &'t [u8]) -> Self {
        let mut table = Table {
            text,
            buckets: START_BUCKETS,
            entries: List::new(),
            changes: List::new(),
            blocks: List::new(),
            counts: Counts { in_force: START.len() as u8, infix_and_postfix: 0, without_conditions: 0 },
        };
        START_ENTRIES.into_iter().for_each(|entry| table.entries.push(entry));
        table
    }

    /// The number of operators in force.
    pub fn in_force(&self) -> usize {
        self.counts.in_force as usize
    }

    /// The operator in force that a word or sign is.
    #[inline(always)]
    pub fn operator(&self, token: &Token) -> Option<Operator> {
        let operator = self.entries[self.find(token)? as usize].operator;
        operator.has_role().then_some(operator)
    }

    #[inline(always)]
    fn find(&self, token: &Token) -> Option<u8> {
        let mut number = self.buckets[bucket(token.key)];
        while number != NONE {
            let entry = &self.entries[number as usize];
            if entry.key == token.key && entry.len == token.len && self.same_bytes(entry, token) {
                return Some(number);
            }
            number = entry.next;
        }
        None
    }

    /// Up to eight bytes the key and the length decide.
    #[inline(always)]
    fn same_bytes(&self, entry: &Entry, token: &Token) -> bool {
        token.len <= 8 || self.text[entry.start as usize..][..entry.len as usize] == *token.bytes(self.text)
    }

    fn add(&mut self, token: &Token) -> u8 {
        let &Token { key, start, len, .. } = token;
        let number = self.entries.len() as u8;
        let head = &mut self.buckets[bucket(key)];
        self.entries.push(Entry { key, start, len, next: *head, operator: Operator::PLAIN });
        *head = number;
        number
    }

    fn change(&mut self, number: u8, operator: Operator) {
        let entry = &mut self.entries[number as usize];
        self.changes.push(Change { entry: number, former: entry.operator });
        let (former, new) = (Counts::of(entry.operator), Counts::of(operator));
        entry.operator = operator;
        let counts = &mut self.counts;
        counts.in_force = counts.in_force - former.in_force + new.in_force;
        counts.infix_and_postfix =
            counts.infix_and_postfix - former.infix_and_postfix + new.infix_and_postfix;
        counts.without_conditions =
            counts.without_conditions - former.without_conditions + new.without_conditions;
    }

    /// Gives a word or sign a role.
    pub fn declare(&mut self, token: &Token, fixity: Fixity, role: Role) {
        let number = match self.find(token) {
            Some(number) => number,
            None => self.add(token),
        };
        let operator = self.entries[number as usize].operator;
        self.change(number, operator.with(fixity, role));
    }

    /// Takes all roles from a word or sign.
    pub fn make_plain(&mut self, token: &Token) {
        if let Some(number) = self.find(token) {
            self.change(number, Operator::PLAIN);
        }
    }

    pub fn open_block(&mut self) {
        let entries = self.entries.len() as u8;
        let changes = self.changes.len() as u16;
        self.blocks.push(Block { entries, changes, counts: self.counts });
    }

    /// The overloading rule: no operator in force is both infix and postfix, or
    /// every one meets the four conditions.
    pub fn is_permitted(&self) -> bool {
        self.counts.infix_and_postfix == 0 || self.counts.without_conditions == 0
    }

    /// Brings the outer table back.
    pub fn close_block(&mut self) {
        let Some(block) = self.blocks.pop() else { return };
        while self.changes.len() > block.changes as usize {
            let Some(change) = self.changes.pop() else { return };
            self.entries[change.entry as usize].operator = change.former;
        }
        while self.entries.len() > block.entries as usize {
            let Some(entry) = self.entries.pop() else { return };
            self.buckets[bucket(entry.key)] = entry.next;
        }
        self.counts = block.counts;
    }
}
