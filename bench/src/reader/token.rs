//! Tokens: checks 2 to 5.

use super::list::List;
use super::role::Operator;
use super::{MAX_TOKENS, Reject};

/// Bytes of a word or sign, characters of a quoted name.
const MAX_NAME: usize = 63;
const MAX_DIGITS: usize = 9;

#[derive(Clone, Copy, Debug, PartialEq, Eq)]
pub enum Kind {
    Word,
    Sign,
    Number,
    /// A quoted name, its quotes and each character as written (see `name`);
    /// once resolved, whether it can stand bare where it is.
    Quoted {
        bare: bool,
    },
    /// A word or sign with a role in force, once resolved.
    Operator,
    /// `(`, with the number of its `)` once linked.
    Open {
        close: u16,
    },
    Close,
    Semicolon,
    /// `let`, with the number of its `in` once linked.
    Let {
        body: u16,
    },
    /// `in`, with the number of its `end` once linked.
    In {
        end: u16,
    },
    End,
}

#[derive(Clone, Copy, Debug)]
pub struct Token {
    /// The bytes of a word or sign (see `extend`); of an operator, once
    /// resolved, its roles.
    pub key: u64,
    pub start: u16,
    pub len: u8,
    pub kind: Kind,
}

impl Token {
    /// Is this the word? For words of at most eight bytes.
    #[inline(always)]
    pub fn is(&self, word: &[u8]) -> bool {
        self.kind == Kind::Word && self.len as usize == word.len() && self.key == pack(word)
    }

    /// The roles of a word or sign that has some in force.
    #[inline(always)]
    pub fn operator(&self) -> Option<Operator> {
        (self.kind == Kind::Operator).then_some(Operator(self.key))
    }

    pub fn bytes<'t>(&self, text: &'t [u8]) -> &'t [u8] {
        &text[self.start as usize..][..self.len as usize]
    }

    /// The word or sign that the characters of a quoted name are, if they are
    /// one and no keyword. A quote is part of no word or sign, so what is
    /// written between the outer quotes is looked at: it has a quote exactly if
    /// the characters have one, and else it is the characters.
    pub fn unquoted(&self, text: &[u8]) -> Option<Token> {
        let start = self.start as usize + 1;
        let text = &text[..start + self.len as usize - 2];
        let (end, key, kind) = match class(text[start]) {
            Class::Letter => word(text, start),
            Class::Sign => sign(text, start),
            _ => return None,
        };
        let whole = end == text.len() && matches!(kind, Kind::Word | Kind::Sign);
        whole.then_some(Token { key, start: start as u16, len: self.len - 2, kind })
    }
}

/// Adds a byte to a key. Up to eight bytes the key determines them.
#[inline(always)]
const fn extend(key: u64, byte: u8) -> u64 {
    key.rotate_left(8) ^ byte as u64
}

/// The key of some bytes.
#[inline(always)]
pub const fn pack(bytes: &[u8]) -> u64 {
    let mut key = 0;
    let mut i = 0;
    while i < bytes.len() {
        key = extend(key, bytes[i]);
        i += 1;
    }
    key
}

#[derive(Clone, Copy, PartialEq, Eq)]
enum Class {
    Letter,
    Digit,
    Underscore,
    Sign,
    Blank,
    Quote,
    Delimiter,
    Other,
}

const CLASSES: [Class; 256] = {
    let mut classes = [Class::Other; 256];
    let mut byte = 0;
    while byte < 256 {
        classes[byte] = match byte as u8 {
            b'A'..=b'Z' | b'a'..=b'z' => Class::Letter,
            b'0'..=b'9' => Class::Digit,
            b'_' => Class::Underscore,
            b'+' | b'-' | b'*' | b'/' | b'<' | b'>' | b'=' | b'!' | b'&' => Class::Sign,
            b'|' | b'^' | b'~' | b':' | b'?' | b'@' | b'#' | b'$' | b'%' => Class::Sign,
            9 | 10 | 13 | 32 => Class::Blank,
            b'\'' => Class::Quote,
            b'(' | b')' | b';' => Class::Delimiter,
            _ => Class::Other,
        };
        byte += 1;
    }
    classes
};

#[inline(always)]
fn class(byte: u8) -> Class {
    CLASSES[byte as usize]
}

/// The end of a run of bytes whose class belongs to it, and its key. The first
/// byte is known to belong.
#[inline(always)]
fn run(text: &[u8], start: usize, belongs: impl Fn(Class) -> bool) -> (usize, u64) {
    let mut key = u64::from(text[start]);
    let mut at = start + 1;
    while at < text.len() && belongs(class(text[at])) {
        key = extend(key, text[at]);
        at += 1;
    }
    (at, key)
}

/// The end, key and kind of the word that starts here.
#[inline(always)]
fn word(text: &[u8], start: usize) -> (usize, u64, Kind) {
    let belongs = |class| matches!(class, Class::Letter | Class::Digit | Class::Underscore);
    let (end, key) = run(text, start, belongs);
    (end, key, word_kind(key, end - start))
}

/// The end, key and kind of the sign that starts here.
#[inline(always)]
fn sign(text: &[u8], start: usize) -> (usize, u64, Kind) {
    let (end, key) = run(text, start, |class| class == Class::Sign);
    (end, key, Kind::Sign)
}

/// The end of the quoted name that opens at `start`, if it is well formed: 1
/// to 63 characters, two quotes in a row for a quote.
#[inline(always)]
fn quoted_end(text: &[u8], start: usize) -> Option<usize> {
    let mut at = start + 1;
    for characters in 0..=MAX_NAME {
        match text.get(at)? {
            b'\'' if text.get(at + 1) == Some(&b'\'') => at += 2,
            b'\'' => return (characters > 0).then_some(at + 1),
            32..=126 => at += 1,
            _ => return None,
        }
    }
    None
}

#[inline(always)]
fn word_kind(key: u64, len: usize) -> Kind {
    const LET: u64 = pack(b"let");
    const IN: u64 = pack(b"in");
    const END: u64 = pack(b"end");
    match (len, key) {
        (3, LET) => Kind::Let { body: 0 },
        (2, IN) => Kind::In { end: 0 },
        (3, END) => Kind::End,
        _ => Kind::Word,
    }
}

/// Splits a text of at most `MAX_BYTES`. Says whether any token is a delimiter
/// or a keyword.
pub fn scan(text: &[u8], tokens: &mut List<Token, MAX_TOKENS>) -> Result<bool, Reject> {
    let mut nested = false;
    let mut at = 0;
    loop {
        while at < text.len() && class(text[at]) == Class::Blank {
            at += 1;
        }
        if at == text.len() {
            return Ok(nested);
        }
        let start = at;
        let (end, key, kind, max) = match class(text[start]) {
            Class::Letter => {
                let (end, key, kind) = word(text, start);
                (end, key, kind, MAX_NAME)
            }
            Class::Sign => {
                let (end, key, kind) = sign(text, start);
                (end, key, kind, MAX_NAME)
            }
            Class::Digit => {
                let (end, _) = run(text, start, |class| class == Class::Digit);
                (end, 0, Kind::Number, MAX_DIGITS)
            }
            Class::Quote => match quoted_end(text, start) {
                Some(end) => (end, 0, Kind::Quoted { bare: false }, 2 * MAX_NAME + 2),
                None => return Err(Reject::new(3, start)),
            },
            Class::Delimiter => {
                let kind = match text[start] {
                    b'(' => Kind::Open { close: 0 },
                    b')' => Kind::Close,
                    _ => Kind::Semicolon,
                };
                (start + 1, 0, kind, 1)
            }
            Class::Blank | Class::Underscore | Class::Other => return Err(Reject::new(2, start)),
        };
        if end - start > max {
            return Err(Reject::new(4, start));
        }
        if tokens.is_full() {
            return Err(Reject::new(5, start));
        }
        nested |= !matches!(kind, Kind::Word | Kind::Sign | Kind::Number | Kind::Quoted { .. });
        tokens.push(Token { key, start: start as u16, len: (end - start) as u8, kind });
        at = end;
    }
}
