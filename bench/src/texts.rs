//! Random texts for comparisons, the same for the same seed.

mod damage;
mod items;
mod limits;
mod quoted;
mod random;
mod rules;

pub use random::Random;

/// The tokens of a text, before they are joined.
pub type Tokens = Vec<Vec<u8>>;

const BLANKS: &[u8] = b" \t\n\r";

pub struct Texts {
    random: Random,
}

impl Texts {
    pub fn new(seed: u64) -> Self {
        Texts { random: Random::new(seed) }
    }

    #[allow(clippy::should_implement_trait)]
    pub fn next(&mut self) -> Vec<u8> {
        let random = &mut self.random;
        match random.below(100) {
            0 => blank_text(random),
            1..7 => random_bytes(random),
            7..19 => random_tokens(random),
            19..56 => {
                let tokens = rules::rule(random);
                join(random, &tokens)
            }
            56..84 => damage::damaged_rule(random),
            84..94 => items::text(random),
            _ => limits::text(random),
        }
    }
}

/// A text of blanks, now and then about as long as a text may be; one in four
/// with a byte among them that is no blank.
fn blank_text(random: &mut Random) -> Vec<u8> {
    let len = if random.one_in(8) { 16_383 + random.index(4) } else { random.index(41) };
    let mut text: Vec<u8> = (0..len).map(|_| *random.pick(BLANKS)).collect();
    if len > 0 && random.one_in(4) {
        let any = random.index(len);
        let at = *random.pick(&[0, any, len - 1]);
        text[at] = *random.pick(&[0, 11, 12, 133, 160, b'_', b'a', b'(', b';']);
    }
    text
}

/// Any bytes, mostly quotes, or those of a rule.
fn random_bytes(random: &mut Random) -> Vec<u8> {
    let common = b"ab1 + - * () ; 'not'\tlet in end\n_,\"";
    let quotes = b"'''''''a b+";
    let len = random.below(60);
    let style = random.below(5);
    let mut byte = || match style {
        0 => random.below(256) as u8,
        1 => *random.pick(quotes),
        _ => *random.pick(common),
    };
    (0..len).map(|_| byte()).collect()
}

fn random_tokens(random: &mut Random) -> Vec<u8> {
    let len = random.below(20);
    let tokens: Tokens = (0..len).map(|_| random_token(random)).collect();
    join(random, &tokens)
}

pub fn random_token(random: &mut Random) -> Vec<u8> {
    const TOKENS: &[&str] = &[
        "a", "b", "c1", "x_y", "a", "b", "0", "7", "042", "'a'", "'not'", "'a b'", "(", ")", "(", ")", ";",
        "let", "in", "end", "or", "and", "not", "=", "<", "+", "-", "*", "-", "infix", "prefix", "postfix",
        "plain", "left", "right", "non", "400", "1200", "0", "s", "==>", "''", "'", "_", ",",
        "let infix left 400 s ; in", "let postfix left 400 s ; in", "let plain + ; in", "let in",
        "'O''Neill'", "''''", "'s'''", "'a''", "'''", "'''a'",
    ];
    match random.below(40) {
        0 => quoted::short(random),
        1 => quoted::damaged(random),
        _ => random.pick(TOKENS).as_bytes().to_vec(),
    }
}

/// The tokens of a text in which blanks stand between any two.
fn split(text: &str) -> Tokens {
    text.split_whitespace().map(|token| token.into()).collect()
}

/// One space between, random blanks, or none where the tokens stay apart.
pub fn join(random: &mut Random, tokens: &[Vec<u8>]) -> Vec<u8> {
    let style = random.below(4);
    let mut text = Vec::new();
    for token in tokens {
        match style {
            0 => blanks(random, &mut text),
            1 => {
                if !stay_apart(&text, token) {
                    text.push(b' ');
                }
            }
            _ if text.is_empty() => {}
            _ => text.push(b' '),
        }
        text.extend(token);
    }
    if style == 0 {
        blanks(random, &mut text);
    }
    text
}

fn blanks(random: &mut Random, text: &mut Vec<u8>) {
    text.push(b' ');
    while random.one_in(4) {
        text.push(*random.pick(BLANKS));
    }
}

fn stay_apart(text: &[u8], token: &[u8]) -> bool {
    let (Some(&last), Some(&first)) = (text.last(), token.first()) else { return true };
    let is_word = |byte: u8| byte.is_ascii_alphanumeric() || byte == b'_';
    let is_sign = |byte: u8| byte.is_ascii_punctuation() && !is_word(byte) && !b"();'".contains(&byte);
    // The quotes of two quoted names would be one character of one name.
    let is_quote = |byte: u8| byte == b'\'';
    let merge = is_word(last) && is_word(first)
        || is_sign(last) && is_sign(first)
        || is_quote(last) && is_quote(first);
    !merge
}
