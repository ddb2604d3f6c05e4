//! Damaged versions of well-formed texts.

use super::{Random, Tokens, join, random_token, rules};

pub fn damaged_rule(random: &mut Random) -> Vec<u8> {
    let mut tokens = rules::rule(random);
    if random.one_in(2) {
        damage_tokens(random, &mut tokens);
        return join(random, &tokens);
    }
    let mut text = join(random, &tokens);
    damage_bytes(random, &mut text);
    text
}

fn damage_tokens(random: &mut Random, tokens: &mut Tokens) {
    for _ in 0..1 + random.below(2) {
        if tokens.is_empty() {
            return;
        }
        let len = tokens.len();
        let at = random.index(len);
        match random.below(6) {
            0 => drop(tokens.remove(at)),
            1 => tokens.insert(at, tokens[at].clone()),
            2 => tokens.swap(at, (at + 1) % len),
            3 => tokens.swap(at, random.index(len)),
            4 => tokens[at] = random_token(random),
            _ => tokens.insert(at, random_token(random)),
        }
    }
}

fn damage_bytes(random: &mut Random, text: &mut Vec<u8>) {
    for _ in 0..1 + random.below(2) {
        if text.is_empty() {
            return;
        }
        let at = random.index(text.len());
        match random.below(6) {
            0 => text[at] = random.below(256) as u8,
            1 => text[at] ^= 1 << random.below(8),
            2 => text[at] = *random.pick(b"ab0 '();+-_"),
            3 => drop(text.remove(at)),
            4 => text.insert(at, *random.pick(b"ab0 '();+-_")),
            _ => text.truncate(at),
        }
    }
}
