//! Texts at each limit, just inside and just outside.

use super::{Random, Tokens, join, quoted, random_token, split};

pub fn text(random: &mut Random) -> Vec<u8> {
    let over = random.index(2);
    let mut tokens = match random.below(11) {
        0 => return bytes(random, 16_384 + over),
        1 => return tokens(random, 1024 + over),
        8 => return canonical(random, 16_384 + over),
        2 => depth(random, 32 + over),
        3 | 4 => operators(random, 64 + over),
        5 => names(random, 63 + over),
        6 => digits(random, 9 + over),
        9 | 10 => quoted_names(random),
        _ => precedence(random, over),
    };
    if random.one_in(10) {
        let at = random.index(tokens.len());
        tokens[at] = random_token(random);
    }
    join(random, &tokens)
}

/// A text of `len` bytes, most of them blanks or names.
fn bytes(random: &mut Random, len: usize) -> Vec<u8> {
    let mut text = b"a".to_vec();
    if random.one_in(2) {
        let name = "n".repeat(40 + random.index(23));
        while text.len() + 80 < len {
            text.extend(b" + ");
            text.extend(name.as_bytes());
        }
    }
    let blanks = vec![b' '; len - text.len()];
    let at = *random.pick(&[0, text.len(), text.len()]);
    text.splice(at..at, blanks);
    if random.one_in(4) {
        let last = text.len() - 1;
        text[*random.pick(&[last, last - 1, 0])] = *random.pick(b"a,'");
    }
    text
}

/// A text with few blanks whose canonical text has `len` bytes.
fn canonical(random: &mut Random, len: usize) -> Vec<u8> {
    let mut text = b"(a)".to_vec();
    let mut rest = len - 1;
    while rest > 0 {
        // A piece takes 3 bytes besides the name.
        let name = match rest {
            ..=66 => rest - 3,
            67..=129 => 30,
            _ => 34 + random.index(30),
        };
        rest -= 3 + name;
        let piece = match random.below(16) {
            0 => format!("+({})", "n".repeat(name)),
            1 => format!("+'{}'", "n".repeat(name)),
            2 => format!("+'{}'", " ".repeat(name - 2)),
            3 => format!("+ {} ", "?".repeat(name)),
            4 if name % 2 == 0 => format!("+'{}'", "''".repeat(name / 2 - 1)),
            _ => format!("+{}", "n".repeat(name)),
        };
        text.extend(piece.as_bytes());
    }
    text
}

/// A text of `count` tokens, or one or two more.
fn tokens(random: &mut Random, count: usize) -> Vec<u8> {
    let pattern = *random.pick(&["a +", "not", "a", "a or not", "a * b + 1 < ( c ) and"]);
    let mut tokens: Tokens = split(pattern).into_iter().cycle().take(count).collect();
    let last = tokens.len() - 1;
    match random.below(6) {
        0 => tokens[last] = b"a".to_vec(),
        1 => tokens[last] = random_token(random),
        2 => tokens[last] = vec![b'a'; 64],
        3 => tokens.push(b"a".to_vec()),
        _ => {}
    }
    // Short enough for check 1: one blank at most.
    tokens.join(b" ".as_slice())
}

/// Brackets and blocks, `depth` deep.
fn depth(random: &mut Random, depth: usize) -> Tokens {
    let (mut front, mut back) = (Tokens::new(), Vec::new());
    let style = random.below(3);
    for i in 0..depth {
        let block = style == 0 || style == 1 && random.one_in(2);
        let (open, close) = match (block, random.below(3)) {
            (false, _) => ("(".into(), ")"),
            (true, 0) => ("let in".into(), "end"),
            (true, 1) => (format!("let prefix right {} p{i} ; in p{i}", 400 + i), "end"),
            (true, _) => (format!("let infix left 400 o{i} ; plain o{} ; in a o{i}", i / 2), "end"),
        };
        front.extend(split(&open));
        back.push(close.into());
    }
    if random.one_in(6) {
        back.pop();
    }
    front.push(b"a".to_vec());
    front.extend(back.into_iter().rev());
    front
}

/// Blocks with `count` operators in force at once, in the innermost; some with
/// a reserved operator declared before or behind the last of them.
fn operators(random: &mut Random, count: usize) -> Tokens {
    let mut text = String::from("let ");
    let mut new = count - 8;
    if random.one_in(3) {
        text += "plain < ; plain unknown ; ";
        new += 1;
    }
    if random.one_in(3) {
        text += "infix left 400 - ; postfix left 400 - ; infix left 900 * ; ";
    }
    let reserved = random.one_in(6).then(|| new - random.index(3));
    for i in 0..new {
        if reserved == Some(i) {
            text += random.pick::<&str>(&["infix left 800 or ; ", "plain and ; ", "prefix right 600 not ; "]);
        }
        let precedence = 1 + random.below(1200);
        text += &format!("infix left {precedence} o{i} ; ");
        match random.below(60) {
            0 => text += &format!("postfix left {precedence} o{i} ; "),
            1 => text += &format!("plain o{i} ; infix right {precedence} o{i} ; "),
            2 => text += "in a + let ",
            3 => text += "in a end + let plain = ; prefix non 1 = ; ",
            _ => {}
        }
    }
    if reserved == Some(new) {
        text += "postfix left 700 and ; ";
    }
    text += "in a";
    for _ in 0..random.below(40) {
        text += &format!(" o{} a", random.index(new));
    }
    let open = text.matches("let").count() - text.matches("end").count();
    split(&(text + &" end".repeat(open)))
}

/// Names of `len` bytes as operands and operators.
fn names(random: &mut Random, len: usize) -> Tokens {
    let word = format!("w{}", "_".repeat(len - 1));
    let other = format!("w{}1", "_".repeat(len - 2));
    let sign = "+".repeat(len);
    let quoted = format!("'{}'", "-".repeat(len));
    let text = match random.below(6) {
        0 => format!("a + {word}"),
        1 => sign.clone(),
        2 => format!("a = {quoted} + {}", "*".repeat(63)),
        3 => format!("let infix left 400 {word} ; in a {word} b + {other} end"),
        4 => format!("let infix left 300 {sign} ; postfix left 300 {sign} ; in a {sign} {sign} b end"),
        _ => format!("let plain {word} ; in {quoted} < {word} end"),
    };
    split(&text)
}

/// Quoted names of 62 to 64 characters, many of them quotes, and malformed
/// ones, alone and beside other tokens.
fn quoted_names(random: &mut Random) -> Tokens {
    let mut name = || {
        let len = *random.pick(&[62, 63, 63, 63, 63, 63, 64]);
        if random.one_in(8) { quoted::damaged(random) } else { quoted::long(random, len) }
    };
    let (one, two) = (name(), name());
    let other = *random.pick(&["a", "'a'", "''''", "7"]);
    let around = |front: &str, behind: &str| {
        let mut tokens = split(front);
        tokens.push(one.clone());
        tokens.extend(split(behind));
        tokens
    };
    match random.below(5) {
        0 => vec![one],
        1 => vec![one, b"=".to_vec(), two],
        2 => around("not ( a +", &format!(") or {other}")),
        3 => around("let postfix left 400 s ; in", &format!("s = {other} end")),
        _ => around("let plain", "; in a end"),
    }
}

fn digits(random: &mut Random, count: usize) -> Tokens {
    let zeros = "0".repeat(count - 3);
    let nines = "9".repeat(count);
    let text = match random.below(4) {
        0 => format!("a + {nines} * {zeros}12b"),
        1 => format!("let infix left {zeros}400 s ; in a s {zeros}400 end"),
        2 => format!("let infix left {nines} s ; in a end"),
        _ => format!("let infix left {zeros}000 s ; in a end"),
    };
    split(&text)
}

fn precedence(random: &mut Random, over: usize) -> Tokens {
    let precedence = *random.pick(&[1200 + over, 1 - over]);
    let text = match random.below(3) {
        0 => format!("let infix right {precedence} s ; in a s b or c s d end"),
        1 => format!("let prefix non {precedence} s ; in s a end = b"),
        _ => format!("let postfix left 3 s ; postfix left {precedence} s ; in a s s end"),
    };
    split(&text)
}
