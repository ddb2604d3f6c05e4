//! Document 02, section 5: in a quoted name two quotes in a row stand for one
//! quote character. The limit of 63 counts characters; offset and length cover
//! the bytes as written between the outer quotes. Names are compared and written
//! by characters, and canonical text doubles the quotes again. Also the service
//! that writes the characters of a name.

use rule_bench::listing;
use rule_bench::reader::{Answer, NODE_WORDS, TABLE_WORDS, canonicalize, read, write_name};
use rule_bench::texts::{Random, Texts};
use std::collections::HashMap;

/// How characters are written between the outer quotes.
fn doubled(characters: &str) -> String {
    characters.chars().map(|c| if c == '\'' { "''".to_string() } else { c.to_string() }).collect()
}

fn quoted(characters: &str) -> String {
    format!("'{}'", doubled(characters))
}

fn refused(number: u8, offset: usize, text: impl AsRef<[u8]>) {
    let text = text.as_ref();
    let shown = String::from_utf8_lossy(text);
    assert_eq!(listing::of(text), format!("refused {number} at {offset}\n"), "{shown}");
    let answer = Answer { number, offset, count: 0 };
    let (mut nodes, mut buffer) = ([7; 60], [7; 200]);
    assert_eq!((read(text, &mut nodes), nodes), (answer, [7; 60]), "{shown}");
    assert_eq!((canonicalize(text, &mut buffer), buffer), (answer, [7; 200]), "{shown}");
}

/// Read with these nodes and this canonical text, both as a listing has them.
fn read_as(text: &str, nodes: &[&str], canonical: &str) {
    let mut expected = format!("read {}\n", nodes.len());
    for (number, node) in nodes.iter().enumerate() {
        expected += &format!("{number} {node}\n");
    }
    expected += &format!("tidy {}\n{canonical}\n", canonical.len());
    assert_eq!(listing::of(text.as_bytes()), expected, "{text}");
}

/// The characters that a node's name is written with, by a buffer just as long
/// as needed, one longer, and one shorter.
fn has_name(text: &[u8], nodes: &[u32], node: usize, characters: &[u8]) {
    let shown = || format!("{}, node {node}", String::from_utf8_lossy(text));
    let count = characters.len();
    for longer in [0, 1, 9] {
        let mut buffer = vec![0xA5; count + longer];
        let answer = write_name(text, nodes, node, &mut buffer);
        assert_eq!(answer, Answer { number: 0, offset: 0, count }, "{}", shown());
        assert_eq!(buffer[..count], *characters, "{}", shown());
        assert!(buffer[count..].iter().all(|&byte| byte == 0xA5), "{}", shown());
    }
    for len in [0, count / 2, count.saturating_sub(1)] {
        if len < count {
            let mut buffer = vec![0xA5; len];
            let answer = write_name(text, nodes, node, &mut buffer);
            assert_eq!(answer, Answer { number: 13, offset: 0, count: 0 }, "{}", shown());
            assert!(buffer.iter().all(|&byte| byte == 0xA5), "{}", shown());
        }
    }
}

fn table(text: &[u8]) -> Vec<u32> {
    let mut nodes = vec![0; TABLE_WORDS];
    let answer = read(text, &mut nodes);
    assert_eq!(answer.number, 0, "{}", String::from_utf8_lossy(text));
    nodes.truncate(NODE_WORDS * answer.count);
    nodes
}

/// The characters of each node of a text, in the order of the table.
fn has_names(text: &str, expected: &[&str]) {
    let nodes = table(text.as_bytes());
    assert_eq!(nodes.len(), NODE_WORDS * expected.len(), "{text}");
    for (node, characters) in expected.iter().enumerate() {
        has_name(text.as_bytes(), &nodes, node, characters.as_bytes());
    }
}

#[test]
fn texts_of_the_request() {
    read_as("'O''Neill'", &["name 0 0 1 8 0"], "'O''Neill'");
    read_as("'D''Souza'", &["name 0 0 1 8 0"], "'D''Souza'");
    let nodes = ["name 0 0 0 4 0", "name 0 0 8 8 0", "infix 0 1 5 1 500"];
    read_as("name = 'O''Neill'", &nodes, "name = 'O''Neill'");
    let nodes = ["name 0 0 6 8 0", "bracket 0 0 0 0 0", "prefix 1 0 0 3 600"];
    read_as("not ('D''Souza')", &nodes, "not 'D''Souza'");
}

#[test]
fn only_quotes() {
    refused(3, 0, "'");
    refused(3, 0, "''");
    refused(3, 0, "'''");
    read_as("''''", &["name 0 0 1 2 0"], "''''");
    refused(3, 0, "'''''");
    read_as("''''''", &["name 0 0 1 4 0"], "''''''");
    refused(3, 2, "  ''  ");
    refused(3, 4, "a = ''");
    refused(3, 0, "'' = a");
    // A pair is a character, so the name is not closed.
    refused(3, 0, "''' = a");
    refused(3, 0, "'' ''");
    // 1 to 63 pairs.
    for count in 1..=63 {
        let text = "'".repeat(2 * count + 2);
        read_as(&text, &[&format!("name 0 0 1 {} 0", 2 * count)], &text);
        refused(3, 0, &text[1..]);
    }
    refused(3, 0, "'".repeat(2 * 64 + 2));
    refused(3, 0, "'".repeat(2 * 64 + 1));
    refused(3, 0, "'".repeat(16_384));
}

#[test]
fn a_pair_is_always_a_character() {
    refused(3, 0, "'a''");
    read_as("'a'''", &["name 0 0 1 3 0"], "'a'''");
    refused(3, 0, "'a''''");
    read_as("'a'''''", &["name 0 0 1 5 0"], "'a'''''");
    read_as("'a''b'", &["name 0 0 1 4 0"], "'a''b'");
    read_as("'''b'", &["name 0 0 1 3 0"], "'''b'");
    // Nothing, and then a word.
    refused(3, 0, "''b'");
    // With a blank they are two names.
    refused(11, 0, "'a' 'b'");
    let nodes = ["name 0 0 1 6 0", "name 0 0 11 1 0", "infix 0 1 9 1 500"];
    read_as("'a'''' ' = b", &nodes, "'a'''' ' = b");
    // The third of three quotes closes the name; what follows is another token.
    refused(3, 6, "'a'''b'");
    refused(11, 0, "'a'''b");
    refused(11, 0, "'a'''7");
    read_as("'a'''+b", &["name 0 0 1 3 0", "name 0 0 6 1 0", "infix 0 1 5 1 400"], "'a''' + b");
    let nodes = ["name 0 0 2 3 0", "bracket 0 0 0 0 0", "number 0 0 8 1 0", "infix 1 2 7 1 500"];
    read_as("('a''')=7", &nodes, "'a''' = 7");
}

/// 63 characters are read, 64 are not, however many are quotes, and wherever.
#[test]
fn limit_counts_characters() {
    for quotes in 0..=64 {
        let (x, q) = ("x".repeat(64), "'".repeat(64));
        let front = |count: usize| quoted(&format!("{}{}", &q[..quotes], &x[..count - quotes]));
        let behind = |count: usize| quoted(&format!("{}{}", &x[..count - quotes], &q[..quotes]));
        for text in [front(64), behind(64)] {
            refused(3, 0, &text);
            refused(3, 6, format!("a and {text}"));
            refused(3, 0, format!("{text} = a"));
        }
        for count in [62, 63].into_iter().filter(|&count| count >= quotes) {
            let bare = quotes == 0;
            for text in [front(count), behind(count)] {
                let written = text.len() - 2;
                assert_eq!(written, count + quotes);
                let canonical = if bare { &text[1..1 + written] } else { &text };
                read_as(&text, &[&format!("name 0 0 1 {written} 0")], canonical);
                let nodes = table(text.as_bytes());
                assert_eq!(write_name(text.as_bytes(), &nodes, 0, &mut [0; 63]).count, count);
                has_names(&text, &[&text[1..1 + written].replace("''", "'")]);
            }
        }
    }
    let letters = "x".repeat(63);
    // 64 characters: 63 letters, a quote, `y` and no end.
    refused(3, 0, format!("'{letters}''y'"));
    refused(3, 0, format!("'{letters}''"));
    refused(3, 0, format!("'{letters}'''"));
    read_as(&format!("'{letters}'"), &["name 0 0 1 63 0"], &letters);
    // A word is counted as before.
    refused(4, 0, "x".repeat(64));
    let letters = "x".repeat(62);
    let text = format!("'{letters}'''");
    read_as(&text, &["name 0 0 1 64 0"], &text);
}

/// 32 to 126 and no other byte, alone, before a pair and behind one.
#[test]
fn bytes_of_a_name() {
    for byte in 0..=255u8 {
        for (front, behind) in [("'", "'"), ("'''", "'"), ("'", "'''"), ("'''", "'''"), ("'a''b", "c''d'")] {
            let text = [front.as_bytes(), &[byte], behind.as_bytes()].concat();
            match byte {
                b'\'' => {}
                32..=126 => {
                    let Answer { number, count, .. } = read(&text, &mut [0; NODE_WORDS]);
                    assert_eq!((number, count), (0, 1), "{byte}");
                }
                _ => refused(3, 0, &text),
            }
        }
    }
    for byte in [31, 127] {
        refused(3, 4, [b"a = 'b''", &[byte][..], b"'"].concat());
        refused(3, 4, [b"a = 'b", &[byte][..], b"'''"].concat());
        // The byte behind the name begins no token.
        refused(2, 9, [b"a = 'b'''", &[byte][..]].concat());
    }
}

/// Bare or quoted by characters: one word or sign, no keyword, no operator in
/// force.
#[test]
fn canonical_text() {
    for (text, canonical) in [
        ("'O''Neill'", "'O''Neill'"),
        ("''''", "''''"),
        ("'a'''", "'a'''"),
        ("'a' = a", "a = a"),
        ("a = 'a'", "a = a"),
        ("'a''' = 'a'", "'a''' = a"),
        ("'not' = 'not'''", "'not' = 'not'''"),
        ("'in' = 'in'''", "'in' = 'in'''"),
        ("'''+' + '+'", "'''+' + '+'"),
        ("'++' = '++'''", "++ = '++'''"),
        ("'''' = ''''''", "'''' = ''''''"),
        ("( 'x''y' )", "'x''y'"),
        ("not('x''y'and'''')", "not ( 'x''y' and '''' )"),
        // Characters that are two tokens, with a pair and without one.
        ("'a b' = 'a'' b'", "'a b' = 'a'' b'"),
        ("'7' = '7'''", "'7' = '7'''"),
        (
            "'s' = let postfix left 9 s; in 's' s = 's''' end",
            "s = let postfix left 9 s ; in 's' s = 's''' end",
        ),
        ("let plain *; in '*' = '*''' end = '*'", "let plain * ; in * = '*''' end = '*'"),
    ] {
        let mut buffer = [0; 100];
        let answer = canonicalize(text.as_bytes(), &mut buffer);
        assert_eq!(answer.number, 0, "{text}");
        assert_eq!(String::from_utf8_lossy(&buffer[..answer.count]), canonical, "{text}");
    }
}

/// A quoted name is no operator, whatever its characters; a declaration has no
/// use for one.
#[test]
fn never_an_operator() {
    let nodes = ["name 0 0 1 5 0", "name 0 0 10 1 0", "infix 0 1 8 1 500"];
    read_as("'not''' = a", &nodes, "'not''' = a");
    refused(11, 0, "a '+''' b");
    refused(11, 0, "a '+' b");
    refused(11, 0, "'not''' a");
    refused(8, 10, "let plain 'x''' ; in a end");
    refused(8, 10, "let plain '''' ; in a end");
    refused(8, 4, "let 'plain''' x ; in a end");
    refused(8, 13, "let plain x ;'infix''s' left 4 x ; in a end");
    // A keyword and a quote are no keyword.
    refused(6, 19, "let in a 'end''' en");
}

/// Numbers, operators and blocks have their bytes, brackets nothing.
#[test]
fn characters_of_each_kind() {
    has_names("'O''Neill'", &["O'Neill"]);
    has_names("''''", &["'"]);
    has_names("'a'''", &["a'"]);
    has_names("''''''", &["''"]);
    has_names("a", &["a"]);
    has_names("'a'", &["a"]);
    has_names("( 'a''b' ) = 007", &["a'b", "", "007", "="]);
    has_names("not 'it''s' or '''' and x", &["it's", "not", "'", "x", "and", "or"]);
    has_names("let postfix left 09 s ; in 's''s' s end", &["s's", "s", "let postfix left 09 s ; in"]);
    let long = "'".repeat(63);
    has_names(&quoted(&long), &[&long]);
}

/// The node is in the table only if all its words are.
#[test]
fn tables_cut_short() {
    let text = b"'a''b' + 'c'''";
    let nodes = table(text);
    assert_eq!(nodes.len(), 3 * NODE_WORDS);
    let names: [&[u8]; 3] = [b"a'b", b"c'", b"+"];
    for len in 0..=nodes.len() {
        for node in 0..5 {
            let expected: &[u8] = if NODE_WORDS * (node + 1) <= len { names[node] } else { b"" };
            has_name(text, &nodes[..len], node, expected);
        }
        // Six times these may be more than a number can be.
        let sixth = usize::MAX / NODE_WORDS;
        for node in [5, 1024, sixth - 1, sixth, sixth + 1, sixth + 2, usize::MAX / 2, usize::MAX] {
            has_name(text, &nodes[..len], node, b"");
        }
    }
    has_name(text, &[], 0, b"");
    has_name(b"", &nodes, 0, b"");
}

/// Any words: the part of the text that they give, as far as there is text. Of
/// a quote and the byte behind it the quote is kept.
#[test]
fn odd_words() {
    let text = b"ab'c''d'";
    let name = |offset: u32, len: u32, expected: &[u8]| {
        for kind in [0, 1, 4, 6, 7, 99, u32::MAX] {
            has_name(text, &[kind, 5, u32::MAX, offset, len, 3], 0, expected);
        }
    };
    name(0, 0, b"");
    name(0, 2, b"ab");
    // A quote with nothing behind it, with another byte, with a quote.
    name(0, 3, b"ab'");
    name(0, 4, b"ab'");
    name(0, 5, b"ab''");
    name(0, 6, b"ab''");
    name(0, 7, b"ab''d");
    name(0, 8, b"ab''d'");
    name(3, 3, b"c'");
    name(4, 4, b"'d'");
    name(5, 3, b"''");
    name(2, 1, b"'");
    name(7, 1, b"'");
    // Past the end of the text.
    name(0, 9, b"ab''d'");
    name(6, u32::MAX, b"d'");
    name(7, 2, b"'");
    name(8, 0, b"");
    name(8, 1, b"");
    name(9, 1, b"");
    name(u32::MAX, u32::MAX, b"");
    name(u32::MAX, 1, b"");
    name(1, u32::MAX, b"b''d'");
    // A text that no service reads, longer than one may be.
    let text = [vec![0xFF; 20_000], b"''".to_vec(), vec![b'x'; 20_000]].concat();
    let expected = [vec![0xFF; 20_000], b"'".to_vec(), vec![b'x'; 20_000]].concat();
    has_name(&text, &[1, 0, 0, 0, 50_000, 0], 0, &expected);
    has_name(&text, &[1, 0, 0, 20_001, 3, 0], 0, b"'x");
}

// A reader of texts of quotes, `a`, blanks and `+`, by the definition: the
// quoted name in front of a text is what can be cut off it so that it is
// characters written with their quotes doubled, between two quotes, and no
// quote follows.

enum Expected {
    Refused(u8, usize),
    /// The offset, the length as written and the characters of each name, and
    /// the offset of each `+` between.
    Read(Vec<(usize, usize, String)>, Vec<usize>),
}

/// What is written between the quotes, and the characters, of each quoted name
/// with which the text can be said to begin.
fn quoted_names(text: &str) -> Vec<(&str, String)> {
    let mut found = Vec::new();
    for end in 2..=text.len() {
        let inside = &text[1..end - 1];
        // Every choice of characters that could be written so.
        for characters in choices(inside) {
            let whole = text[..end] == quoted(&characters);
            if whole && !characters.is_empty() && !text[end..].starts_with('\'') {
                found.push((inside, characters));
            }
        }
    }
    found
}

/// The texts that have the bytes of a text in order, some pairs of quotes as
/// one, or none.
fn choices(text: &str) -> Vec<String> {
    let Some(first) = text.chars().next() else { return vec![String::new()] };
    let mut found: Vec<String> = choices(&text[1..]).iter().map(|rest| format!("{first}{rest}")).collect();
    if text.starts_with("''") {
        found.extend(choices(&text[2..]).iter().map(|rest| format!("'{rest}")));
    }
    found
}

fn expected(text: &str) -> Expected {
    let (mut names, mut pluses) = (Vec::new(), Vec::new());
    // Does an operand come next?
    let mut operand = true;
    let mut tree = true;
    let mut at = 0;
    while at < text.len() {
        let rest = &text[at..];
        let first = rest.as_bytes()[0];
        let run = rest.bytes().take_while(|&byte| byte == first).count();
        match first {
            b' ' => {
                at += 1;
                continue;
            }
            b'+' if run == 1 => {
                tree &= !operand;
                operand = true;
                pluses.push(at);
                at += 1;
                continue;
            }
            b'\'' => {
                let found = quoted_names(rest);
                assert!(found.len() < 2, "{text}: {found:?}");
                let Some((inside, characters)) = found.into_iter().next() else {
                    return Expected::Refused(3, at);
                };
                names.push((at + 1, inside.len(), characters));
                at += inside.len() + 2;
            }
            _ => {
                names.push((at, run, rest[..run].to_string()));
                at += run;
            }
        }
        tree &= operand;
        operand = false;
    }
    let blank = names.is_empty() && pluses.is_empty();
    if tree && !operand || blank { Expected::Read(names, pluses) } else { Expected::Refused(11, 0) }
}

/// A listing of names with `+` between them, which is left-associative.
fn expected_listing(names: &[(usize, usize, String)], pluses: &[usize]) -> String {
    let count = names.len() + pluses.len();
    let mut listing = format!("read {count}\n");
    let mut canonical = Vec::new();
    let mut number = 0;
    for (i, (offset, len, characters)) in names.iter().enumerate() {
        listing += &format!("{number} name 0 0 {offset} {len} 0\n");
        number += 1;
        if i > 0 {
            listing += &format!("{number} infix {} {} {} 1 400\n", number - 2, number - 1, pluses[i - 1]);
            number += 1;
        }
        let all = |byte: char| characters.chars().all(|c| c == byte);
        let bare = all('a') || all('+') && characters.len() > 1;
        canonical.push(if bare { characters.clone() } else { quoted(characters) });
    }
    let canonical = canonical.join(" + ");
    listing + &format!("tidy {}\n{canonical}\n", canonical.len())
}

#[test]
fn all_short_texts() {
    const BYTES: [char; 4] = ['\'', 'a', ' ', '+'];
    const LONGEST: u32 = 8;
    let (mut read, mut pairs, mut malformed) = (0, 0, 0);
    // What is written for a name, and its characters.
    let mut written = HashMap::new();
    for (len, code) in (0..=LONGEST).flat_map(|len| (0..4usize.pow(len)).map(move |code| (len, code))) {
        let text: String = (0..len).map(|at| BYTES[code / 4usize.pow(at) % 4]).collect();
        match expected(&text) {
            Expected::Refused(number, offset) => {
                assert_eq!(listing::of(text.as_bytes()), format!("refused {number} at {offset}\n"), "{text}");
                malformed += u32::from(number == 3);
            }
            Expected::Read(names, pluses) => {
                assert_eq!(listing::of(text.as_bytes()), expected_listing(&names, &pluses), "{text}");
                let nodes = table(text.as_bytes());
                for (i, (offset, len, characters)) in names.iter().enumerate() {
                    has_name(text.as_bytes(), &nodes, (2 * i).saturating_sub(1), characters.as_bytes());
                    written.insert(text[*offset..offset + len].to_string(), characters.clone());
                }
                read += 1;
                pairs += u32::from(text.contains("''"));
            }
        }
    }
    println!("read {read}, with pairs {pairs}, malformed {malformed}");
    assert!(read > 3000 && pairs > 500 && malformed > 10_000, "{read} {pairs} {malformed}");
    // Names have the same characters exactly if they are written alike.
    let mut by_characters: Vec<&String> = written.values().collect();
    by_characters.sort();
    by_characters.dedup();
    assert_eq!(by_characters.len(), written.len());
}

/// Names of random characters: in quotes with the quotes doubled, and bare too
/// where they can be, they are the same name.
#[test]
fn by_characters() {
    let mut random = Random::new(51);
    let mut bare_names = 0;
    for _ in 0..30_000 {
        let alphabet = *random.pick(&["'", "'a", "''ab ;(", "ab_7", "+-*", "ab'"]);
        let len = if random.one_in(3) { 60 + random.index(6) } else { 1 + random.index(6) };
        let characters: String = (0..len).map(|_| char::from(*random.pick(alphabet.as_bytes()))).collect();
        let name = quoted(&characters);
        let text = format!("x = {name}");
        if len > 63 {
            refused(3, 4, &text);
            continue;
        }
        has_names(&text, &["x", &characters, "="]);
        let is_word = characters.starts_with(|c: char| c.is_ascii_alphabetic())
            && characters.chars().all(|c| c.is_ascii_alphanumeric() || c == '_');
        let is_sign = characters.chars().all(|c| "+-*".contains(c));
        let bare = is_word || is_sign && !["+", "-", "*"].contains(&&characters[..]);
        bare_names += u32::from(bare);
        let canonical = format!("x = {}", if bare { &characters } else { &name });
        let node = format!("name 0 0 5 {} 0", doubled(&characters).len());
        read_as(&text, &["name 0 0 0 1 0", &node, "infix 0 1 2 1 500"], &canonical);
        if bare {
            let node = format!("name 0 0 4 {len} 0");
            read_as(&canonical, &["name 0 0 0 1 0", &node, "infix 0 1 2 1 500"], &canonical);
            has_names(&canonical, &["x", &characters, "="]);
        }
    }
    assert!(bare_names > 3000, "{bare_names}");
}

/// Generated texts have names with quotes, at the limit too, and such as are
/// malformed; the characters of each node are what the definition says.
#[test]
fn generated_texts() {
    let mut texts = Texts::new(52);
    let (mut with_pairs, mut longest, mut malformed) = (0, 0, 0);
    for _ in 0..40_000 {
        let text = texts.next();
        let mut nodes = vec![0; TABLE_WORDS];
        let answer = read(&text, &mut nodes);
        malformed +=
            u32::from(answer.number == 3 && text[answer.offset..].windows(2).any(|two| two == b"''"));
        for (node, row) in nodes.chunks(NODE_WORDS).take(answer.count).enumerate() {
            let written = &text[row[3] as usize..][..row[4] as usize];
            let characters = String::from_utf8(written.to_vec()).unwrap().replace("''", "'");
            if node < 20 {
                has_name(&text, &nodes[..NODE_WORDS * answer.count], node, characters.as_bytes());
            }
            with_pairs += u32::from(row[0] == 1 && characters.len() < written.len());
            longest += u32::from(characters.len() == 63 && written.len() > 63);
        }
    }
    println!("names with pairs {with_pairs}, of 63 characters {longest}, malformed {malformed}");
    assert!(with_pairs > 3000 && longest > 50 && malformed > 500, "{with_pairs} {longest} {malformed}");
}
