//! What document 01 says of canonical text, each by readings alone: the tree
//! stays, no bracket and no quote is spare, one space between tokens, no
//! leading zero. There is only one such text for a tree. By document 02 blank
//! rules agree with each other and with no other rule, and no text has fewer
//! tokens than the canonical text of its tree.

use rule_bench::reader::{self, Answer, MAX_BYTES, NODE_WORDS, TABLE_WORDS};
use rule_bench::texts::{Random, Texts};
use std::collections::HashMap;

/// A tree without its brackets: names by characters, numbers by value,
/// operators by bytes, declarations by tokens. `Blank` stands for a blank
/// rule, which has none.
#[derive(Debug, PartialEq, Eq, Hash)]
enum Tree {
    Blank,
    Name(Vec<u8>),
    Number(u32),
    Operator(u32, Vec<u8>, Vec<Tree>),
    Block(Vec<Vec<u8>>, Box<Tree>),
}

type Nodes = Vec<[u32; NODE_WORDS]>;

fn nodes(text: &[u8]) -> Result<Nodes, Answer> {
    let mut words = [0; TABLE_WORDS];
    let answer = reader::read(text, &mut words);
    let nodes = words.as_chunks().0[..answer.count].to_vec();
    if answer.number == 0 { Ok(nodes) } else { Err(answer) }
}

fn tree(text: &[u8]) -> Option<Tree> {
    let nodes = nodes(text).ok()?;
    let root = nodes.len().checked_sub(1);
    Some(root.map_or(Tree::Blank, |root| subtree(text, &nodes, root)))
}

fn subtree(text: &[u8], nodes: &Nodes, node: usize) -> Tree {
    let [kind, first, second, offset, len, _] = nodes[node];
    let bytes = &text[offset as usize..][..len as usize];
    let child = |node: u32| subtree(text, nodes, node as usize);
    match kind {
        1 => Tree::Name(characters(bytes)),
        2 => Tree::Number(value(bytes)),
        4 => Tree::Operator(kind, bytes.to_vec(), vec![child(first), child(second)]),
        3 | 5 => Tree::Operator(kind, bytes.to_vec(), vec![child(first)]),
        6 => child(first),
        _ => {
            let declarations = tokens(bytes).into_iter().map(|(_, token)| by_value(token));
            Tree::Block(declarations.collect(), Box::new(child(first)))
        }
    }
}

/// The characters of a name as it is written without its outer quotes: two
/// quotes are one.
fn characters(written: &[u8]) -> Vec<u8> {
    String::from_utf8(written.to_vec()).unwrap().replace("''", "'").into()
}

fn value(digits: &[u8]) -> u32 {
    std::str::from_utf8(digits).unwrap().parse().unwrap()
}

/// A token of a declaration; a number by its value.
fn by_value(token: &[u8]) -> Vec<u8> {
    if token[0].is_ascii_digit() { value(token).to_string().into() } else { token.to_vec() }
}

/// The tokens of a text that is read, with their offsets.
fn tokens(text: &[u8]) -> Vec<(usize, &[u8])> {
    let class = |byte: u8| match byte {
        b' ' | b'\t' | b'\n' | b'\r' => ' ',
        b'(' | b')' | b';' | b'\'' => byte as char,
        b'0'..=b'9' => '0',
        b'_' | b'A'..=b'Z' | b'a'..=b'z' => 'a',
        _ => '+',
    };
    let mut tokens = Vec::new();
    let mut at = 0;
    while at < text.len() {
        let first = class(text[at]);
        let belongs = |&&byte: &&u8| match (first, class(byte)) {
            ('a', class) => "a0".contains(class),
            ('(' | ')' | ';' | ' ', _) => false,
            (first, class) => first == class,
        };
        let len = match first {
            '\'' => quoted_len(&text[at..]),
            _ => 1 + text[at + 1..].iter().take_while(belongs).count(),
        };
        if first != ' ' {
            tokens.push((at, &text[at..at + len]));
        }
        at += len;
    }
    tokens
}

/// The length of the quoted name in front: up to the first place that has an
/// even number of quotes before it, the opening one included, and none behind.
fn quoted_len(text: &[u8]) -> usize {
    let quotes = |len: usize| text[..len].iter().filter(|&&byte| byte == b'\'').count();
    let ends = |&len: &usize| quotes(len) % 2 == 0 && text.get(len) != Some(&b'\'');
    (2..=text.len()).find(ends).unwrap()
}

/// The canonical text, if it is no longer than 16,384 bytes.
fn canonical(text: &[u8]) -> Result<Vec<u8>, Answer> {
    let mut buffer = vec![0; MAX_BYTES];
    let answer = reader::canonicalize(text, &mut buffer);
    buffer.truncate(answer.count);
    if answer.number == 0 { Ok(buffer) } else { Err(answer) }
}

/// The text without the bytes at some offsets.
fn without(text: &[u8], offsets: &[usize]) -> Vec<u8> {
    let kept = text.iter().enumerate().filter(|(at, _)| !offsets.contains(at));
    kept.map(|(_, &byte)| byte).collect()
}

/// How many texts are read, or are too long as canonical text; how many
/// brackets and quotes were tried; how many texts lost one, or a leading zero;
/// how many have a name quoted in one place and bare in another.
#[derive(Debug, Default)]
struct Seen {
    read: u32,
    too_long: u32,
    brackets: u32,
    quotes: u32,
    brackets_gone: u32,
    quotes_gone: u32,
    zeros_gone: u32,
    quoted_and_bare: u32,
}

/// Is what was written the canonical text?
fn check(text: &[u8], written: &[u8], seen: &mut Seen) {
    let shown = || format!("{}\n{}", String::from_utf8_lossy(text), String::from_utf8_lossy(written));
    let expected = tree(text);
    assert_eq!(tree(written), expected, "{}", shown());
    assert_eq!(written.is_empty(), expected == Some(Tree::Blank), "{}", shown());
    assert_eq!(canonical(written).as_deref(), Ok(written), "{}", shown());
    let tokens_written = tokens(written);
    let spaced: Vec<&[u8]> = tokens_written.iter().map(|token| token.1).collect();
    assert_eq!(spaced.join(&b' '), written, "{}", shown());
    let mut open = Vec::new();
    for (at, token) in &tokens_written {
        let spare = match token[0] {
            b'(' => {
                open.push(*at);
                continue;
            }
            b')' => without(written, &[open.pop().unwrap(), *at]),
            b'\'' => without(written, &[*at, at + token.len() - 1]),
            b'0' => {
                assert_eq!(*token, b"0", "{}", shown());
                continue;
            }
            _ => continue,
        };
        assert_ne!(tree(&spare), expected, "{}", shown());
        seen.brackets += u32::from(token[0] == b')');
        seen.quotes += u32::from(token[0] == b'\'');
    }
    let tokens_text = tokens(text);
    let count = |tokens: &[(usize, &[u8])], first| tokens.iter().filter(|t| t.1[0] == first).count();
    let gone = |first| count(&tokens_text, first) > count(&tokens_written, first);
    seen.read += 1;
    seen.brackets_gone += u32::from(gone(b'('));
    seen.quotes_gone += u32::from(gone(b'\''));
    seen.zeros_gone += u32::from(gone(b'0'));
    let mut quoted = spaced.iter().filter(|token| token[0] == b'\'');
    let quoted_and_bare = quoted.any(|token| stands_bare(written, &token[1..token.len() - 1]));
    seen.quoted_and_bare += u32::from(quoted_and_bare);
}

/// Does the name stand without quotes somewhere in the text?
fn stands_bare(text: &[u8], name: &[u8]) -> bool {
    nodes(text).unwrap().iter().any(|&[kind, _, _, offset, len, _]| {
        let offset = offset as usize;
        let bare = offset == 0 || text[offset - 1] != b'\'';
        kind == 1 && bare && text[offset..][..len as usize] == *name
    })
}

#[test]
fn canonical_text_of_each_tree() {
    let mut texts = Texts::new(21);
    let mut seen = Seen::default();
    for _ in 0..30_000 {
        let text = texts.next();
        match (nodes(&text), canonical(&text)) {
            (Err(refused), answer) => assert_eq!(answer, Err(refused)),
            (Ok(_), Ok(written)) => check(&text, &written, &mut seen),
            (Ok(_), Err(answer)) => {
                assert_eq!(answer, Answer { number: 13, offset: 0, count: 0 });
                seen.too_long += 1;
            }
        }
    }
    println!("{seen:?}");
    let Seen { read, too_long, brackets, quotes, brackets_gone, quotes_gone, zeros_gone, quoted_and_bare } =
        seen;
    assert!(read > 8000 && too_long > 30);
    for count in [brackets, quotes, brackets_gone, quotes_gone, zeros_gone, quoted_and_bare] {
        assert!(count > 200);
    }
}

/// Brackets, quotes, zeros and blanks that a text does not need. A blank rule
/// gets blanks only: brackets round nothing are refused.
fn varied(text: &[u8], nodes: &Nodes, random: &mut Random) -> Vec<u8> {
    let leaves: HashMap<usize, u32> = nodes.iter().map(|node| (node[3] as usize, node[0])).collect();
    let mut varied: Vec<u8> = (0..random.below(3)).map(|_| *random.pick(b" \t\n\r")).collect();
    let whole = if nodes.is_empty() { 0 } else { random.below(3) as usize };
    varied.extend(b"(".repeat(whole));
    for (at, token) in tokens(text) {
        let kind = leaves.get(&(at + usize::from(token[0] == b'\''))).copied().unwrap_or(0);
        let brackets = if kind == 1 || kind == 2 { random.below(8).saturating_sub(5) as usize } else { 0 };
        varied.extend(b"(".repeat(brackets));
        match token[0] {
            b'\'' => varied.extend(token),
            _ if kind == 1 && random.one_in(3) => varied.extend([b"'", token, b"'"].concat()),
            b'0'..=b'9' => {
                varied.extend(b"0".repeat(random.index(10 - token.len())));
                varied.extend(token);
            }
            _ => varied.extend(token),
        }
        varied.extend(b")".repeat(brackets));
        varied.push(*random.pick(b" \t\n\r"));
    }
    varied.extend(b")".repeat(whole));
    varied
}

#[test]
fn texts_that_agree() {
    let mut texts = Texts::new(22);
    let mut random = Random::new(22);
    let (mut same, mut blank) = (0, 0);
    for _ in 0..30_000 {
        let text = texts.next();
        let Ok(nodes) = nodes(&text) else { continue };
        let varied = varied(&text, &nodes, &mut random);
        match canonical(&varied) {
            // A text can become too long, too deep, or too many tokens.
            Err(Answer { number: 1 | 5 | 7, .. }) => continue,
            answer => assert_eq!(answer, canonical(&text), "{}", String::from_utf8_lossy(&varied)),
        }
        same += 1;
        blank += u32::from(nodes.is_empty());
    }
    assert!(same > 8000 && blank > 200, "{same} {blank}");
}

/// Declarations of `p` and `q`: operators of one precedence that differ in
/// associativity, operators of several roles, and, as document 02, section 2,
/// has them, roles that differ in precedence.
const DECLARATIONS: [&str; 10] = [
    "infix left 5 p ; infix left 5 q ;", "infix right 5 p ; infix left 5 q ;",
    "infix non 5 p ; infix right 6 q ;", "prefix right 5 p ; infix left 5 q ;",
    "prefix non 5 p ; postfix left 5 q ;", "prefix right 6 p ; postfix non 6 q ; infix non 6 q ;",
    "prefix non 5 p ; infix left 5 p ; postfix left 5 p ; infix left 6 q ;",
    "prefix right 2 p ; infix left 5 p ; infix right 4 q ;",
    "prefix right 6 p ; infix left 3 p ; postfix left 5 q ; prefix non 4 q ;",
    "prefix non 4 p ; postfix left 6 p ; infix right 6 q ; prefix right 3 q ;",
];

/// Document 02, section 14, by all token lists up to a length: no text with
/// the same tree has fewer tokens than the canonical text.
#[test]
fn fewest_tokens() {
    const TOKENS: [&str; 5] = ["a", "p", "q", "(", ")"];
    const LONGEST: u32 = 7;
    let (mut shorter, mut with_brackets) = (0, 0);
    for declarations in DECLARATIONS {
        let mut least: HashMap<Tree, usize> = HashMap::new();
        let mut read = Vec::new();
        for (length, number) in (1..=LONGEST).flat_map(|n| (0..5_usize.pow(n)).map(move |k| (n, k))) {
            let inside: Vec<&str> = (0..length).map(|at| TOKENS[number / 5_usize.pow(at) % 5]).collect();
            let text = format!("let {declarations} in {} end", inside.join(" ")).into_bytes();
            if let Some(tree) = tree(&text) {
                let count = tokens(&text).len();
                let fewest = least.entry(tree).or_insert(count);
                *fewest = count.min(*fewest);
                read.push(text);
            }
        }
        assert!(read.len() > 50, "{declarations}: {}", read.len());
        for text in read {
            let written = canonical(&text).unwrap();
            let count = tokens(&written).len();
            assert_eq!(count, least[&tree(&text).unwrap()], "{}", String::from_utf8_lossy(&text));
            shorter += u32::from(count < tokens(&text).len());
            with_brackets += u32::from(written.contains(&b'('));
        }
    }
    assert!(shorter > 500 && with_brackets > 200, "{shorter} {with_brackets}");
}

/// The canonical text goes to the front of a buffer that holds it; else 13,
/// and no byte changes.
#[test]
fn buffers() {
    let mut texts = Texts::new(23);
    let mut random = Random::new(23);
    for _ in 0..30_000 {
        let text = texts.next();
        let full = canonical(&text);
        let needed = full.as_ref().map_or(0, |written| written.len());
        for len in [needed, needed.saturating_sub(1), 0, random.index(needed + 1), needed + random.index(99)]
        {
            let pattern: Vec<u8> = (0..len).map(|_| random.bits() as u8).collect();
            let mut buffer = pattern.clone();
            let answer = reader::canonicalize(&text, &mut buffer);
            match &full {
                Err(refused) => assert_eq!((answer, buffer), (*refused, pattern)),
                Ok(_) if len < needed => {
                    assert_eq!((answer, buffer), (Answer { number: 13, offset: 0, count: 0 }, pattern));
                }
                Ok(written) => {
                    assert_eq!(answer, Answer { number: 0, offset: 0, count: needed });
                    assert_eq!(buffer, [written, &pattern[needed..]].concat());
                }
            }
        }
    }
}

/// Canonical text of 16,384 bytes is written, one byte more is not, however
/// long the buffer.
#[test]
fn longest() {
    for len in 16_380..=16_388 {
        let mut names = vec!["n".repeat(59); 265];
        names[0] = "n".repeat(len - 264 * 62);
        let text = names.join("+");
        let mut buffer = vec![b'x'; 20_000];
        let answer = reader::canonicalize(text.as_bytes(), &mut buffer);
        if len <= 16_384 {
            assert_eq!(answer, Answer { number: 0, offset: 0, count: len });
            assert_eq!(buffer[..len], *names.join(" + ").as_bytes());
            assert!(buffer[len..].iter().all(|&byte| byte == b'x'));
        } else {
            assert_eq!(answer, Answer { number: 13, offset: 0, count: 0 });
            assert!(buffer.iter().all(|&byte| byte == b'x'));
        }
    }
}

#[test]
fn examples() {
    for (text, expected) in [
        ("((a)) * (b + c)", "a * ( b + c )"),
        ("'not' = '12'", "'not' = '12'"),
        ("a+b", "a + b"),
        ("(a - b) - (c - d)", "a - b - ( c - d )"),
        ("(-a) - (-b)", "- a - ( - b )"),
        ("- (- a)", "- ( - a )"),
        ("not (not a)", "not not a"),
        ("(not a) and not (a and b)", "not a and not ( a and b )"),
        ("000 + 007 * 10", "0 + 7 * 10"),
        (
            "'a' + 'a b' + '++' + '+' + 'let' + '3a' + 'a_1' + '_a'",
            "a + 'a b' + ++ + '+' + 'let' + '3a' + a_1 + '_a'",
        ),
        ("let infix right 0400 r;in(a r b)r(c r d)end", "let infix right 400 r ; in ( a r b ) r c r d end"),
        (
            "'s' + let postfix left 1 s; in 's' s + let plain s; in 's' end end",
            "s + let postfix left 1 s ; in 's' s + let plain s ; in s end end",
        ),
        (
            "let infix right 400 R; in (1 R 2) + (3 R (4 + 5)) end",
            "let infix right 400 R ; in ( 1 R 2 ) + ( 3 R 4 + 5 ) end",
        ),
        ("let plain + ; in ('+') end + ((let in (1 + 2) end))", "let plain + ; in + end + let in 1 + 2 end"),
        ("(name)='O''Neill'or('D''Souza')=name", "name = 'O''Neill' or 'D''Souza' = name"),
    ] {
        let written = canonical(text.as_bytes()).map(|written| String::from_utf8(written).unwrap());
        assert_eq!(written.as_deref(), Ok(expected), "{text}");
    }
}
