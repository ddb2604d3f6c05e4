//! `locate`: the recorded calls; each kind of place; the place of each span of
//! a few items against all continuations, enumerated from the definition of a
//! tree; generated texts against `read`.

mod marks;

use marks::{LEAF, Left, Mark, head, random_marks, trees};
use rule_bench::listing;
use rule_bench::reader::continuation::{Span, first_without_tree, items};
use rule_bench::reader::list::List;
use rule_bench::reader::{Answer, TABLE_WORDS, analyze, locate, read};
use rule_bench::texts::{Random, Texts};
use std::fmt::Write;
use std::fs::read_to_string;

const CALLS: &str = concat!(env!("CARGO_MANIFEST_DIR"), "/../crates/services/stdin");
const ANSWERS: &str = concat!(env!("CARGO_MANIFEST_DIR"), "/../crates/services/stdout");
/// The recorded calls come first in these files.
const RECORDED: usize = 1183;

const READ: (u8, usize) = (0, 0);

/// Number and place; the count is 0.
fn located(text: &[u8]) -> (u8, usize) {
    let Answer { number, offset, count } = locate(text);
    assert_eq!(count, 0, "{}", String::from_utf8_lossy(text));
    (number, offset)
}

#[test]
fn recorded() {
    let (calls, answers) = (read_to_string(CALLS).expect(CALLS), read_to_string(ANSWERS).expect(ANSWERS));
    let recorded: Vec<_> = calls.lines().zip(answers.lines()).take(RECORDED).collect();
    assert_eq!(recorded.len(), RECORDED);
    for (call, expected) in recorded {
        let text = call.strip_prefix("locate ").expect("a call of `locate`");
        let text = listing::from_hex(if text == "-" { "" } else { text }).expect("hexadecimal");
        let found = match located(&text) {
            READ => "read".into(),
            (number, offset) => format!("refused {number} at {offset}"),
        };
        assert_eq!(found, expected, "{}", String::from_utf8_lossy(&text));
    }
}

/// Texts that are refused with 11, with a `^` before the byte at which each is
/// lost.
const LOST: &[&str] = &[
    // A name, number, quoted name, bracket pair or block behind an operand.
    "grade = 7 ^AND boarder", "grade ^== 7", "form = 7^B", "a ^7", "7 ^8 9", "a ^'b'", "'a'^b",
    "'O''Neill' ^'b c' d", "a ^( b )", "a ^( )", "( a ) ^( b )", "( ) ^a", "a = ( b )^(c)",
    "a ^let in b end", "let in a end ^let in b end + c", "( a + ) ^b",
    // An operator without a role for where it stands.
    "^+ a", " \t^+", "a + ^+ b", "boarder and not ^and leaver", "a ^not b", "( ^= )", "let in ^or end",
    // A prefix operator that the waiting operator does not admit.
    "a - ^- b", "- ^- a", "a * ^- b", "a = ^not b", "( a + ( b * ^- c ) )",
    // A left operand that is not admitted.
    "a = b ^= c", "a < b and c = d ^< e or f", "let infix right 400 r ; in a + b ^r c end",
    "let postfix non 400 ? ; in - a ^? end", "let infix non 450 s ; postfix non 450 s ; in a s ^s b end",
    // Operators that are both infix and postfix can still be either.
    "let infix left 350 s ; postfix left 350 s ; in a s - ^end",
    "let infix left 450 s ; postfix left 450 s ; in a s - b s s ^+ c end",
    "let infix left 450 s ; postfix left 450 s ; in a s ^not b end",
    // Something missing: at the text's end, behind its blanks, before `)` and
    // before `end`.
    "a +^", "a + ^", "a +\t\r\n ^", "not^", "a = b and not ( c ) or -  ^", "( ^)", "(^)", " ( ^) ", "(a+^)",
    "grade = 7 and (boarder or^)", "( ( a b ) + ^)", "let in ^end", "let plain x ; in ^end",
    "let in a + ^end", "a or let infix left 9 s ; in a s ^end",
    // The first span by its start, and inner spans.
    "( a ) * ( b ^c ) + ( d e )", "( ( a ^b ) )", "let in ( a ^b ) end", "( let in a ^b end )",
    "a + let in b end + ( let in c + ( d ^e ) end )",
    // A name in a block is an operator outside it, and the other way round.
    "let plain + ; in a ^+ b end", "let plain + ; in + end + ^+ c", "let infix left 9 s ; in a s b end ^s c",
];

/// The text of a row of `LOST`, and the place.
fn lost(row: &str) -> (String, usize) {
    let (before, behind) = row.split_once('^').expect("a place");
    (format!("{before}{behind}"), before.len())
}

#[test]
fn each_kind_of_place() {
    for row in LOST {
        let (text, place) = lost(row);
        assert_eq!(located(text.as_bytes()), (11, place), "{text}");
        assert_eq!(read(text.as_bytes(), &mut [0; TABLE_WORDS]).number, 11, "{text}");
    }
}

/// As many items as a text can have tokens.
#[test]
fn longest() {
    let (not, a, plus) = ("not ".repeat(1024), "a ".repeat(1024), "a + ".repeat(512));
    assert_eq!(located(not.as_bytes()), (11, 4096));
    assert_eq!(located(a.as_bytes()), (11, 2));
    assert_eq!(located(plus.as_bytes()), (11, 2048));
    assert_eq!(located((plus.clone() + "a").as_bytes()), (5, 2048));
    assert_eq!(located((plus[..2044].to_string() + "a a").as_bytes()), (11, 2046));
    assert_eq!(located(format!("a +{}", " ".repeat(16_381)).as_bytes()), (11, 16_384));
    assert_eq!(located(format!("a +{}", " ".repeat(16_382)).as_bytes()), (1, 16_384));
    let open = "(".repeat(32);
    assert_eq!(located(format!("{open}a b{}", ")".repeat(32)).as_bytes()), (11, 34));
}

/// No buffer is lent: what has a tree is read, also where its canonical text
/// is too long; so is a blank rule.
#[test]
fn no_buffer() {
    let long = "aaaaaaaaaaaaaaaaaaaaaaaaaaaaaa+".repeat(511) + "a";
    for text in ["", " \t\r\n", "a", "let in a end", "a + b * 3", &long, &" ".repeat(16_384)] {
        assert_eq!(located(text.as_bytes()), READ, "{text}");
    }
}

/// Different items of the lists that are enumerated.
const ALPHABET: usize = 4;
/// Items of a list, at most.
const LONGEST: u32 = 7;
/// Of a list that is located, so that at least three items can follow.
const LOCATED: u32 = 4;

/// A table whose last mark is declared with the others, or is `or`, with what
/// a text writes for each.
fn table(random: &mut Random) -> (Vec<Mark>, Vec<&'static str>, String) {
    let mut marks = random_marks(random, 3, 2);
    if random.one_in(2) {
        return (marks.clone(), vec!["m0", "m1", "m2", "xx"], head(&marks));
    }
    let head = head(&marks[..2]);
    marks[2] = [None, Some((800, Left)), None];
    (marks, vec!["m0", "m1", "or", "xx"], head)
}

/// A list's items from its number; the number of a list that begins it is the
/// remainder by `ALPHABET` to the power of its length.
fn list(code: usize, len: u32) -> Vec<u64> {
    let item = |at| match code / ALPHABET.pow(at) % ALPHABET {
        3 => LEAF,
        mark => mark as u64,
    };
    (0..len).map(item).collect()
}

/// For each length and number whether some list that begins so, of at most
/// `LONGEST` items, has a tree; the list itself is one of them.
fn continued(marks: &[Mark]) -> Vec<Vec<bool>> {
    let mut continued: Vec<Vec<bool>> = (0..=LONGEST).map(|len| vec![false; ALPHABET.pow(len)]).collect();
    for len in 0..=LONGEST {
        for code in 0..ALPHABET.pow(len) {
            if !trees(marks, &list(code, len), 0, len as usize).is_empty() {
                (0..=len).for_each(|front| continued[front as usize][code % ALPHABET.pow(front)] = true);
            }
        }
    }
    continued
}

/// Nothing that begins with the items up to the place has a tree, and what
/// stands before it can be continued: over all lists of few items, under random
/// tables of both sorts.
#[test]
fn all_continuations() {
    let mut random = Random::new(4);
    let (mut lost, mut unfinished) = (0, 0);
    for _ in 0..80 {
        let (marks, written, head) = table(&mut random);
        let continued = continued(&marks);
        for len in 0..=LOCATED {
            for code in 0..ALPHABET.pow(len) {
                let items = list(code, len);
                let mut text = head.clone();
                items.iter().for_each(|&item| write!(text, " {}", written[item.min(3) as usize]).unwrap());
                text += " end";
                // Each item takes three bytes.
                let first = head.len() + 1;
                let dead = (1..=len).find(|&front| !continued[front as usize][code % ALPHABET.pow(front)]);
                let expected = match dead {
                    _ if !trees(&marks, &items, 0, items.len()).is_empty() => READ,
                    Some(front) => (11, first + 3 * (front as usize - 1)),
                    None => (11, first + 3 * len as usize),
                };
                assert_eq!(located(text.as_bytes()), expected, "{text}");
                lost += u32::from(expected != READ && dead.is_some());
                unfinished += u32::from(expected != READ && dead.is_none());
            }
        }
    }
    println!("{lost} lost at an item, {unfinished} at the end");
    assert!(lost > 10_000 && unfinished > 1000, "{lost} {unfinished}");
}

/// The first span without a tree of a text that is refused with 11 at
/// `refused`, and where the item behind a place starts or the span ends.
fn span_and_next(text: &[u8], refused: usize, place: usize) -> (Span, Option<usize>) {
    let mut tokens = List::new();
    assert!(analyze(text, &mut tokens, &mut List::new()).is_err());
    let span = first_without_tree(&tokens, text.len()).expect("a span without a tree");
    let opener = span.tokens.start.checked_sub(1);
    assert_eq!(opener.map_or(0, |opener| tokens[opener].start as usize), refused);
    let starts = items(&tokens, &span).into_iter().map(|item| item.start as usize);
    let next = starts.chain([span.end]).find(|&start| start > place);
    (span, next)
}

/// A few items that do not close what they stand in.
fn random_items(random: &mut Random) -> String {
    const ITEMS: &[&str] =
        &["a", "7", "'a b'", "( a )", "let in a end", "or", "and", "not", "=", "+", "-", "*", "s", "p", "?"];
    let len = random.index(5);
    (0..len).fold(String::from(" "), |items, _| items + *random.pick(ITEMS) + " ")
}

/// Is a text past checks 1 to 10 refused, and at this place? None if it is too
/// long or too deep, or has too many tokens.
fn refused_at(text: &[u8], offset: usize) -> Option<bool> {
    match read(text, &mut [0; TABLE_WORDS]) {
        Answer { number: 1 | 5 | 7, .. } => None,
        Answer { number: 0 | 11, offset: found, count } => Some(count == 0 && found == offset),
        answer => panic!("{answer:?}: {}", String::from_utf8_lossy(text)),
    }
}

/// The span's items before the place, alone or with an operand, have a tree;
/// whatever follows the item at the place, the span has none.
fn check_place(text: &[u8], refused: usize, place: usize, random: &mut Random) {
    let shown = String::from_utf8_lossy(text);
    let (span, next) = span_and_next(text, refused, place);
    assert!(refused <= place && place <= span.end, "{shown}");
    let behind = &text[span.end..];
    let continued = |items: &str| [&text[..place], items.as_bytes(), behind].concat();
    // The whole text and a bracket at its front are refused at one place.
    if text[0] != b'(' {
        let refused = [" ", " 1 "].map(|items| refused_at(&continued(items), refused));
        assert!(refused.iter().any(|refused| *refused != Some(true)), "{shown}");
    }
    let Some(next) = next else { return };
    for _ in 0..4 {
        let text = [&text[..next], random_items(random).as_bytes(), behind].concat();
        if refused_at(&text, refused).is_some() {
            assert_eq!(located(&text), (11, place), "{}", String::from_utf8_lossy(&text));
        }
    }
}

#[test]
fn generated_texts() {
    let (mut texts, mut random) = (Texts::new(8), Random::new(8));
    let mut lost = 0;
    for _ in 0..40_000 {
        let text = texts.next();
        let Answer { number, offset, .. } = read(&text, &mut [0; TABLE_WORDS]);
        let found = located(&text);
        assert_eq!(found.0, number, "{}", String::from_utf8_lossy(&text));
        if number == 11 {
            check_place(&text, offset, found.1, &mut random);
            lost += 1;
        } else {
            assert_eq!(found.1, offset, "{}", String::from_utf8_lossy(&text));
        }
    }
    assert!(lost > 5000, "{lost}");
}
