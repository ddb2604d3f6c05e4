//! Document 02, section 7: a text that is empty or all blanks, of at most
//! 16,384 bytes, is a blank rule. Both services read it: no nodes, and an
//! empty canonical text. An empty bracket pair or block body is refused with
//! 11 as before.

use rule_bench::listing;
use rule_bench::reader::{Answer, MAX_BYTES, NODE_WORDS, TABLE_WORDS, canonicalize, read};
use rule_bench::texts::{Random, Texts};
use std::fs::read_to_string;

const BLANKS: [u8; 4] = [9, 10, 13, 32];

/// Both services give this answer with count 0 and change nothing, however
/// many words or bytes are lent.
fn nothing_written(text: &[u8], number: u8, offset: usize) {
    for len in [0, 1, NODE_WORDS - 1, NODE_WORDS, 2 * NODE_WORDS - 1, TABLE_WORDS, MAX_BYTES, 16_500] {
        let words: Vec<u32> = (0..len as u32).map(|i| 0xA5A5_0000 ^ i).collect();
        let bytes: Vec<u8> = (0..len).map(|i| 0xA5 ^ (i % 251) as u8).collect();
        let (mut nodes, mut buffer) = (words.clone(), bytes.clone());
        let answers = [read(text, &mut nodes), canonicalize(text, &mut buffer)];
        let shown = || format!("{}, {len} lent", listing::to_hex(&text[..text.len().min(100)]));
        assert_eq!(answers, [Answer { number, offset, count: 0 }; 2], "{}", shown());
        assert!(nodes == words && buffer == bytes, "{}", shown());
    }
}

fn is_nobody(text: &[u8]) {
    nothing_written(text, 0, 0);
    assert_eq!(listing::reading(text), "read 0\n");
    assert_eq!(listing::of(text), "read 0\ntidy 0\n\n");
}

/// The text before the place and from the place on.
fn refused(number: u8, before: impl AsRef<[u8]>, from: impl AsRef<[u8]>) {
    let text = [before.as_ref(), from.as_ref()].concat();
    nothing_written(&text, number, before.as_ref().len());
    assert_eq!(listing::of(&text), format!("refused {number} at {}\n", before.as_ref().len()));
}

/// Read with one node, a name or number of one token.
fn one_node(before: &[u8], token: &str, behind: &[u8]) {
    let text = [before, token.as_bytes(), behind].concat();
    let Answer { number, offset, count } = read(&text, &mut [0; NODE_WORDS]);
    assert_eq!((number, offset, count), (0, 0, 1), "{token}");
    let mut buffer = [0; 100];
    let answer = canonicalize(&text, &mut buffer);
    assert_eq!(&buffer[..answer.count], token.as_bytes());
    // It needs the words of a node and its bytes.
    assert_eq!(read(&text, &mut [0; NODE_WORDS - 1]), Answer { number: 12, offset: 0, count: 0 });
    assert_eq!(canonicalize(&text, &mut []), Answer { number: 13, offset: 0, count: 0 });
}

/// Blanks of all four kinds.
fn blanks(len: usize) -> Vec<u8> {
    BLANKS.into_iter().cycle().take(len).collect()
}

#[test]
fn empty_text() {
    is_nobody(b"");
}

/// All texts of up to five blanks.
#[test]
fn few_blanks() {
    for len in 0..=5 {
        for code in 0..4usize.pow(len) {
            let text: Vec<u8> = (0..len).map(|i| BLANKS[code / 4usize.pow(i) % 4]).collect();
            is_nobody(&text);
        }
    }
}

#[test]
fn longest() {
    let texts = |len| BLANKS.map(|blank| vec![blank; len]).into_iter().chain([blanks(len)]);
    for len in [6, 7, 8, 9, 40, 128, 129, 1024, 1025, 16_382, 16_383, 16_384] {
        texts(len).for_each(|text| is_nobody(&text));
    }
    for len in [16_385, 16_386, 40_000] {
        texts(len).for_each(|text| nothing_written(&text, 1, 16_384));
    }
}

/// Any other byte in front of blanks, among them and behind them.
#[test]
fn one_other_byte() {
    for (front, behind) in [(0, 0), (0, 3), (1, 2), (4, 4), (3, 0), (0, 16_383), (16_383, 0)] {
        let (front, behind) = (blanks(front), blanks(behind));
        for byte in (0..=255u8).filter(|byte| !BLANKS.contains(byte)) {
            let from = [&[byte], &behind[..]].concat();
            let text = [&front[..], &from].concat();
            match byte {
                b'A'..=b'Z' | b'a'..=b'z' | b'0'..=b'9' => {
                    one_node(&front, &char::from(byte).to_string(), &behind)
                }
                // Operators from the start.
                b'=' | b'<' | b'+' | b'-' | b'*' => refused(11, b"", &text),
                _ if b"/>!&|^~:?@#$%".contains(&byte) => {
                    one_node(&front, &char::from(byte).to_string(), &behind)
                }
                b'\'' => refused(3, &front, &from),
                b'(' => refused(6, &text, b""),
                b')' | b';' => refused(6, &front, &from),
                _ => refused(2, &front, &from),
            }
        }
    }
}

/// What looks blank and is not: vertical tab, form feed, zero, next line, the
/// non-breaking space in two codes, the byte order mark.
#[test]
fn bytes_that_look_blank() {
    let unseen: [&[u8]; 8] =
        [b"\x0B", b"\x0C", b"\0", b"\x85", b"\xA0", b"\xC2\xA0", b"\xEF\xBB\xBF", b"\x7F"];
    for bytes in unseen {
        for (front, behind) in [(0, 0), (0, 5), (5, 5), (5, 0), (0, 16_381), (16_381, 0)] {
            refused(2, blanks(front), [bytes, &blanks(behind)].concat());
        }
        // Check 1 comes first.
        let text = [&blanks(16_384), bytes].concat();
        nothing_written(&text, 1, 16_384);
    }
}

#[test]
fn one_token_among_blanks() {
    let long = "a".repeat(63);
    for (front, behind) in [(0, 0), (0, 9), (9, 9), (9, 0), (16_300, 0), (0, 16_300)] {
        let (front, behind) = (blanks(front), blanks(behind));
        // A quoted blank is a name.
        for token in ["a", "7", "0", "' '", "'    '", "'('", "'not'", "?", "infix", "nobody", &long] {
            one_node(&front, token, &behind);
        }
        let with = |token: &str| [token.as_bytes(), &behind].concat();
        for token in ["+", "not", "and", "or", "-"] {
            refused(11, b"", [&front, &with(token)[..]].concat());
        }
        for token in [";", ")", "in", "end"] {
            refused(6, &front, with(token));
        }
        for token in ["(", "let", "let in"] {
            refused(6, [&front, &with(token)[..]].concat(), b"");
        }
        for token in ["''", "'", "'\t'"] {
            refused(3, &front, with(token));
        }
        refused(4, &front, with(&"a".repeat(64)));
        refused(4, &front, with("1234567890"));
    }
}

/// A span inside a text is not blank: it has no tree.
#[test]
fn empty_bracket_pair() {
    refused(11, "", "()");
    refused(11, "", "( )");
    refused(11, "", "(\t\r\n )");
    refused(11, " ", "() ");
    refused(11, "\n\t", "(\n)\n");
    refused(11, "(", "())");
    refused(11, "( ", "( ) )");
    refused(11, "not ", "( )");
    refused(11, "a + ", "( )");
    refused(11, "", "( ) + a");
    refused(11, "a = ", "( ) and ( a a )");
    refused(11, "( a ) = ", "( )");
    refused(11, "(".repeat(31), "()".to_string() + &")".repeat(31));
    // The whole text comes first: two operands without an operator.
    refused(11, "", "a ( )");
    refused(11, "", "( ) a");
    refused(11, "", "( ) ( )");
    refused(11, "", "+ ( )");
    refused(11, "", "( ) let in end");
}

#[test]
fn empty_block_body() {
    refused(11, "let ", "in end");
    refused(11, "let ", "in\t\r\n end");
    refused(11, " let ", "in end ");
    refused(11, "let plain x ; ", "in end");
    refused(11, "let infix left 400 r ; ", "in end");
    refused(11, "let in ", "( ) end");
    refused(11, "( let ", "in end )");
    refused(11, "let in let ", "in end end");
    refused(11, "a + let ", "in end");
    refused(11, "let ", "in a a end = ( )");
    refused(11, "", "let in end let in end");
    // Checks that come before 11.
    refused(6, "let in", "");
    refused(6, "let ", "end");
    refused(8, "let plain ", "in end");
    refused(10, "let infix left 7 x ; postfix left 8 x ; ", "in end");
    refused(17, "let plain ", "and ; in end");
    // A name is enough of a body.
    assert_eq!(listing::reading(b"let in a end"), "read 2\n0 name 0 0 7 1 0\n1 block 0 0 0 6 0\n");
}

/// The canonical text of a blank rule is a blank rule, and its own.
#[test]
fn reads_back() {
    for len in [0, 1, 4, 16_384] {
        let mut buffer = [b'x'; 8];
        let answer = canonicalize(&blanks(len), &mut buffer);
        assert_eq!(answer, Answer { number: 0, offset: 0, count: 0 });
        is_nobody(&buffer[..answer.count]);
    }
}

/// Blank rules have one canonical text, which no other rule has. That is so
/// for the recorded cases and for generated texts.
#[test]
fn agree_with_each_other_only() {
    let path = concat!(env!("CARGO_MANIFEST_DIR"), "/../crates/cases/stdin");
    let recorded = read_to_string(path).expect(path);
    let recorded = recorded.lines().map(|line| listing::from_hex(line).expect("hexadecimal"));
    let mut texts = Texts::new(31);
    let (mut blank, mut other) = (0, 0);
    for text in recorded.chain((0..20_000).map(|_| texts.next())) {
        let answers = [read(&text, &mut [0; TABLE_WORDS]), canonicalize(&text, &mut [0; MAX_BYTES])];
        let is_blank = text.iter().all(|byte| BLANKS.contains(byte));
        if is_blank {
            let expected = if text.len() <= MAX_BYTES { (0, 0) } else { (1, 16_384) };
            nothing_written(&text, expected.0, expected.1);
            blank += u32::from(expected.0 == 0);
        }
        for Answer { number, count, .. } in answers {
            assert_eq!(number == 0, count > 0 || is_blank && text.len() <= MAX_BYTES);
            other += u32::from(count > 0);
        }
    }
    assert!(blank > 200 && other > 10_000, "{blank} {other}");
}

/// Blanks in front of a rule and behind it mean nothing.
#[test]
fn blanks_round_a_rule() {
    let mut random = Random::new(32);
    let rules = ["a", "a + b * 3", "let plain * ; in state = * end", "not ( a or b )", "' ' = '  '"];
    for rule in rules {
        let mut expected = [0; 100];
        let answer = canonicalize(rule.as_bytes(), &mut expected);
        for _ in 0..20 {
            let (front, behind) = (blanks(random.index(9)), blanks(random.index(9)));
            let mut buffer = [0; 100];
            let text = [&front, rule.as_bytes(), &behind].concat();
            assert_eq!((canonicalize(&text, &mut buffer), buffer), (answer, expected), "{rule}");
            assert!(answer.number == 0 && answer.count > 0);
        }
    }
}

/// Listings of blank rules among others, with canonical texts and without.
#[test]
fn listings_are_split() {
    let nobody = "read 0\ntidy 0\n\n";
    let name = "read 1\n0 name 0 0 0 1 0\ntidy 1\na\n";
    let too_long = "read 1\n0 name 0 0 0 1 0\nrefused 13 at 0\n";
    let refused = "refused 2 at 0\n";
    for listings in [
        vec![nobody],
        vec![nobody, nobody, name, nobody, refused, nobody],
        vec![name, nobody, too_long, nobody, too_long, refused, refused, nobody, name],
        vec!["read 0\n", "read 0\n", refused, "read 0\n", "read 1\n0 name 0 0 0 1 0\n", "read 0\n"],
    ] {
        assert_eq!(listing::split(&listings.concat()), listings);
    }
}
