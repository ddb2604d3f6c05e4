//! Document 02, section 6: the sixth word of a node is the precedence at which
//! it was read, that of the operator's role in the table in force there; 0 for
//! names, numbers, brackets and blocks. Refusal 12 counts in six words.

use rule_bench::listing;
use rule_bench::reader::{
    Answer, MAX_BYTES, MAX_NODES, MAX_PRECEDENCE, NODE_WORDS, TABLE_WORDS, canonicalize, read,
};
use rule_bench::texts::Texts;
use std::collections::HashSet;

const PREFIX: u32 = 3;
const INFIX: u32 = 4;
const POSTFIX: u32 = 5;

/// Where the words of a node stand.
const OFFSET: usize = 3;
const LENGTH: usize = 4;
const PRECEDENCE: usize = 5;

const PATTERN: u32 = 0xA5A5_5A5A;

type Node = [u32; NODE_WORDS];

fn is_operator(node: &Node) -> bool {
    (PREFIX..=POSTFIX).contains(&node[0])
}

/// The nodes of a text that is read. An operator has a precedence that can be
/// declared, any other node 0.
fn nodes(text: &str) -> Vec<Node> {
    let mut words = [PATTERN; TABLE_WORDS];
    let answer = read(text.as_bytes(), &mut words);
    assert_eq!(answer.number, 0, "{text}");
    let nodes = words.as_chunks().0[..answer.count].to_vec();
    for node in &nodes {
        let fit = if is_operator(node) { 1..=MAX_PRECEDENCE } else { 0..=0 };
        assert!(fit.contains(&node[PRECEDENCE]), "{text}: {node:?}");
    }
    nodes
}

/// The kind, the bytes and the precedence of each operator, in their order in
/// the text.
fn operators(text: &str) -> Vec<(u32, String, u32)> {
    let mut nodes = nodes(text);
    nodes.retain(is_operator);
    nodes.sort_by_key(|node| node[OFFSET]);
    let bytes = |node: &Node| text[node[OFFSET] as usize..][..node[LENGTH] as usize].to_string();
    nodes.iter().map(|node| (node[0], bytes(node), node[PRECEDENCE])).collect()
}

/// The precedences of the operators, in their order in the text.
fn precedences(text: &str) -> Vec<u32> {
    operators(text).into_iter().map(|(_, _, precedence)| precedence).collect()
}

/// The operators of a text, each by its kind, its bytes and its precedence.
fn has_operators(text: &str, expected: &[(u32, &str, u32)]) {
    let found = operators(text);
    let found: Vec<(u32, &str, u32)> = found.iter().map(|(kind, name, p)| (*kind, &name[..], *p)).collect();
    assert_eq!(found, expected, "{text}");
}

#[test]
fn starting_operators() {
    for (text, kind, name, precedence) in [
        ("a or b", INFIX, "or", 800),
        ("a and b", INFIX, "and", 700),
        ("not a", PREFIX, "not", 600),
        ("a = b", INFIX, "=", 500),
        ("a < b", INFIX, "<", 500),
        ("a + b", INFIX, "+", 400),
        ("a - b", INFIX, "-", 400),
        ("- a", PREFIX, "-", 400),
        ("a * b", INFIX, "*", 300),
    ] {
        has_operators(text, &[(kind, name, precedence)]);
        // A bracket and a block have 0, and take nothing from the operator.
        has_operators(&format!("( ( {text} ) )"), &[(kind, name, precedence)]);
        has_operators(&format!("let in {text} end"), &[(kind, name, precedence)]);
        let other = "infix right 1200 r ; prefix non 7 p ; plain q ;";
        has_operators(&format!("let {other} in ( {text} ) end"), &[(kind, name, precedence)]);
    }
    assert_eq!(
        precedences("a = 1 and not b < - 2 + c * 3 - d or e"),
        [500, 700, 600, 500, 400, 400, 300, 400, 800]
    );
}

#[test]
fn other_nodes_have_none() {
    let listing = |text: &str| listing::reading(text.as_bytes());
    assert_eq!(listing("a"), "read 1\n0 name 0 0 0 1 0\n");
    assert_eq!(listing("'a'"), "read 1\n0 name 0 0 1 1 0\n");
    assert_eq!(listing("400"), "read 1\n0 number 0 0 0 3 0\n");
    assert_eq!(listing("(a)"), "read 2\n0 name 0 0 1 1 0\n1 bracket 0 0 0 0 0\n");
    assert_eq!(listing("let in a end"), "read 2\n0 name 0 0 7 1 0\n1 block 0 0 0 6 0\n");
    // Round an operator, and round each other.
    assert_eq!(
        listing("(let in (a+1) end)"),
        "read 6\n0 name 0 0 9 1 0\n1 number 0 0 11 1 0\n2 infix 0 1 10 1 400\n3 bracket 2 0 0 0 0\n\
         4 block 3 0 1 6 0\n5 bracket 4 0 0 0 0\n"
    );
    // A block has none of the precedences that it declares.
    assert_eq!(
        listing("let prefix non 900 p ; in p 900 end"),
        "read 3\n0 number 0 0 28 3 0\n1 prefix 0 0 26 1 900\n2 block 1 0 0 25 0\n"
    );
    assert!(nodes("").is_empty() && nodes(" \t\n").is_empty());
}

/// Words and signs that are no operators where they stand.
#[test]
fn names_like_operators() {
    for name in ["+", "and", "not", "-", "*", "or", "=", "<"] {
        has_operators(&format!("'{name}'"), &[]);
        has_operators(&format!("'{name}' + '{name}'"), &[(INFIX, "+", 400)]);
        has_operators(&format!("not '{name}'"), &[(PREFIX, "not", 600)]);
    }
    has_operators("let infix left 650 x ; in 'x' x 'x' end", &[(INFIX, "x", 650)]);
    has_operators("x = let infix left 7 x ; in a x b end", &[(INFIX, "=", 500), (INFIX, "x", 7)]);
    has_operators("let infix left 7 x ; in a x b end = x", &[(INFIX, "x", 7), (INFIX, "=", 500)]);
    has_operators("let plain + ; in + end + +++", &[(INFIX, "+", 400)]);
    has_operators("infix = 400", &[(INFIX, "=", 500)]);
}

/// Every fixity and associativity at each of some precedences.
#[test]
fn each_role() {
    for precedence in [1, 2, 299, 300, 301, 400, 799, 801, 1199, MAX_PRECEDENCE] {
        for (declared, body, kind) in [
            ("infix left", "a s b", INFIX),
            ("infix right", "a s b", INFIX),
            ("infix non", "a s b", INFIX),
            ("prefix right", "s a", PREFIX),
            ("prefix non", "s a", PREFIX),
            ("postfix left", "a s", POSTFIX),
            ("postfix non", "a s", POSTFIX),
        ] {
            // Leading zeros are no part of the value.
            for zeros in ["", "0", "00000"] {
                let head = format!("let {declared} {zeros}{precedence} s ; in");
                has_operators(&format!("{head} {body} end"), &[(kind, "s", precedence)]);
                has_operators(&format!("{head} ( {body} ) end"), &[(kind, "s", precedence)]);
            }
        }
    }
    assert_eq!(precedences("let infix left 0400 x ; in a x 01 end"), [400]);
    assert_eq!(precedences("let infix left 000000001 x ; in a x 01 end"), [1]);
    assert_eq!(precedences("let infix left 000001200 x ; in a x 01 end"), [1200]);
    // The same operator many times.
    assert_eq!(precedences("let prefix right 17 ~ ; in ~ ~ ~ ~ a end"), [17; 4]);
    assert_eq!(precedences("let infix right 1200 -> ; in a -> b -> c -> d end"), [1200; 3]);
    assert_eq!(precedences("let postfix left 1 ! ; in a ! ! end"), [1; 2]);
}

/// An operator of several roles in one block: each node has the precedence of
/// its own role. All of them have the same one, or the text is refused.
#[test]
fn several_roles() {
    for p in [1, 350, 450, MAX_PRECEDENCE] {
        let left = format!("let infix left {p} s ; prefix non {p} s ; postfix left {p} s ; in");
        has_operators(
            &format!("{left} s a s b s end"),
            &[(PREFIX, "s", p), (INFIX, "s", p), (POSTFIX, "s", p)],
        );
        has_operators(
            &format!("{left} ( a s ) s ( s b ) end"),
            &[(POSTFIX, "s", p), (INFIX, "s", p), (PREFIX, "s", p)],
        );
        let non = format!("let prefix non {p} s ; postfix non {p} s ; infix non {p} s ; in");
        for (body, kind) in [("s a", PREFIX), ("a s b", INFIX), ("a s", POSTFIX)] {
            has_operators(&format!("{non} {body} end"), &[(kind, "s", p)]);
        }
        let right = format!("let prefix right {p} s ; infix right {p} s ; in");
        has_operators(&format!("{right} a s s b end"), &[(INFIX, "s", p), (PREFIX, "s", p)]);
        let around = format!("let prefix right {p} s ; postfix left {p} s ; in");
        has_operators(&format!("{around} s ( a s ) end"), &[(PREFIX, "s", p), (POSTFIX, "s", p)]);
    }
    // Two roles from the start.
    has_operators("- a - b", &[(PREFIX, "-", 400), (INFIX, "-", 400)]);
    has_operators("a - ( - b )", &[(INFIX, "-", 400), (PREFIX, "-", 400)]);
    // A third one beside them.
    let text = "let postfix left 400 - ; in - a - b - end";
    has_operators(text, &[(PREFIX, "-", 400), (INFIX, "-", 400), (POSTFIX, "-", 400)]);
    // Two precedences: that of the role in use (document 02, section 2).
    let text = "let infix left 400 s ; prefix non 300 s ; in s a s s b end";
    has_operators(text, &[(PREFIX, "s", 300), (INFIX, "s", 400), (PREFIX, "s", 300)]);
    // T11 and T12: the precedence decides which role `s` has.
    let text = |p| format!("let infix left {p} s ; postfix left {p} s ; in a s - b end");
    has_operators(&text(450), &[(INFIX, "s", 450), (PREFIX, "-", 400)]);
    has_operators(&text(350), &[(POSTFIX, "s", 350), (INFIX, "-", 400)]);
}

/// A block that declares an operator anew: the outer precedence before it and
/// behind its `end`, the new one inside.
#[test]
fn redeclared_in_a_block() {
    assert_eq!(precedences("a + let infix left 250 + ; in b + c * d end + e"), [400, 250, 300, 400]);
    assert_eq!(precedences("a * let infix right 1200 * ; in b * c * d end * e"), [300, 1200, 1200, 300]);
    assert_eq!(precedences("a = let infix non 1 = ; in b = c end and d = e"), [500, 1, 700, 500]);
    // Both roles of `-`, and only one that is left of them.
    let text = "- a - let infix left 200 - ; prefix non 200 - ; in - b - c end - d";
    assert_eq!(precedences(text), [400, 400, 200, 200, 400]);
    let text = "- a - let plain - ; prefix right 100 - ; in - - b end - d";
    assert_eq!(precedences(text), [400, 400, 100, 100, 400]);
    // The last declaration of a role counts.
    assert_eq!(precedences("let infix left 5 x ; infix left 6 x ; in a x b end"), [6]);
    assert_eq!(precedences("let infix left 5 x ; plain x ; infix right 7 x ; in a x b end"), [7]);
    // What the block does not name stays.
    assert_eq!(precedences("let infix left 250 + ; in a - b end - c"), [400, 400]);
    // Made plain inside, an operator again behind.
    has_operators("let plain + ; in + end + a", &[(INFIX, "+", 400)]);
    // Side by side: each has its own.
    let text = "let infix left 10 x ; in a x b end + let infix left 20 x ; in a x b end";
    assert_eq!(precedences(text), [10, 400, 20]);
    // In brackets, and in the operand of an operator.
    assert_eq!(precedences("not ( let infix left 9 + ; in ( a + b ) end ) + c"), [600, 9, 400]);
}

#[test]
fn nested_blocks() {
    let text = "a + let infix left 100 + ; in a + let infix left 900 + ; in a + b end + c end + d";
    assert_eq!(precedences(text), [400, 100, 900, 100, 400]);
    let text = "let infix left 100 x ; in let in a x b end x let plain x ; in x end x c end";
    assert_eq!(precedences(text), [100, 100, 100]);
    let text = "let infix left 1 x ; in a x let infix left 2 x ; in a x let infix left 3 x ; in a x b end \
                x c end x let infix left 4 x ; in a x b end x d end";
    assert_eq!(precedences(text), [1, 2, 3, 2, 1, 4, 1]);
    // As deep as blocks go: the precedence on the way in and on the way out.
    let depth = 32;
    let head = |i| format!("let infix left {i} x ; in a x ");
    let mut text: String = (1..=depth).map(head).collect();
    text += "b";
    (1..=depth).for_each(|_| text += " end x c");
    let inside = (1..=depth).collect::<Vec<u32>>();
    let behind = inside.iter().rev().skip(1).copied();
    // Behind the outermost block `x` is a name: leave that part out.
    text.truncate(text.len() - " x c".len());
    assert_eq!(precedences(&text), inside.iter().copied().chain(behind).collect::<Vec<u32>>());
}

/// Read with the words of this many nodes or more; with fewer words 12, and no
/// word changes.
fn needs(text: &str, nodes: usize) {
    let words = NODE_WORDS * nodes;
    let mut full = [PATTERN; TABLE_WORDS];
    let answer = read(text.as_bytes(), &mut full);
    assert_eq!(answer, Answer { number: 0, offset: 0, count: nodes }, "{text}");
    for len in (0..words + 2 * NODE_WORDS).chain([TABLE_WORDS]) {
        let mut nodes = vec![PATTERN; len];
        let given = read(text.as_bytes(), &mut nodes);
        if len < words {
            assert_eq!(given, Answer { number: 12, offset: 0, count: 0 }, "{text}, {len} words");
            assert!(nodes.iter().all(|&word| word == PATTERN), "{text}, {len} words");
        } else {
            // Words past the last whole node are no part of the table.
            assert_eq!(given, answer, "{text}, {len} words");
            assert_eq!(nodes[..words], full[..words], "{text}, {len} words");
            assert!(nodes[words..].iter().all(|&word| word == PATTERN), "{text}, {len} words");
        }
    }
}

#[test]
fn lengths_of_the_table() {
    needs("", 0);
    needs(" \n", 0);
    needs("a", 1);
    needs("a+b", 3);
    needs("a + b * 3", 5);
    needs("let in a end", 2);
    needs("((a)) * (b + c)", 8);
    needs("let plain * ; infix left 0650 && ; in * && ( let in 'x y' end ) && '*' end or 000", 10);
}

/// Into 5 words, 6 words and 11 words, which are one whole node.
#[test]
fn one_node() {
    assert_eq!(NODE_WORDS, 6);
    let mut nodes = [PATTERN; NODE_WORDS - 1];
    assert_eq!(read(b"a", &mut nodes), Answer { number: 12, offset: 0, count: 0 });
    assert_eq!(nodes, [PATTERN; NODE_WORDS - 1]);
    let mut nodes = [PATTERN; NODE_WORDS];
    assert_eq!(read(b"a", &mut nodes), Answer { number: 0, offset: 0, count: 1 });
    assert_eq!(nodes, [1, 0, 0, 0, 1, 0]);
    let mut nodes = [PATTERN; 2 * NODE_WORDS - 1];
    assert_eq!(read(b"a", &mut nodes), Answer { number: 0, offset: 0, count: 1 });
    assert_eq!(nodes[..NODE_WORDS], [1, 0, 0, 0, 1, 0]);
    assert_eq!(nodes[NODE_WORDS..], [PATTERN; NODE_WORDS - 1]);
}

/// As many nodes as a text can have.
#[test]
fn full_table() {
    let text = "not ".repeat(1023) + "a";
    let nodes = nodes(&text);
    assert_eq!(nodes.len(), MAX_NODES);
    assert!(nodes[1..].iter().all(|node| node[0] == PREFIX && node[PRECEDENCE] == 600));
    needs(&text, MAX_NODES);
}

/// By document 01 an operand has no larger precedence than its operator. The
/// words of the table alone show it.
#[test]
fn operands_of_generated_texts() {
    let mut texts = Texts::new(41);
    let (mut lower, mut same, mut distinct) = (0, 0, HashSet::new());
    for _ in 0..30_000 {
        let text = texts.next();
        let mut words = [0; TABLE_WORDS];
        let answer = read(&text, &mut words);
        let nodes: &[Node] = &words.as_chunks().0[..answer.count];
        for node in nodes {
            let &[kind, first, second, _, _, precedence] = node;
            assert_eq!(precedence > 0, is_operator(node), "{}", String::from_utf8_lossy(&text));
            if !is_operator(node) {
                continue;
            }
            assert!(precedence <= MAX_PRECEDENCE);
            distinct.insert(precedence);
            let operands = if kind == INFIX { vec![first, second] } else { vec![first] };
            for operand in operands {
                let of_operand = nodes[operand as usize][PRECEDENCE];
                assert!(of_operand <= precedence, "{}", String::from_utf8_lossy(&text));
                lower += u32::from(0 < of_operand && of_operand < precedence);
                same += u32::from(of_operand == precedence);
            }
        }
    }
    println!("{lower} {same} {}", distinct.len());
    assert!(lower > 5000 && same > 1000 && distinct.len() > 50, "{lower} {same} {}", distinct.len());
}

/// A canonical text has the same declarations, so its operators have the same
/// precedences.
#[test]
fn same_in_the_canonical_text() {
    let mut texts = Texts::new(42);
    let mut seen = 0;
    for _ in 0..30_000 {
        let text = texts.next();
        let mut buffer = vec![0; MAX_BYTES];
        let answer = canonicalize(&text, &mut buffer);
        if answer.number != 0 {
            continue;
        }
        buffer.truncate(answer.count);
        let of = |text: Vec<u8>| operators(&String::from_utf8(text).unwrap());
        let (before, behind) = (of(text), of(buffer));
        seen += before.len();
        assert_eq!(before, behind);
    }
    assert!(seen > 50_000, "{seen}");
}
