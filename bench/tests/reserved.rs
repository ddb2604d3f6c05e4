//! Document 02, section 9: a complete declaration of `and`, `or` or `not` is
//! refused with 17, at the operator. For each declaration 8 comes first, then
//! 17, then 9; for each block 10 comes behind its declarations.

use rule_bench::reader::{Answer, MAX_BYTES, TABLE_WORDS, canonicalize, read};

const RESERVED: [&str; 3] = ["and", "or", "not"];

/// What stands before the operator, for each kind and associativity.
const FORMS: [&str; 8] = [
    "infix left 700", "infix right 1", "infix non 01200", "prefix right 600", "prefix non 600",
    "postfix left 800", "postfix non 800", "plain",
];

/// The answer of both services, which is the same but for the count. A refusal
/// leaves both buffers as they were, however long they are.
fn answer(text: &str) -> (u8, usize) {
    let mut given = Vec::new();
    for len in [0, 1, TABLE_WORDS, MAX_BYTES] {
        let (mut nodes, mut buffer) = (vec![0xA5A5_5A5A; len], vec![0xA5; len]);
        let answers = [read(text.as_bytes(), &mut nodes), canonicalize(text.as_bytes(), &mut buffer)];
        for Answer { number, offset, count } in answers {
            if number == 0 {
                assert!(offset == 0 && count > 0, "{text}");
            } else {
                assert_eq!(count, 0, "{text}");
            }
            if !matches!(number, 12 | 13) {
                given.push((number, offset));
            }
        }
        if answers[0].number != 0 {
            assert!(nodes.iter().all(|&word| word == 0xA5A5_5A5A), "{text}");
        }
        if answers[1].number != 0 {
            assert!(buffer.iter().all(|&byte| byte == 0xA5), "{text}");
        }
    }
    assert!(given.iter().all(|one| *one == given[0]), "{text}: {given:?}");
    given[0]
}

/// The text before the place and from the place on.
fn refused(number: u8, before: &str, from: &str) {
    assert_eq!(answer(&format!("{before}{from}")), (number, before.len()), "{before}{from}");
}

fn is_read(text: &str) {
    assert_eq!(answer(text), (0, 0), "{text}");
}

/// `count` declarations of operators that are new, each in force.
fn new_operators(count: usize) -> String {
    (0..count).map(|i| format!("infix left 400 o{i} ; ")).collect()
}

/// The canonical text.
fn canonical(text: &str) -> String {
    let mut buffer = [0; 1000];
    let answer = canonicalize(text.as_bytes(), &mut buffer);
    assert_eq!(answer.number, 0, "{text}");
    String::from_utf8_lossy(&buffer[..answer.count]).into()
}

#[test]
fn each_kind_of_declaration() {
    for name in RESERVED {
        for form in FORMS {
            refused(17, &format!("let {form} "), &format!("{name} ; in a end"));
            refused(17, &format!("let\t{form}\n"), &format!("{name};in a end"));
            // Any block, whatever its body and what stands around it.
            refused(17, &format!("let {form} "), &format!("{name} ; in end"));
            refused(17, &format!("( let {form} "), &format!("{name} ; in a a end )"));
            refused(17, &format!("a + let {form} "), &format!("{name} ; in a end + b"));
            refused(17, &format!("let in let {form} "), &format!("{name} ; in a end end"));
            refused(17, &format!("let in a end = let {form} "), &format!("{name} ; in a end"));
            // Any declaration of the block.
            refused(17, &format!("let infix left 300 s ; {form} "), &format!("{name} ; in a end"));
            refused(17, &format!("let plain s ; {form} "), &format!("{name} ; plain s ; in a end"));
            refused(17, &format!("let {form} "), &format!("{name} ; {form} {name} ; in a end"));
        }
    }
}

#[test]
fn roles_that_they_start_with() {
    refused(17, "let infix left 800 ", "or ; in a or b end");
    refused(17, "let infix left 700 ", "and ; in a and b end");
    refused(17, "let prefix right 600 ", "not ; in not a end");
}

/// A declaration that is not complete has 8 and no 17.
#[test]
fn incomplete() {
    for name in RESERVED {
        for form in FORMS {
            refused(8, &format!("let {form} {name} "), "in a end");
            refused(8, &format!("let {form} {name} "), &format!("{name} ; in a end"));
            refused(8, &format!("let {form} {name} "), "s ; in a end");
            refused(8, &format!("let {form} {name} "), "7 ; in a end");
            refused(8, &format!("let {form} {name} "), &format!("{form} {name} ; in a end"));
            // A quoted name is no operator.
            refused(8, &format!("let {form} "), &format!("'{name}' ; in a end"));
        }
        for precedence in ["0", "000", "1201", "999999999"] {
            refused(8, "let infix left ", &format!("{precedence} {name} ; in a end"));
            refused(8, "let prefix non ", &format!("{precedence} {name} ; in a end"));
            refused(8, "let postfix non ", &format!("{precedence} {name} ; in a end"));
        }
        refused(8, "let prefix ", &format!("left 600 {name} ; in a end"));
        refused(8, "let postfix ", &format!("right 600 {name} ; in a end"));
        refused(8, "let infix left ", &format!("{name} 700 ; in a end"));
        refused(8, "let infix ", &format!("{name} ; in a end"));
        refused(8, "let ", &format!("{name} ; in a end"));
        refused(8, "let ", &format!("PLAIN {name} ; in a end"));
        refused(8, "let plain ", &format!("7 {name} ; in a end"));
    }
}

/// Only the three words themselves are reserved.
#[test]
fn other_names() {
    let long = format!("and{}", "_".repeat(60));
    for name in [
        "And", "AND", "anD", "an", "nd", "ands", "and_", "and1", "aand", "dna", "anand", "andor", "Or", "OR",
        "o", "r", "ors", "or_", "oor", "xor", "nor", "ro", "Not", "NOT", "no", "ot", "nots", "not_", "nott",
        "ton", "&", "|", "!", "&&", "||", "=", "<", "+", "*", "infix", "plain", &long,
    ] {
        for form in FORMS {
            is_read(&format!("let plain {name} ; {form} {name} ; in a end"));
            refused(8, &format!("let {form} {name} "), "in a end");
        }
    }
    // `+` is infix: a postfix role that does not go with it is 10.
    is_read("let plain + ; in a end");
    refused(10, "let postfix left 300 + ; ", "in a end");
}

/// In one declaration part: the first declaration with a fault, then 10.
#[test]
fn order_in_a_part() {
    // 8, 17.
    refused(8, "let plain ", "; plain and ; in a end");
    refused(8, "let infix left ", "0 s ; plain and ; in a end");
    refused(8, "let plain and ", "plain or ; in a end");
    refused(17, "let plain ", "and ; plain ; in a end");
    refused(17, "let plain ", "and ; infix left 0 s ; in a end");
    refused(17, "let plain ", "and ; plain or in a end");
    // 17, 17.
    refused(17, "let infix left 1 ", "or ; plain and ; in a end");
    // 17, 10.
    refused(17, "let postfix left 300 + ; plain ", "and ; in a end");
    refused(17, "let plain ", "and ; postfix left 300 + ; in a end");
    refused(17, "let infix left 600 ", "not ; in a end");
    refused(10, "let postfix left 300 + ; plain s ; ", "in a end");
}

/// Of 17 and 9 the earlier declaration's is given. No declaration has both:
/// the reserved operators are always in force.
#[test]
fn sixty_fifth_operator() {
    let (inside, at_limit) = (new_operators(55), new_operators(56));
    let last = "infix left 400 o56 ; ";
    is_read(&format!("let {at_limit}in a end"));
    refused(9, &format!("let {at_limit}infix left 400 "), "o56 ; in a end");
    for name in RESERVED {
        for form in FORMS {
            // The 65th, then the reserved one.
            refused(9, &format!("let {at_limit}infix left 400 "), &format!("o56 ; {form} {name} ; in a end"));
            // The reserved one, then the 65th.
            refused(17, &format!("let {at_limit}{form} "), &format!("{name} ; {last}in a end"));
            refused(17, &format!("let {form} "), &format!("{name} ; {at_limit}{last}in a end"));
            // 64 and 63 in force.
            refused(17, &format!("let {at_limit}{form} "), &format!("{name} ; in a end"));
            refused(17, &format!("let {inside}{form} "), &format!("{name} ; in a end"));
            // In a block inside.
            let outer = format!("let {at_limit}in let ");
            refused(17, &format!("{outer}{form} "), &format!("{name} ; {last}in a end end"));
            refused(9, &format!("{outer}infix left 400 "), &format!("o56 ; {form} {name} ; in a end end"));
        }
    }
    // Five of the eight that a text starts with can make room.
    let plain = "plain = ; plain < ; plain + ; plain - ; plain * ; ";
    is_read(&format!("let {plain}{}in a end", new_operators(61)));
    refused(9, &format!("let {plain}{}infix left 400 ", new_operators(61)), "o61 ; in a end");
}

/// Blocks by their `let`, each with all its checks from 8 to 10.
#[test]
fn order_of_blocks() {
    refused(17, "let plain ", "and ; in let plain ; in a end end");
    refused(8, "let plain ", "; in let plain and ; in a end end");
    refused(10, "let postfix left 300 + ; ", "in let plain and ; in a end end");
    refused(17, "let in let plain ", "and ; in a end + let plain ; in a end end");
    refused(17, "let plain ", "and ; in a end + let postfix left 300 + ; in a end");
    refused(10, "let postfix left 300 + ; ", "in a end + let plain and ; in a end");
    refused(17, "let in let in a end + let plain ", "or ; in a end end");
}

/// Checks 1 to 7 come before 17 wherever they fail, 11 behind.
#[test]
fn order_of_checks() {
    refused(2, "let plain and ; in a end ", ",");
    refused(3, "let plain and ; in a end + ", "''");
    refused(4, "let plain and ; in a end + ", "1234567890");
    refused(6, "let plain and ; in a end ", ")");
    refused(6, "let plain and ; in ( a ", "end");
    refused(6, "let plain and ; in a", "");
    refused(6, "let plain ", "( and ; in a end");
    refused(7, &format!("let plain and ; in a end + {}", "(".repeat(32)), "( a");
    refused(17, "let plain ", "and ; in a end a");
    refused(17, "a a let plain ", "and ; in a end");
    refused(17, "( ) + let plain ", "or ; in end");
    let many = "a ".repeat(1017);
    refused(17, &format!("{many}let plain "), "and ; in a end"); // 1,024 tokens
    refused(5, &format!("a {many}let plain and ; in a "), "end");
    let blanks = " ".repeat(16_384 - 24);
    refused(17, &format!("{blanks}let plain "), "and ; in a end");
    assert_eq!(answer(&format!(" {blanks}let plain and ; in a end")), (1, 16_384));
}

/// Everywhere `and`, `or` and `not` have the roles that they start with.
#[test]
fn roles_stay() {
    let bodies = [
        ("((not a) and b) or c", "not a and b or c"),
        ("a or (b and (not c))", "a or b and not c"),
        ("not (a and b)", "not ( a and b )"),
        ("(a or b) and c", "( a or b ) and c"),
        ("(a or b) or c", "a or b or c"),
        ("a and (b and c)", "a and ( b and c )"),
        ("not (not a)", "not not a"),
        ("(a = b) and (not (c < d))", "a = b and not c < d"),
        ("'and' = 'not'", "'and' = 'not'"),
    ];
    let declarations = [
        "", "plain And ;", "plain xor ; infix right 1200 xor ;", "postfix left 1 ands ; prefix non 1 ands ;",
        "infix left 700 && ; infix left 800 || ; prefix right 600 ! ;", "plain + ; plain - ; plain * ;",
    ];
    for (body, expected) in bodies {
        assert_eq!(canonical(body), expected);
        for part in declarations {
            let head = if part.is_empty() { "let in".into() } else { format!("let {part} in") };
            assert_eq!(canonical(&format!("{head} {body} end")), format!("{head} {expected} end"));
            let nested = format!("{head} {body} or {head} {body} end end");
            assert_eq!(canonical(&nested), format!("{head} {expected} or {head} {expected} end end"));
        }
    }
}
