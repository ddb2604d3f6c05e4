//! Document 02, section 2: in a table where no operator in force is both infix
//! and postfix the roles of an operator may differ in precedence and
//! associativity. In every other table all operators meet the four conditions.

use rule_bench::listing;
use rule_bench::reader::{TABLE_WORDS, canonicalize, read};
use rule_bench::texts::Random;

fn answer(text: &str) -> (u8, usize) {
    let answer = read(text.as_bytes(), &mut [0; TABLE_WORDS]);
    (answer.number, answer.offset)
}

/// Refused with 10, at the `in` behind `before`.
fn refused(before: &str, behind: &str) {
    assert_eq!(answer(&format!("{before}{behind}")), (10, before.len()), "{before}{behind}");
}

fn canonical(text: &str) -> String {
    let mut buffer = vec![0; 2 * text.len()];
    let answer = canonicalize(text.as_bytes(), &mut buffer);
    assert_eq!(answer.number, 0, "{text}");
    String::from_utf8(buffer[..answer.count].to_vec()).unwrap()
}

/// Row 10's example in document 01 is read.
#[test]
fn row_10_of_document_01() {
    let text = "let infix right 400 - ; in a end";
    assert_eq!(answer(text), (0, 0));
    assert_eq!(canonical(text), text);
}

/// One operator with both roles puts all operators under the conditions.
#[test]
fn over_the_table() {
    refused("let infix left 7 x ; postfix left 7 x ; infix right 400 - ; ", "in a end");
    refused("let infix right 400 - ; postfix left 7 x ; infix left 7 x ; ", "in a end");
    refused("let infix left 500 - ; in let infix left 7 x ; postfix left 7 x ; ", "in a end end");
    refused("let infix left 7 x ; postfix left 7 x ; in let infix left 500 - ; ", "in a end end");
    refused("let infix left 500 - ; in let infix left 7 x ; in let postfix left 7 x ; ", "in a end end end");
    for text in [
        "let infix left 7 x ; postfix left 7 x ; in a x x b end",
        "let infix left 7 x ; infix right 400 - ; in a end",
        "let postfix left 7 x ; infix right 400 - ; in a end",
        "let infix left 500 - ; in let infix left 7 x ; postfix left 7 x ; plain - ; in a end end",
        "let infix left 500 - ; in let infix left 7 x ; postfix left 7 x ; plain x ; in a end end",
        // The outer table is back behind the `end`.
        "let infix left 500 - ; in a end + let infix left 7 x ; postfix left 7 x ; in a end",
        "let infix left 7 x ; postfix left 7 x ; in a end + let infix left 500 - ; in a end",
    ] {
        assert_eq!(answer(text), (0, 0), "{text}");
        assert_eq!(canonical(text), text);
    }
}

/// The minus of the Prolog books.
#[test]
fn minus() {
    let head = "let prefix right 200 - ; infix left 500 - ; in";
    for (body, expected) in [
        ("- 1 - - 1", "- 1 - - 1"),
        ("a - - b", "a - - b"),
        ("- ( - a )", "- - a"),
        ("( - a ) - b", "- a - b"),
        ("- ( a - b )", "- ( a - b )"),
        ("a - ( b - c )", "a - ( b - c )"),
        ("( a * ( - b ) )", "a * - b"),
    ] {
        assert_eq!(canonical(&format!("{head} {body} end")), format!("{head} {expected} end"));
    }
    for (text, number) in [("- 1 - - 1", 11), ("a - - b", 11), ("- ( - a )", 0)] {
        assert_eq!(answer(text).0, number, "{text}");
    }
}

const ASSOCIATIVITIES: [&[&str]; 3] = [&["right", "non"], &["left", "right", "non"], &["left", "non"]];

/// Precedence and associativity as prefix, infix and postfix.
type Roles = [Option<(u64, &'static str)>; 3];

fn is_apart([_, infix, postfix]: Roles) -> bool {
    infix.is_none() || postfix.is_none()
}

/// The four conditions, one by one.
fn meets_conditions(roles: Roles) -> bool {
    let one_precedence = roles.iter().flatten().all(|a| roles.iter().flatten().all(|b| a.0 == b.0));
    let [prefix, infix, postfix] = roles.map(|role| role.map(|(_, associativity)| associativity));
    let only = |role: Option<&str>, wanted| role.is_none_or(|associativity| associativity == wanted);
    let non = infix != Some("non") || only(prefix, "non") && only(postfix, "non");
    let left = infix != Some("left") || only(prefix, "non") && only(postfix, "left");
    let right = infix != Some("right") || only(prefix, "right") && postfix.is_none();
    one_precedence && non && left && right
}

fn random_roles(random: &mut Random) -> Roles {
    [0, 1, 2].map(|fixity| {
        let role = (1 + random.below(2), *random.pick(ASSOCIATIVITIES[fixity]));
        random.one_in(2).then_some(role)
    })
}

/// The rule for random tables, in one block or in two.
#[test]
fn random_tables() {
    let mut random = Random::new(3);
    let mut seen = [0; 3];
    for _ in 0..200_000 {
        let tables: Vec<Roles> = (0..1 + random.below(4)).map(|_| random_roles(&mut random)).collect();
        let split = random.index(tables.len() + 1);
        let mut text = String::from("let ");
        let mut expected = (0, 0);
        for (i, roles) in tables.iter().enumerate() {
            if i == split {
                text += "in let ";
            }
            for (fixity, role) in ["prefix", "infix", "postfix"].iter().zip(roles) {
                if let Some((precedence, associativity)) = role {
                    text += &format!("{fixity} {associativity} {precedence} m{i} ; ");
                }
            }
            let so_far = &tables[..=i];
            let permitted = so_far.iter().all(|roles| is_apart(*roles))
                || so_far.iter().all(|roles| meets_conditions(*roles));
            if (i + 1 == split || i + 1 == tables.len()) && expected == (0, 0) && !permitted {
                expected = (10, text.len());
            }
        }
        let ends = if split < tables.len() { " end end" } else { " end" };
        text += "in a";
        text += ends;
        assert_eq!(answer(&text), expected, "{text}");
        let apart = tables.iter().all(|roles| is_apart(*roles));
        seen[if expected.0 == 10 { 0 } else { 1 + usize::from(apart) }] += 1;
        if expected.0 == 0 {
            assert_eq!(canonical(&text), text);
        }
    }
    assert!(seen.iter().all(|count| *count > 5_000), "{seen:?}");
}

/// The starting operators meet the conditions, so a block with none of its own
/// in conflict is read under either sort of table.
#[test]
fn starting_operators() {
    for text in ["let postfix left 400 - ; in - a - b - end", "let postfix left 400 + ; in a + + b end"] {
        assert_eq!(answer(text), (0, 0), "{text}");
    }
    refused("let postfix left 400 - ; prefix non 200 - ; ", "in a end");
    assert_eq!(listing::of(b"let postfix left 300 + ; in a end"), "refused 10 at 25\n");
}
