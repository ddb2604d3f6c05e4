//! The generated texts that are refused with 11: each reason to be lost occurs
//! at each kind of place.

use rule_bench::reader::continuation::{first_without_tree, has_tree, has_tree_with_operand, items};
use rule_bench::reader::list::List;
use rule_bench::reader::role::{Fixity, Non, Operator};
use rule_bench::reader::token::{Kind, Token};
use rule_bench::reader::tree::NO_TREE;
use rule_bench::reader::{Reject, analyze, locate};
use rule_bench::texts::Texts;
use std::collections::BTreeMap;

/// What is lost at a place, by the items before it.
#[derive(Clone, Copy, Debug, PartialEq, Eq, PartialOrd, Ord)]
enum Reason {
    EmptySpan,
    /// The span's end, where an operand is wanted.
    OperandMissing,
    NameBehindOperand,
    NumberBehindOperand,
    QuotedNameBehindOperand,
    BracketBehindOperand,
    BlockBehindOperand,
    /// An operator without a prefix role, where an operand is wanted.
    NoPrefixRole,
    /// An operator with neither an infix nor a postfix role, behind an operand.
    NoRoleBehindOperand,
    /// A prefix operator that the waiting operator does not admit.
    PrefixNotAdmitted,
    /// An operator that does not admit its left operand.
    LeftNotAdmitted,
    /// The same, of a non-associative infix operator.
    NonAssociative,
    /// Behind an operator that can be infix and postfix there.
    BehindInfixOrPostfix,
}

const REASONS: [Reason; 13] = [
    Reason::EmptySpan,
    Reason::OperandMissing,
    Reason::NameBehindOperand,
    Reason::NumberBehindOperand,
    Reason::QuotedNameBehindOperand,
    Reason::BracketBehindOperand,
    Reason::BlockBehindOperand,
    Reason::NoPrefixRole,
    Reason::NoRoleBehindOperand,
    Reason::PrefixNotAdmitted,
    Reason::LeftNotAdmitted,
    Reason::NonAssociative,
    Reason::BehindInfixOrPostfix,
];

/// Kinds of spans.
const SPANS: [&str; 3] = ["text", "bracket", "block"];
const TEXT: usize = 0;
const BRACKET: usize = 1;
const BLOCK: usize = 2;

/// Why these items are lost behind `before`, at a token of the text or, if
/// there is none, at the end of the span.
fn reason(before: &[Token], lost: Option<&Token>) -> Reason {
    let Some(token) = lost else {
        return if before.is_empty() { Reason::EmptySpan } else { Reason::OperandMissing };
    };
    let complete = has_tree(before);
    match token.kind {
        Kind::Operator if complete && has_tree_with_operand(before) => Reason::BehindInfixOrPostfix,
        Kind::Operator if complete => behind_operand(Operator(token.key)),
        Kind::Operator if Operator(token.key).get(Fixity::Prefix).is_some() => Reason::PrefixNotAdmitted,
        Kind::Operator => Reason::NoPrefixRole,
        Kind::Quoted { .. } => Reason::QuotedNameBehindOperand,
        Kind::Number => Reason::NumberBehindOperand,
        Kind::Open { .. } => Reason::BracketBehindOperand,
        Kind::Let { .. } => Reason::BlockBehindOperand,
        _ => Reason::NameBehindOperand,
    }
}

fn behind_operand(operator: Operator) -> Reason {
    let role = operator.get(Fixity::Infix).or(operator.get(Fixity::Postfix));
    match role.map(|role| role.associativity) {
        None => Reason::NoRoleBehindOperand,
        Some(Non) => Reason::NonAssociative,
        Some(_) => Reason::LeftNotAdmitted,
    }
}

/// The reason for which a text is refused with 11, the kind of its first span
/// without a tree, and whether an operator of it is both infix and postfix.
fn classify(text: &[u8]) -> Option<(Reason, usize, bool)> {
    let mut tokens = List::new();
    let Err(Reject { number: NO_TREE, .. }) = analyze(text, &mut tokens, &mut List::new()) else {
        return None;
    };
    let span = first_without_tree(&tokens, text.len()).expect("a span without a tree");
    let kind = match span.tokens.start.checked_sub(1).map(|opener| tokens[opener].kind) {
        None => TEXT,
        Some(Kind::Open { .. }) => BRACKET,
        Some(_) => BLOCK,
    };
    let items = items(&tokens, &span);
    let place = locate(text).offset;
    let before: Vec<Token> = items.iter().copied().filter(|item| (item.start as usize) < place).collect();
    let lost = tokens.iter().find(|token| token.start as usize == place && place < span.end);
    let overloaded = |item: &Token| item.operator().is_some_and(Operator::is_infix_and_postfix);
    Some((reason(&before, lost), kind, items.iter().any(overloaded)))
}

/// How many texts have each reason in each kind of span, and how many of these
/// have an operator that is both infix and postfix in it.
type Counts = BTreeMap<(Reason, usize), [u32; 2]>;

fn print(counts: &Counts, total: u32) {
    let all: u32 = counts.values().map(|[count, _]| count).sum();
    println!("{all} of {total} texts refused with 11; (with an operator that is infix and postfix)");
    for reason in REASONS {
        print!("{:<24}", format!("{reason:?}"));
        for (kind, span) in SPANS.iter().enumerate() {
            let [count, overloaded] = counts.get(&(reason, kind)).unwrap_or(&[0; 2]);
            print!("{span:>9} {count:>5} {:>6}", format!("({overloaded})"));
        }
        println!();
    }
}

/// The whole text is under the starting operators and not empty: these do not
/// occur there.
fn in_blocks_only(reason: Reason) -> bool {
    matches!(reason, Reason::EmptySpan | Reason::LeftNotAdmitted | Reason::BehindInfixOrPostfix)
}

#[test]
fn every_reason_occurs() {
    let total = 100_000;
    let mut counts = Counts::new();
    let mut texts = Texts::new(1);
    for (reason, kind, overloaded) in (0..total).filter_map(|_| classify(&texts.next())) {
        let entry = counts.entry((reason, kind)).or_default();
        entry[0] += 1;
        entry[1] += u32::from(overloaded);
    }
    print(&counts, total);
    for reason in REASONS {
        for (kind, span) in SPANS.iter().enumerate() {
            let [count, overloaded] = counts.get(&(reason, kind)).copied().unwrap_or_default();
            if kind == TEXT && in_blocks_only(reason) {
                assert_eq!(count, 0, "{reason:?}");
            } else {
                assert!(count >= 30, "{reason:?} in a {span}: {count}");
            }
            assert!(
                kind != BLOCK || reason == Reason::EmptySpan || overloaded >= 10,
                "{reason:?}: {overloaded}"
            );
        }
    }
}
