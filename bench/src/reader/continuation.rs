//! Where a text without a tree is lost: the first item of its first span
//! without a tree such that no items behind it give a span with a tree.
//!
//! Every prefix of the span's items is tried. Items can be continued to a span
//! with a tree exactly if they have a tree, or have one with one more operand
//! behind them; any operand will do.

use super::MAX_TOKENS;
use super::list::List;
use super::token::{Kind, Token};
use super::tree::{self, Node};
use core::iter::once;
use core::ops::Range;

/// As many items as a text has tokens, and the operand behind them.
const MAX_ITEMS: usize = MAX_TOKENS + 1;

/// The whole text, the inside of a bracket pair, or the body of a block.
pub struct Span {
    /// Its tokens, without opener and closer.
    pub tokens: Range<usize>,
    /// The offset of its closer; the text's length for the whole text.
    pub end: usize,
}

/// The spans of a text by their start. The tokens are linked.
fn spans(tokens: &[Token], text_len: usize) -> impl Iterator<Item = Span> {
    let inner = tokens.iter().enumerate().filter_map(|(opener, token)| match token.kind {
        Kind::Open { close: closer } | Kind::In { end: closer } => {
            let end = tokens[closer as usize].start as usize;
            Some(Span { tokens: opener + 1..closer as usize, end })
        }
        _ => None,
    });
    once(Span { tokens: 0..tokens.len(), end: text_len }).chain(inner)
}

/// The first span without a tree, if there is one. The tokens are resolved.
pub fn first_without_tree(tokens: &[Token], text_len: usize) -> Option<Span> {
    spans(tokens, text_len).find(|span| !has_tree(&items(tokens, span)))
}

/// The items of a span: its names, numbers and operators, and an operand for
/// each bracket pair and block in it, at its first byte.
pub fn items(tokens: &[Token], span: &Span) -> Vec<Token> {
    let mut items = Vec::new();
    let mut at = span.tokens.start;
    while at < span.tokens.end {
        let token = tokens[at];
        let closer = closer(tokens, at);
        items.push(if closer.is_some() { operand(token.start) } else { token });
        at = closer.unwrap_or(at) + 1;
    }
    items
}

/// The closer of the bracket pair or block that a token begins.
fn closer(tokens: &[Token], at: usize) -> Option<usize> {
    match tokens[at].kind {
        Kind::Open { close: closer } | Kind::In { end: closer } => Some(closer as usize),
        Kind::Let { body } => self::closer(tokens, body as usize),
        _ => None,
    }
}

/// An operand that stands for any: a number.
fn operand(start: u16) -> Token {
    Token { key: 0, start, len: 1, kind: Kind::Number }
}

/// Have the items a tree, as a span of their own?
pub fn has_tree(items: &[Token]) -> bool {
    tree::build(items, &mut List::<Node, MAX_ITEMS>::new()).is_ok()
}

/// Have the items a tree with one more operand behind them?
pub fn has_tree_with_operand(items: &[Token]) -> bool {
    has_tree(&[items, &[operand(0)]].concat())
}

fn can_continue(items: &[Token]) -> bool {
    has_tree(items) || has_tree_with_operand(items)
}

/// The first byte of the first item up to which no items of the span can be
/// continued; where the span ends if all of them can.
fn lost(items: &[Token], end: usize) -> usize {
    let count = (1..=items.len()).find(|&count| !can_continue(&items[..count]));
    count.map_or(end, |count| items[count - 1].start as usize)
}

/// Where the text of these tokens is lost. Check 11 has refused it.
pub fn place(tokens: &[Token], text_len: usize) -> usize {
    let Some(span) = first_without_tree(tokens, text_len) else { unreachable!() };
    lost(&items(tokens, &span), span.end)
}
