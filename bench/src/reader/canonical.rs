//! Canonical text: no bracket but round an operand that its place does not
//! admit, one space between tokens. Check 13.
//!
//! Brackets apart, the tokens of the canonical text are those of the text in
//! the same order.

use super::list::List;
use super::role::{Left, Right, Role};
use super::token::{Kind, Token};
use super::tree::{Node, NodeKind};
use super::{MAX_BYTES, MAX_TOKENS, Reject};

/// Check 13, then the canonical text. How many bytes it has.
pub fn write(text: &[u8], tokens: &[Token], tree: &[Node], buffer: &mut [u8]) -> Result<usize, Reject> {
    let mut brackets = List::new();
    place_brackets(tokens, tree, &mut brackets);
    let mut len = 0;
    each_token(text, tokens, &brackets, |bytes| len += usize::from(len > 0) + bytes.len());
    if len > MAX_BYTES || len > buffer.len() {
        return Err(Reject::new(13, 0));
    }
    let mut at = 0;
    each_token(text, tokens, &brackets, |bytes| {
        if at > 0 {
            buffer[at] = b' ';
            at += 1;
        }
        buffer[at..][..bytes.len()].copy_from_slice(bytes);
        at += bytes.len();
    });
    Ok(len)
}

/// How many brackets open before a token and close behind it.
#[derive(Clone, Copy)]
struct Brackets {
    open: u16,
    close: u16,
}

/// A subtree without the brackets of the text: its first and last token, the
/// precedence of its root, and whether the root is right-associative.
#[derive(Clone, Copy)]
struct Operand {
    first: u16,
    last: u16,
    precedence: u16,
    right: bool,
}

impl Operand {
    fn leaf(first: u16, last: u16) -> Self {
        Operand { first, last, precedence: 0, right: false }
    }
}

/// Finds the operands that their place does not admit.
fn place_brackets(tokens: &[Token], tree: &[Node], brackets: &mut List<Brackets, MAX_TOKENS>) {
    tokens.iter().for_each(|_| brackets.push(Brackets { open: 0, close: 0 }));
    let mut put = |operand: Operand| {
        brackets[operand.first as usize].open += 1;
        brackets[operand.last as usize].close += 1;
    };
    // The subtree of each node so far. The last child of a node is the node
    // before it.
    let mut subtrees = List::<Operand, MAX_TOKENS>::new();
    for (number, node) in tree.iter().enumerate() {
        let subtree = match node.kind {
            NodeKind::Name | NodeKind::Number => Operand::leaf(node.token, node.token),
            NodeKind::Bracket => subtrees[number - 1],
            NodeKind::Block => Operand::leaf(node.token, end_of_block(tokens, node.token)),
            NodeKind::Prefix | NodeKind::Infix | NodeKind::Postfix => {
                let Some(Role { precedence, associativity }) = node.role(tokens) else { unreachable!() };
                let mut first = node.token;
                let mut last = node.token;
                if node.kind != NodeKind::Prefix {
                    let left = subtrees[node.left as usize];
                    let same = associativity == Left && !left.right;
                    if left.precedence > precedence || left.precedence == precedence && !same {
                        put(left);
                    }
                    first = left.first;
                }
                if node.kind != NodeKind::Postfix {
                    let right = subtrees[number - 1];
                    let same = associativity == Right;
                    if right.precedence > precedence || right.precedence == precedence && !same {
                        put(right);
                    }
                    last = right.last;
                }
                Operand { first, last, precedence, right: associativity == Right }
            }
        };
        subtrees.push(subtree);
    }
}

/// The `end` of the block that a `let` opens.
fn end_of_block(tokens: &[Token], opener: u16) -> u16 {
    let Kind::Let { body } = tokens[opener as usize].kind else { unreachable!() };
    let Kind::In { end } = tokens[body as usize].kind else { unreachable!() };
    end
}

/// The tokens of the canonical text in order.
#[inline(always)]
fn each_token(text: &[u8], tokens: &[Token], brackets: &[Brackets], mut put: impl FnMut(&[u8])) {
    for (token, brackets) in tokens.iter().zip(brackets) {
        if matches!(token.kind, Kind::Open { .. } | Kind::Close) {
            continue;
        }
        (0..brackets.open).for_each(|_| put(b"("));
        put(canonical_bytes(text, token));
        (0..brackets.close).for_each(|_| put(b")"));
    }
}

/// A number without leading zeros, a name without quotes where it can do
/// without; any other token as it is. A name that stays quoted has its quotes
/// doubled, and that is how it was written.
#[inline(always)]
fn canonical_bytes<'t>(text: &'t [u8], token: &Token) -> &'t [u8] {
    let bytes = token.bytes(text);
    match token.kind {
        Kind::Number => {
            let zeros = bytes.iter().take_while(|digit| **digit == b'0').count();
            &bytes[zeros.min(bytes.len() - 1)..]
        }
        Kind::Quoted { bare: true } => &bytes[1..bytes.len() - 1],
        _ => bytes,
    }
}
