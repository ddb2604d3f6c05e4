//! The reader of document 01, with document 02's reserved operators, blank
//! rules, precedences of nodes, wider overloading rule and quotes in quoted
//! names: a text in, a node table or canonical text out. A third service writes
//! the characters of a name, a fourth says where a text without a tree is lost.
//!
//! Four linear passes: tokens (checks 1 to 5), nesting (6, 7), operators in
//! force (8, 17, 9, 10), trees (11). Nothing is written before check 12, or 13
//! for canonical text, has passed. A blank rule is past all of them once it
//! has been scanned.

pub mod canonical;
pub mod continuation;
pub mod list;
pub mod name;
pub mod nesting;
pub mod operators;
pub mod role;
pub mod table;
pub mod token;
pub mod tree;

use list::List;
use token::{Kind, Token};
use tree::{NO_TREE, Node, NodeKind};

pub const MAX_BYTES: usize = 16_384;
pub const MAX_TOKENS: usize = 1024;
pub const MAX_DEPTH: usize = 32;
pub const MAX_OPERATORS: usize = 64;
pub const MAX_PRECEDENCE: u32 = 1200;
/// Each node has a token of its own.
pub const MAX_NODES: usize = MAX_TOKENS;
pub const NODE_WORDS: usize = 6;
/// Words of a node table that is long enough for every text.
pub const TABLE_WORDS: usize = NODE_WORDS * MAX_NODES;

/// Read: number 0, offset 0, count nodes or bytes written, 0 of a blank rule
/// and where a name has none.
/// Rejected: the check's number, its offset, count 0.
#[repr(C)]
#[derive(Clone, Copy, Debug, PartialEq, Eq)]
pub struct Answer {
    pub number: u8,
    pub offset: usize,
    pub count: usize,
}

impl Answer {
    #[inline(always)]
    fn new(written: Result<usize, Reject>) -> Self {
        match written {
            Ok(count) => Answer { number: 0, offset: 0, count },
            Err(Reject { number, offset }) => Answer { number, offset, count: 0 },
        }
    }
}

/// The number of a failed check and its offset.
#[derive(Clone, Copy, Debug, PartialEq, Eq)]
pub struct Reject {
    pub number: u8,
    pub offset: usize,
}

impl Reject {
    /// Never inlined, so that the paths to it stay small.
    #[cold]
    #[inline(never)]
    pub fn new(number: u8, offset: usize) -> Self {
        Reject { number, offset }
    }
}

/// Reads `text` into `nodes`. A rejection changes no word of `nodes`.
#[inline(never)]
pub fn read(text: &[u8], nodes: &mut [u32]) -> Answer {
    let mut tokens = List::new();
    let mut tree = List::new();
    let written = analyze(text, &mut tokens, &mut tree).and_then(|()| write(&tokens, &tree, nodes));
    Answer::new(written)
}

/// Writes the canonical text of `text` to the front of `buffer`. A rejection
/// changes no byte of `buffer`.
#[inline(never)]
pub fn canonicalize(text: &[u8], buffer: &mut [u8]) -> Answer {
    let mut tokens = List::new();
    let mut tree = List::new();
    let analyzed = analyze(text, &mut tokens, &mut tree);
    Answer::new(analyzed.and_then(|()| canonical::write(text, &tokens, &tree, buffer)))
}

/// Writes the characters of the name at a node to the front of `buffer`: how
/// many, or 13 if the buffer is shorter, and then no byte changes. `nodes` is
/// the node table of `text`, but may be any words.
#[inline(never)]
pub fn write_name(text: &[u8], nodes: &[u32], node: usize, buffer: &mut [u8]) -> Answer {
    Answer::new(name::write(name::written(text, nodes, node), buffer))
}

/// Where a text is refused, as `read` says but for check 11. There it is the
/// first item of the first span without a tree such that no items behind it
/// give a tree, or the span's end. No buffer is lent, so 12 and 13 are not
/// given, and the count is 0.
#[inline(never)]
pub fn locate(text: &[u8]) -> Answer {
    let mut tokens = List::new();
    let refused = analyze(text, &mut tokens, &mut List::new()).map_err(|reject| match reject.number {
        NO_TREE => Reject::new(NO_TREE, continuation::place(&tokens, text.len())),
        _ => reject,
    });
    Answer::new(refused.map(|()| 0))
}

/// Document 02, section 7: "A text that is empty or all blanks, past check 1,
/// is now read: no nodes, and an empty tidy text".
#[inline(always)]
fn is_blank(tokens: &[Token]) -> bool {
    tokens.is_empty()
}

/// Checks 1 to 11 and 17: the resolved tokens and the tree's nodes, children
/// first; neither of a blank rule.
pub fn analyze(
    text: &[u8],
    tokens: &mut List<Token, MAX_TOKENS>,
    tree: &mut List<Node, MAX_TOKENS>,
) -> Result<(), Reject> {
    if text.len() > MAX_BYTES {
        return Err(Reject::new(1, MAX_BYTES));
    }
    let nested = token::scan(text, tokens)?;
    if is_blank(tokens) {
        return Ok(());
    }
    if nested {
        nesting::link(tokens, text.len())?;
    }
    operators::resolve(text, tokens)?;
    tree::build(tokens, tree)
}

/// Check 12, then the words of each node. How many nodes.
fn write(tokens: &[Token], tree: &[Node], nodes: &mut [u32]) -> Result<usize, Reject> {
    if nodes.len() / NODE_WORDS < tree.len() {
        return Err(Reject::new(12, 0));
    }
    let (rows, _) = nodes.as_chunks_mut::<NODE_WORDS>();
    for (number, (node, row)) in tree.iter().zip(rows).enumerate() {
        *row = words(tokens, *node, number as u32);
    }
    Ok(tree.len())
}

/// Kind, first child, second child, offset, length, precedence. The last child
/// of a node is always the node before it.
#[inline(always)]
fn words(tokens: &[Token], node: Node, number: u32) -> [u32; NODE_WORDS] {
    let token = tokens[node.token as usize];
    let start = u32::from(token.start);
    let len = u32::from(token.len);
    let last = number.wrapping_sub(1);
    let precedence = node.role(tokens).map_or(0, |role| u32::from(role.precedence));
    match node.kind {
        NodeKind::Name if matches!(token.kind, Kind::Quoted { .. }) => [1, 0, 0, start + 1, len - 2, 0],
        NodeKind::Name => [1, 0, 0, start, len, 0],
        NodeKind::Number => [2, 0, 0, start, len, 0],
        NodeKind::Prefix => [3, last, 0, start, len, precedence],
        NodeKind::Infix => [4, u32::from(node.left), last, start, len, precedence],
        NodeKind::Postfix => [5, last, 0, start, len, precedence],
        NodeKind::Bracket => [6, last, 0, 0, 0, 0],
        NodeKind::Block => {
            let Kind::Let { body } = token.kind else { unreachable!() };
            let end = u32::from(tokens[body as usize].start) + 2;
            [7, last, 0, start, end - start, 0]
        }
    }
}
