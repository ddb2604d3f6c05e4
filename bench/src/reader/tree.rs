//! Trees: check 11. Operator precedence over each span, one token at a time.
//!
//! What stands before an operator and the token after it settle its fixity.
//! Where an operand is wanted it is a prefix. After an operand it is infix or
//! postfix, whichever role it has. Where it has both, every operator in force
//! meets the four conditions, so each has one precedence. It is infix then if
//! a right operand of lower precedence can follow, that is, before an operand
//! or an operator of lower precedence; postfix before the span's end or an
//! operator of higher precedence. Before one of its own precedence it is
//! postfix: an operand of that precedence on the right needs a
//! right-associative operator, and such a one has no postfix role.

use super::list::List;
use super::role::{Fixity, Left, Operator, Right, Role};
use super::token::{Kind, Token};
use super::{MAX_TOKENS, Reject};

#[derive(Clone, Copy, Debug, PartialEq, Eq)]
#[repr(u8)]
pub enum NodeKind {
    Name = 1,
    Number,
    Prefix,
    Infix,
    Postfix,
    Bracket,
    Block,
}

/// A node: its token (`(` of a bracket, `let` of a block) and, for infix, the
/// number of the left operand's root.
#[derive(Clone, Copy, Debug)]
pub struct Node {
    pub kind: NodeKind,
    pub token: u16,
    pub left: u16,
}

impl Node {
    /// The role in which a node's operator stands; none of any other node.
    #[inline(always)]
    pub fn role(self, tokens: &[Token]) -> Option<Role> {
        let fixity = match self.kind {
            NodeKind::Prefix => Fixity::Prefix,
            NodeKind::Infix => Fixity::Infix,
            NodeKind::Postfix => Fixity::Postfix,
            _ => return None,
        };
        tokens[self.token as usize].operator()?.get(fixity)
    }
}

/// What is known of the operand just read; its root is the last node.
#[derive(Clone, Copy)]
struct Operand {
    precedence: u16,
    right: bool,
}

const LEAF: Operand = Operand { precedence: 0, right: false };

/// An operator that waits for its right operand, or a span that waits for its
/// end. A span's precedence is above all others.
#[derive(Clone, Copy)]
struct Pending {
    kind: NodeKind,
    right: bool,
    precedence: u16,
    /// Of a span: the opener, `(` or `in`.
    token: u16,
    /// Of a block: its `let`.
    left: u16,
}

const SPAN: u16 = u16::MAX;

/// The number of check 11.
pub const NO_TREE: u8 = 11;

/// The span just read has no tree.
struct NoTree;

struct Builder<'t, const N: usize> {
    tokens: &'t [Token],
    nodes: &'t mut List<Node, N>,
    pending: List<Pending, { MAX_TOKENS + 1 }>,
    operand: Option<Operand>,
}

impl<const N: usize> Builder<'_, N> {
    #[inline(always)]
    fn last_node(&self) -> u16 {
        self.nodes.len().wrapping_sub(1) as u16
    }

    #[inline(always)]
    fn top(&self) -> Pending {
        self.pending[self.pending.len() - 1]
    }

    #[inline(always)]
    fn leaf(&mut self, kind: NodeKind, at: usize) -> Result<(), NoTree> {
        self.want_operand()?;
        self.nodes.push(Node { kind, token: at as u16, left: 0 });
        self.operand = Some(LEAF);
        Ok(())
    }

    #[inline(always)]
    fn want_operand(&self) -> Result<(), NoTree> {
        if self.operand.is_some() { Err(NoTree) } else { Ok(()) }
    }

    fn open(&mut self, kind: NodeKind, opener: usize, first: usize) {
        let (token, left) = (opener as u16, first as u16);
        self.pending.push(Pending { kind, right: false, precedence: SPAN, token, left });
        self.operand = None;
    }

    /// Gives the operand to the last pending operator as its right operand.
    #[inline(always)]
    fn reduce(&mut self, top: Pending, operand: Operand) -> Result<Operand, NoTree> {
        let Pending { kind, right, precedence, token, left } = top;
        if operand.precedence > precedence || operand.precedence == precedence && !right {
            return Err(NoTree);
        }
        self.pending.pop();
        self.nodes.push(Node { kind, token, left });
        Ok(Operand { precedence, right })
    }

    /// Is an operator that is both infix and postfix the one or the other, by
    /// the token that follows?
    fn is_infix(&self, next: usize, precedence: u16) -> bool {
        let Some(next) = self.tokens.get(next) else { return false };
        match next.kind {
            Kind::Close | Kind::End => false,
            Kind::Operator => {
                let role = |fixity| next.operator()?.get(fixity);
                let role = role(Fixity::Prefix).or(role(Fixity::Infix)).or(role(Fixity::Postfix));
                role.is_some_and(|role| role.precedence < precedence)
            }
            _ => true,
        }
    }

    #[inline(always)]
    fn operator(&mut self, at: usize, operator: Operator) -> Result<(), NoTree> {
        let token = at as u16;
        let Some(mut operand) = self.operand else {
            let Role { precedence, associativity } = operator.get(Fixity::Prefix).ok_or(NoTree)?;
            let right = associativity == Right;
            self.pending.push(Pending { kind: NodeKind::Prefix, right, precedence, token, left: 0 });
            return Ok(());
        };
        let (infix, role) = match (operator.get(Fixity::Infix), operator.get(Fixity::Postfix)) {
            (None, None) => return Err(NoTree),
            (Some(role), None) => (true, role),
            (None, Some(role)) => (false, role),
            (Some(infix), Some(_)) if self.is_infix(at + 1, infix.precedence) => (true, infix),
            (Some(_), Some(postfix)) => (false, postfix),
        };
        let Role { precedence, associativity } = role;
        loop {
            let top = self.top();
            if top.precedence > precedence || top.precedence == precedence && top.right {
                break;
            }
            operand = self.reduce(top, operand)?;
        }
        let admitted = operand.precedence < precedence
            || operand.precedence == precedence && associativity == Left && !operand.right;
        if !admitted {
            return Err(NoTree);
        }
        let left = self.last_node();
        if infix {
            let right = associativity == Right;
            self.pending.push(Pending { kind: NodeKind::Infix, right, precedence, token, left });
            self.operand = None;
        } else {
            self.nodes.push(Node { kind: NodeKind::Postfix, token, left });
            self.operand = Some(Operand { precedence, right: false });
        }
        Ok(())
    }

    /// Completes every operator of the innermost span.
    fn finish(&mut self) -> Result<(), NoTree> {
        let mut operand = self.operand.ok_or(NoTree)?;
        loop {
            let top = self.top();
            if top.precedence == SPAN {
                return Ok(());
            }
            operand = self.reduce(top, operand)?;
        }
    }

    /// Hangs the innermost span, now complete, under its bracket or block.
    fn close(&mut self) {
        if let Some(span) = self.pending.pop() {
            self.nodes.push(Node { kind: span.kind, token: span.left, left: 0 });
        }
        self.operand = Some(LEAF);
    }

    /// Drops the pending operators of the innermost span; its opener and
    /// closer, or none for the whole text.
    fn abandon(&mut self) -> Option<(u16, u16)> {
        while self.top().precedence != SPAN {
            self.pending.pop();
        }
        if self.pending.len() == 1 {
            return None;
        }
        let opener = self.top().token;
        match self.tokens[opener as usize].kind {
            Kind::Open { close: end } | Kind::In { end } => Some((opener, end)),
            _ => unreachable!(),
        }
    }
}

/// Builds the tree of a text's spans, children before parents. An empty span
/// has none; the caller builds none for a text without tokens. `N` is room for
/// a node to each token.
pub fn build<const N: usize>(tokens: &[Token], nodes: &mut List<Node, N>) -> Result<(), Reject> {
    let mut builder = Builder { tokens, nodes, pending: List::new(), operand: None };
    builder.open(NodeKind::Block, 0, 0);
    // The opener of the first span without a tree, so far.
    let mut failed: Option<u16> = None;
    let mut at = 0;
    loop {
        let step = match tokens.get(at).map(|token| token.kind) {
            Some(Kind::Word | Kind::Sign | Kind::Quoted { .. }) => builder.leaf(NodeKind::Name, at),
            Some(Kind::Number) => builder.leaf(NodeKind::Number, at),
            Some(Kind::Operator) => builder.operator(at, Operator(tokens[at].key)),
            Some(Kind::Open { .. }) => {
                builder.want_operand().map(|()| builder.open(NodeKind::Bracket, at, at))
            }
            Some(Kind::Let { body }) => builder.want_operand().map(|()| {
                builder.open(NodeKind::Block, body as usize, at);
                at = body as usize;
            }),
            Some(Kind::Close | Kind::End) => builder.finish().map(|()| builder.close()),
            Some(Kind::In { .. } | Kind::Semicolon) => unreachable!(),
            None => match builder.finish() {
                Ok(()) => break,
                Err(no_tree) => Err(no_tree),
            },
        };
        if let Err(NoTree) = step {
            // Spans inside this one start later; those around it start
            // earlier and may fail too, so go on behind it.
            let Some((opener, closer)) = builder.abandon() else {
                return Err(Reject::new(NO_TREE, 0));
            };
            failed = Some(failed.map_or(opener, |first| first.min(opener)));
            builder.close();
            at = closer as usize;
        }
        at += 1;
    }
    match failed {
        None => Ok(()),
        Some(opener) => Err(Reject::new(NO_TREE, tokens[opener as usize].start as usize)),
    }
}
