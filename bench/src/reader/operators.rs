//! Operators in force: declarations, and which tokens are operators. Checks 8,
//! 17, 9 and 10, in this order.

use super::role::{Infix, Left, Non, Postfix, Prefix, Right, Role};
use super::table::Table;
use super::token::{Kind, Token};
use super::{MAX_OPERATORS, MAX_PRECEDENCE, Reject};

/// Marks each word or sign with a role in force as an operator, and each
/// quoted name that can stand bare by its characters.
pub fn resolve(text: &[u8], tokens: &mut [Token]) -> Result<(), Reject> {
    let mut table = Table::new(text);
    let mut at = 0;
    while at < tokens.len() {
        match tokens[at].kind {
            Kind::Word | Kind::Sign => {
                if let Some(operator) = table.operator(&tokens[at]) {
                    tokens[at].kind = Kind::Operator;
                    tokens[at].key = operator.0;
                }
            }
            Kind::Quoted { .. } => {
                let name = tokens[at].unquoted(text);
                let bare = name.is_some_and(|name| table.operator(&name).is_none());
                tokens[at].kind = Kind::Quoted { bare };
            }
            Kind::Let { body } => {
                let body = body as usize;
                declarations(text, &tokens[at + 1..=body], &mut table)?;
                at = body;
            }
            Kind::End => table.close_block(),
            _ => {}
        }
        at += 1;
    }
    Ok(())
}

/// Takes in the declarations of a block. The last token is its `in`.
fn declarations(text: &[u8], tokens: &[Token], table: &mut Table) -> Result<(), Reject> {
    table.open_block();
    let mut walk = Walk { text, tokens, at: 0 };
    let body = tokens.len() - 1;
    while walk.at < body {
        declaration(&mut walk, table)?;
    }
    if table.is_permitted() { Ok(()) } else { Err(Reject::new(10, tokens[body].start as usize)) }
}

fn declaration(walk: &mut Walk, table: &mut Table) -> Result<(), Reject> {
    let fixity = walk.next(|word| match word {
        _ if word.is(b"infix") => Some(Some(Infix)),
        _ if word.is(b"prefix") => Some(Some(Prefix)),
        _ if word.is(b"postfix") => Some(Some(Postfix)),
        _ if word.is(b"plain") => Some(None),
        _ => None,
    })?;
    let Some(fixity) = fixity else {
        table.make_plain(&walk.operator()?);
        return Ok(());
    };
    let associativity = walk.next(|word| match word {
        _ if word.is(b"left") && fixity != Prefix => Some(Left),
        _ if word.is(b"right") && fixity != Postfix => Some(Right),
        _ if word.is(b"non") => Some(Non),
        _ => None,
    })?;
    let text = walk.text;
    let precedence = walk.next(|number| precedence(text, number))?;
    let token = walk.operator()?;
    table.declare(&token, fixity, Role { precedence, associativity });
    if table.in_force() > MAX_OPERATORS {
        return Err(Reject::new(9, token.start as usize));
    }
    Ok(())
}

/// A position among the declarations of a block, up to its `in`.
struct Walk<'t> {
    text: &'t [u8],
    tokens: &'t [Token],
    at: usize,
}

impl Walk<'_> {
    /// The next token's meaning; check 8 if it has none. No declaration has a
    /// use for `in`, so this never passes the end.
    #[inline(always)]
    fn next<T>(&mut self, meaning: impl FnOnce(&Token) -> Option<T>) -> Result<T, Reject> {
        let token = &self.tokens[self.at];
        self.at += 1;
        meaning(token).ok_or_else(|| Reject::new(8, token.start as usize))
    }

    /// The operator of a declaration and the `;` behind it; then check 17.
    #[inline(always)]
    fn operator(&mut self) -> Result<Token, Reject> {
        let token = self.next(operator_name)?;
        self.next(semicolon)?;
        if is_reserved(&token) { Err(Reject::new(17, token.start as usize)) } else { Ok(token) }
    }
}

fn operator_name(token: &Token) -> Option<Token> {
    matches!(token.kind, Kind::Word | Kind::Sign).then_some(*token)
}

/// No block may declare these.
#[inline(always)]
fn is_reserved(token: &Token) -> bool {
    token.is(b"and") || token.is(b"or") || token.is(b"not")
}

fn semicolon(token: &Token) -> Option<()> {
    (token.kind == Kind::Semicolon).then_some(())
}

fn precedence(text: &[u8], token: &Token) -> Option<u16> {
    if token.kind != Kind::Number {
        return None;
    }
    let value = token.bytes(text).iter().fold(0, |value, digit| 10 * value + u32::from(digit - b'0'));
    (1..=MAX_PRECEDENCE).contains(&value).then_some(value as u16)
}
