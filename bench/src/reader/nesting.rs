//! Nesting of brackets and blocks: checks 6 and 7.

use super::list::List;
use super::token::{Kind, Token};
use super::{MAX_DEPTH, Reject};

/// Links each `(` to its `)`, `let` to its `in` and `in` to its `end`.
pub fn link(tokens: &mut [Token], text_len: usize) -> Result<(), Reject> {
    // The innermost opener is the last: a `(`, a `let`, or, in a body, an `in`.
    let mut openers = List::<u16, MAX_DEPTH>::new();
    for at in 0..tokens.len() {
        let Token { kind, start, .. } = tokens[at];
        if matches!(kind, Kind::Word | Kind::Sign | Kind::Number | Kind::Quoted { .. }) {
            continue;
        }
        let number = at as u16;
        let opener = openers.last().map(|&opener| &mut tokens[opener as usize].kind);
        match (kind, opener) {
            (Kind::Semicolon, Some(Kind::Let { .. })) => {}
            (Kind::In { .. }, Some(Kind::Let { body })) => {
                *body = number;
                openers.pop();
                openers.push(number);
            }
            (Kind::Close, Some(Kind::Open { close: end })) | (Kind::End, Some(Kind::In { end })) => {
                *end = number;
                openers.pop();
            }
            (Kind::Open { .. } | Kind::Let { .. }, None | Some(Kind::Open { .. } | Kind::In { .. })) => {
                if openers.is_full() {
                    return Err(Reject::new(7, start as usize));
                }
                openers.push(number);
            }
            _ => return Err(Reject::new(6, start as usize)),
        }
    }
    if openers.is_empty() { Ok(()) } else { Err(Reject::new(6, text_len)) }
}
