//! Roles of an operator and the overloading rule.

#[derive(Clone, Copy, Debug, PartialEq, Eq)]
#[repr(u8)]
pub enum Fixity {
    Prefix,
    Infix,
    Postfix,
}

#[derive(Clone, Copy, Debug, PartialEq, Eq)]
#[repr(u8)]
pub enum Associativity {
    Non = 1,
    Left = 2,
    Right = 3,
}

pub use Associativity::{Left, Non, Right};
pub use Fixity::{Infix, Postfix, Prefix};

#[derive(Clone, Copy, Debug, PartialEq, Eq)]
pub struct Role {
    pub precedence: u16,
    pub associativity: Associativity,
}

/// The role for each fixity that is in force, 16 bits each: the precedence in
/// the lower bits, the associativity above them, 0 where there is none.
#[derive(Clone, Copy, Debug, PartialEq, Eq)]
pub struct Operator(pub u64);

const ASSOCIATIVITY: u32 = 12;

const fn place(fixity: Fixity) -> u32 {
    16 * fixity as u32
}

impl Operator {
    pub const PLAIN: Operator = Operator(0);

    #[inline(always)]
    pub const fn get(self, fixity: Fixity) -> Option<Role> {
        let word = (self.0 >> place(fixity)) as u16;
        let associativity = match word >> ASSOCIATIVITY {
            0 => return None,
            1 => Non,
            2 => Left,
            _ => Right,
        };
        Some(Role { precedence: word & ((1 << ASSOCIATIVITY) - 1), associativity })
    }

    pub const fn with(self, fixity: Fixity, role: Role) -> Self {
        let word = (role.associativity as u64) << ASSOCIATIVITY | role.precedence as u64;
        Operator(self.0 & !(0xFFFF << place(fixity)) | word << place(fixity))
    }

    #[inline(always)]
    pub fn has_role(self) -> bool {
        self != Operator::PLAIN
    }

    #[inline(always)]
    pub fn is_infix_and_postfix(self) -> bool {
        self.get(Infix).is_some() && self.get(Postfix).is_some()
    }

    /// The four conditions. They are asked of every operator in force where
    /// one of them is both infix and postfix.
    pub fn meets_conditions(self) -> bool {
        let one_precedence = |a, b| match (self.get(a), self.get(b)) {
            (Some(a), Some(b)) => a.precedence == b.precedence,
            _ => true,
        };
        let only = |fixity, wanted| self.get(fixity).is_none_or(|role| role.associativity == wanted);
        one_precedence(Prefix, Infix)
            && one_precedence(Infix, Postfix)
            && one_precedence(Prefix, Postfix)
            && match self.get(Infix).map(|role| role.associativity) {
                None => true,
                Some(Non) => only(Prefix, Non) && only(Postfix, Non),
                Some(Left) => only(Prefix, Non) && only(Postfix, Left),
                Some(Right) => only(Prefix, Right) && self.get(Postfix).is_none(),
            }
    }
}
