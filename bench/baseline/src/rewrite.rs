//! The four rules, each of which may give another instruction for a place under the facts there.

use crate::facts::{Cell, Constant, Frame, Live};
use crate::unit::{Inst, STACK};

/// What the rules look at: an instruction with the constants before it and the locals live after it.
#[derive(Clone, Copy)]
pub struct Site<'a> {
    pub inst: Inst,
    pub constants: &'a Frame<Constant>,
    pub live: Live,
}

impl Site<'_> {
    /// What the lowest rule gives that gives anything.
    pub fn change(self) -> Option<Inst> {
        self.never().or_else(|| self.known()).or_else(|| self.decided()).or_else(|| self.dead())
    }

    /// Whether any rule gives this instruction.
    pub fn gives(self, inst: Inst) -> bool {
        [self.never(), self.known(), self.decided(), self.dead()].contains(&Some(inst))
    }

    /// Rule 1: what no run comes to may as well halt.
    fn never(self) -> Option<Inst> {
        (*self.constants == Frame::Unreached && self.inst != Inst::Halt).then_some(Inst::Halt)
    }

    /// Rule 2: a result that is known can be a literal.
    fn known(self) -> Option<Inst> {
        let Frame::At(cells) = self.constants else { return None };
        let stack = cells.stack();
        let (drop, result) = match (self.inst, stack) {
            (Inst::Load(local), _) if stack.len() < STACK => (0, Ok(cells.locals[usize::from(local)])),
            (Inst::Dup, [.., top]) if stack.len() < STACK => (0, Ok(*top)),
            (Inst::Not, [.., top]) => (1, top.opposite()),
            (Inst::Add, [.., a, b]) => (2, Constant::arithmetic(*a, *b, i32::wrapping_add)),
            (Inst::Sub, [.., a, b]) => (2, Constant::arithmetic(*a, *b, i32::wrapping_sub)),
            (Inst::Mul, [.., a, b]) => (2, Constant::arithmetic(*a, *b, i32::wrapping_mul)),
            (Inst::Div, [.., a, b]) => (2, Constant::quotient(*a, *b)),
            (Inst::Eq, [.., a, b]) => (2, Constant::comparison(*a, *b, |a, b| a == b)),
            (Inst::Lt, [.., a, b]) => (2, Constant::comparison(*a, *b, |a, b| a < b)),
            _ => return None,
        };
        match result {
            Ok(Constant::Number(number)) => Some(Inst::Lit { drop, number }),
            Ok(Constant::Flag(flag)) => Some(Inst::LitF { drop, flag }),
            Ok(Constant::Varies) | Err(_) => None,
        }
    }

    /// Rule 3: a jump that always goes one way need not look.
    fn decided(self) -> Option<Inst> {
        match (self.inst, self.constants) {
            (Inst::Jf(distance), Frame::At(cells)) => match cells.stack() {
                [.., Constant::Flag(true)] => Some(Inst::Pop),
                [.., Constant::Flag(false)] => Some(Inst::Djmp(distance)),
                _ => None,
            },
            _ => None,
        }
    }

    /// Rule 4: what nobody loads need not be stored.
    fn dead(self) -> Option<Inst> {
        match self.inst {
            Inst::Store(local) if self.live >> local & 1 == 0 => Some(Inst::Pop),
            _ => None,
        }
    }
}
