//! Facts: the frames of cells that the two forward analyses find, and the sets of live locals.

use crate::unit::{Inst, LOCALS, STACK};

/// What is known of the kind of a value.
#[derive(Clone, Copy, PartialEq, Eq, Debug)]
pub enum Kind {
    Num,
    Flag,
    Unusable,
}

/// What is known of a value itself.
#[derive(Clone, Copy, PartialEq, Eq, Debug)]
pub enum Constant {
    Number(i32),
    Flag(bool),
    Varies,
}

/// One bit for each local that is live.
pub type Live = u16;

/// Why no frame comes out of an operation.
#[derive(Clone, Copy, PartialEq, Eq, Debug)]
pub enum Lost {
    /// It does not apply.
    Clash,
    /// No run gets past it.
    Unreached,
}

/// What frames are made of: the cells, and what the operations make of them.
pub trait Cell: Copy + PartialEq {
    /// The cell that tells least; unlike cells join to it, and locals start with it.
    const GREATEST: Self;
    /// Any one cell, for the part of the stack that is not in use.
    const SPARE: Self;
    /// Of a number that is read.
    const INPUT: Self;

    fn number(number: i32) -> Self;
    fn flag(flag: bool) -> Self;
    /// What is on the stack after the load of a local with this cell.
    fn loaded(self) -> Result<Self, Lost>;
    fn arithmetic(a: Self, b: Self, op: impl Fn(i32, i32) -> i32) -> Result<Self, Lost>;
    fn quotient(a: Self, b: Self) -> Result<Self, Lost>;
    fn comparison(a: Self, b: Self, op: impl Fn(i32, i32) -> bool) -> Result<Self, Lost>;
    fn opposite(self) -> Result<Self, Lost>;
    /// Whether it may be put out.
    fn put_out(self) -> Result<(), Lost>;
    /// Whether a conditional jump on it may go this way, the jump being taken on false.
    fn goes(self, jump: bool) -> Result<(), Lost>;
    /// Joins cells into as many others, and tells whether any rose.
    fn join(into: &mut [Self], from: &[Self]) -> bool;
}

impl Cell for Kind {
    const GREATEST: Kind = Kind::Unusable;
    const SPARE: Kind = Kind::Num;
    const INPUT: Kind = Kind::Num;

    fn number(_: i32) -> Kind {
        Kind::Num
    }

    fn flag(_: bool) -> Kind {
        Kind::Flag
    }

    fn loaded(self) -> Result<Kind, Lost> {
        if self == Kind::Unusable { Err(Lost::Clash) } else { Ok(self) }
    }

    fn arithmetic(a: Kind, b: Kind, _: impl Fn(i32, i32) -> i32) -> Result<Kind, Lost> {
        if (a, b) == (Kind::Num, Kind::Num) { Ok(Kind::Num) } else { Err(Lost::Clash) }
    }

    fn quotient(a: Kind, b: Kind) -> Result<Kind, Lost> {
        Kind::arithmetic(a, b, i32::wrapping_div)
    }

    fn comparison(a: Kind, b: Kind, _: impl Fn(i32, i32) -> bool) -> Result<Kind, Lost> {
        if (a, b) == (Kind::Num, Kind::Num) { Ok(Kind::Flag) } else { Err(Lost::Clash) }
    }

    fn opposite(self) -> Result<Kind, Lost> {
        if self == Kind::Flag { Ok(self) } else { Err(Lost::Clash) }
    }

    fn put_out(self) -> Result<(), Lost> {
        if self == Kind::Num { Ok(()) } else { Err(Lost::Clash) }
    }

    fn goes(self, _: bool) -> Result<(), Lost> {
        if self == Kind::Flag { Ok(()) } else { Err(Lost::Clash) }
    }

    fn join(into: &mut [Kind], from: &[Kind]) -> bool {
        // Without a way out of the loop it is done on many cells at a time.
        let mut rose = false;
        for (cell, other) in into.iter_mut().zip(from) {
            let joined = if *cell == *other { *cell } else { Kind::Unusable };
            rose |= joined != *cell;
            *cell = joined;
        }
        rose
    }
}

impl Cell for Constant {
    const GREATEST: Constant = Constant::Varies;
    const SPARE: Constant = Constant::Number(0);
    const INPUT: Constant = Constant::Varies;

    fn number(number: i32) -> Constant {
        Constant::Number(number)
    }

    fn flag(flag: bool) -> Constant {
        Constant::Flag(flag)
    }

    fn loaded(self) -> Result<Constant, Lost> {
        Ok(self)
    }

    fn arithmetic(a: Constant, b: Constant, op: impl Fn(i32, i32) -> i32) -> Result<Constant, Lost> {
        Ok(match (a, b) {
            (Constant::Number(a), Constant::Number(b)) => Constant::Number(op(a, b)),
            _ => Constant::Varies,
        })
    }

    fn quotient(a: Constant, b: Constant) -> Result<Constant, Lost> {
        match b {
            Constant::Number(0) => Err(Lost::Unreached),
            _ => Constant::arithmetic(a, b, i32::wrapping_div),
        }
    }

    fn comparison(a: Constant, b: Constant, op: impl Fn(i32, i32) -> bool) -> Result<Constant, Lost> {
        Ok(match (a, b) {
            (Constant::Number(a), Constant::Number(b)) => Constant::Flag(op(a, b)),
            _ => Constant::Varies,
        })
    }

    fn opposite(self) -> Result<Constant, Lost> {
        Ok(match self {
            Constant::Flag(flag) => Constant::Flag(!flag),
            _ => Constant::Varies,
        })
    }

    fn put_out(self) -> Result<(), Lost> {
        Ok(())
    }

    fn goes(self, jump: bool) -> Result<(), Lost> {
        match self {
            Constant::Flag(flag) if flag == jump => Err(Lost::Unreached),
            _ => Ok(()),
        }
    }

    fn join(into: &mut [Constant], from: &[Constant]) -> bool {
        let mut rose = false;
        for (cell, other) in into.iter_mut().zip(from) {
            if *cell != Constant::Varies && *cell != *other {
                *cell = Constant::Varies;
                rose = true;
            }
        }
        rose
    }
}

/// What is known where a place is reached: of each value on the stack, and of each local.
#[derive(Clone, Copy, PartialEq, Eq, Debug)]
pub struct Cells<C> {
    height: usize,
    stack: [C; STACK],
    pub locals: [C; LOCALS],
}

impl<C: Cell> Cells<C> {
    /// At the start of a run.
    pub const ENTRY: Cells<C> = Cells { height: 0, stack: [C::SPARE; STACK], locals: [C::GREATEST; LOCALS] };

    /// The cells of the stack, from the bottom up.
    pub fn stack(&self) -> &[C] {
        &self.stack[..self.height]
    }

    #[inline(always)]
    fn push(&mut self, cell: C) -> Result<(), Lost> {
        *self.stack.get_mut(self.height).ok_or(Lost::Clash)? = cell;
        self.height += 1;
        Ok(())
    }

    #[inline(always)]
    fn pop(&mut self) -> Result<C, Lost> {
        // Below an empty stack the index wraps, so that one test serves for both ends.
        let top = self.height.wrapping_sub(1);
        let cell = self.stack.get_mut(top).ok_or(Lost::Clash)?;
        self.height = top;
        Ok(std::mem::replace(cell, C::SPARE))
    }

    #[inline(always)]
    fn drop(&mut self, count: u8) -> Result<(), Lost> {
        for _ in 0..count {
            self.pop()?;
        }
        Ok(())
    }

    /// Takes two cells and pushes what is made of them.
    #[inline(always)]
    fn combine(&mut self, make: impl Fn(C, C) -> Result<C, Lost>) -> Result<(), Lost> {
        let b = self.pop()?;
        let a = self.pop()?;
        self.push(make(a, b)?)
    }

    /// Does an instruction on the cells, which are of no use where no frame comes out of it.
    #[inline(always)]
    pub fn perform(&mut self, inst: Inst, jump: bool) -> Result<(), Lost> {
        match inst {
            Inst::Nop | Inst::Halt | Inst::Jmp(_) => Ok(()),
            Inst::Lit { drop, number } => {
                self.drop(drop)?;
                self.push(C::number(number))
            }
            Inst::LitF { drop, flag } => {
                self.drop(drop)?;
                self.push(C::flag(flag))
            }
            Inst::Pop | Inst::Djmp(_) => self.pop().map(|_| ()),
            Inst::Dup => {
                let top = self.pop()?;
                self.push(top)?;
                self.push(top)
            }
            Inst::Swap => {
                let top = self.pop()?;
                let below = self.pop()?;
                self.push(top)?;
                self.push(below)
            }
            Inst::Load(local) => self.push(self.locals[usize::from(local)].loaded()?),
            Inst::Store(local) => {
                self.locals[usize::from(local)] = self.pop()?;
                Ok(())
            }
            Inst::Add => self.combine(|a, b| C::arithmetic(a, b, i32::wrapping_add)),
            Inst::Sub => self.combine(|a, b| C::arithmetic(a, b, i32::wrapping_sub)),
            Inst::Mul => self.combine(|a, b| C::arithmetic(a, b, i32::wrapping_mul)),
            Inst::Div => self.combine(C::quotient),
            Inst::Eq => self.combine(|a, b| C::comparison(a, b, |a, b| a == b)),
            Inst::Lt => self.combine(|a, b| C::comparison(a, b, |a, b| a < b)),
            Inst::Not => {
                let top = self.pop()?;
                self.push(top.opposite()?)
            }
            Inst::Jf(_) => self.pop()?.goes(jump),
            Inst::In => self.push(C::INPUT),
            Inst::Out => self.pop()?.put_out(),
        }
    }
}

/// What is known before a place, from nothing that comes there up to nothing that can be relied on.
#[derive(Clone, Copy, PartialEq, Eq, Debug)]
pub enum Frame<C> {
    Unreached,
    At(Cells<C>),
    Clash,
}

impl<C: Cell> Frame<C> {
    #[inline(always)]
    pub fn carry(&mut self, inst: Inst, jump: bool) {
        if let Frame::At(cells) = self {
            match cells.perform(inst, jump) {
                Ok(()) => {}
                Err(Lost::Clash) => *self = Frame::Clash,
                Err(Lost::Unreached) => *self = Frame::Unreached,
            }
        }
    }

    #[inline(always)]
    pub fn join(&mut self, other: &Frame<C>) -> bool {
        match (&mut *self, other) {
            (_, Frame::Unreached) | (Frame::Clash, _) => false,
            (Frame::At(cells), Frame::At(others)) if cells.height == others.height => {
                let height = cells.height;
                let stack = C::join(&mut cells.stack[..height], &others.stack[..height]);
                let locals = C::join(&mut cells.locals, &others.locals);
                stack || locals
            }
            (Frame::Unreached, Frame::At(_)) => {
                *self = *other;
                true
            }
            (Frame::Unreached | Frame::At(_), _) => {
                *self = Frame::Clash;
                true
            }
        }
    }
}
