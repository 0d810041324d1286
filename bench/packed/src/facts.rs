//! What is known before a place: frames of kinds, and frames of constants, with their joins.

use crate::unit::{Inst, Op, LOCALS};

/// The cells of a frame in one word. A cell has two bits, chosen so that joining two cells is their union: 1 and 2
/// are the two kinds, 3 is the greatest cell, 0 is no cell. Bits 0 to 15 are the stack with its top lowest, so
/// that operands are always at the same bits; from bit 16 on stands the height plus 1; from bit 32 on the locals.
/// With that the whole word is 0 for Unreached alone, and most masks fit into an instruction of the processor.
#[derive(Clone, Copy, PartialEq, Eq)]
pub struct Cells(u64);

pub const NUM: u64 = 1;
pub const FLAG: u64 = 2;
pub const GREATEST: u64 = 3;

const STACK: u64 = 0xffff;
const ONE_HIGHER: u64 = 1 << 16;

impl Cells {
    pub const UNREACHED: Cells = Cells(0);
    pub const CLASH: Cells = Cells(!0);
    pub const ENTRY: Cells = Cells(0xffff_ffff_0001_0000);

    /// The height plus 1; 0 for Unreached, and more than 9 for Clash.
    #[inline(always)]
    fn tall(self) -> u32 {
        self.0 as u32 >> 16
    }

    pub fn height(self) -> usize {
        self.tall() as usize - 1
    }

    /// The cell of the value that has `above` others on it.
    #[inline(always)]
    pub fn value(self, above: usize) -> u64 {
        self.0 >> (2 * above) & 3
    }

    #[inline(always)]
    fn top(self) -> u64 {
        self.0 & 3
    }

    #[inline(always)]
    fn top_two(self) -> u64 {
        self.0 & 15
    }

    #[inline(always)]
    pub fn local(self, n: usize) -> u64 {
        self.0 >> (32 + 2 * n) & 3
    }

    #[inline(always)]
    fn push(self, cell: u64) -> Cells {
        Cells(((self.0 & !STACK) + ONE_HIGHER) | (self.0 << 2 & STACK) | cell)
    }

    #[inline(always)]
    fn pop(self) -> Cells {
        Cells(((self.0 & !STACK) - ONE_HIGHER) | ((self.0 & STACK) >> 2))
    }

    /// Drops as many values as a literal does and pushes its cell; `None` where the height does not allow it.
    #[inline(always)]
    fn literal(self, drop: u8, cell: u64) -> Option<Cells> {
        let left = self.tall().wrapping_sub(drop as u32);
        if left.wrapping_sub(1) > 7 {
            return None;
        }
        let stack = (self.0 & STACK) >> (2 * (drop & 3)) << 2 & STACK | cell;
        Some(Cells(self.0 >> 32 << 32 | (left as u64 + 1) << 16 | stack))
    }

    #[inline(always)]
    fn with_top(self, cell: u64) -> Cells {
        Cells(self.0 & !3 | cell)
    }

    #[inline(always)]
    fn swap(self) -> Cells {
        Cells(self.0 & !15 | (self.0 & 3) << 2 | (self.0 >> 2 & 3))
    }

    /// Pops the top into a local.
    #[inline(always)]
    fn store(self, n: usize) -> Cells {
        let at = 32 + 2 * n;
        Cells(self.pop().0 & !(3 << at) | (self.0 & 3) << at)
    }

    #[inline(always)]
    fn of_one_height(self, other: Cells) -> bool {
        (self.0 ^ other.0) as u32 >> 16 == 0
    }
}

pub type Kinds = Cells;

impl Cells {
    /// Joins a frame of kinds that is not Unreached into this one; whether this one changed.
    #[inline(always)]
    pub fn join(&mut self, other: Kinds) -> bool {
        let old = *self;
        let joined = if old == Cells::UNREACHED {
            other
        } else if old.of_one_height(other) {
            Cells(old.0 | other.0)
        } else {
            Cells::CLASH
        };
        *self = joined;
        joined != old
    }

    /// The instruction done on a frame of kinds that is not Unreached. Missing cells are 0, so a test of an
    /// operand's kind is also the test that the operand is there.
    #[inline(always)]
    pub fn after(self, inst: &Inst) -> Kinds {
        let tall = self.tall();
        if self == Cells::CLASH {
            return self;
        }
        match inst.op {
            Op::Nop | Op::Halt | Op::Jmp => self,
            Op::Lit => self.literal(inst.drop, NUM).unwrap_or(Cells::CLASH),
            Op::Litf => self.literal(inst.drop, FLAG).unwrap_or(Cells::CLASH),
            Op::Pop | Op::Djmp if self.top() != 0 => self.pop(),
            Op::Dup if self.top() != 0 && tall <= 8 => self.push(self.top()),
            Op::Swap if tall >= 3 => self.swap(),
            Op::Load => {
                let kind = self.local((inst.arg & 15) as usize);
                if tall > 8 || kind == GREATEST {
                    return Cells::CLASH;
                }
                self.push(kind)
            }
            Op::Store if self.top() != 0 => self.store((inst.arg & 15) as usize),
            Op::Add | Op::Sub | Op::Mul | Op::Div if self.top_two() == 5 => self.pop(),
            Op::Eq | Op::Lt if self.top_two() == 5 => self.pop().with_top(FLAG),
            Op::Not if self.top() == FLAG => self,
            Op::Jf if self.top() == FLAG => self.pop(),
            Op::In if tall <= 8 => self.push(NUM),
            Op::Out if self.top() == NUM => self.pop(),
            _ => Cells::CLASH,
        }
    }

    /// Why the instruction cannot be done on a reached frame of kinds: the lowest reason, or 0 if it can.
    pub fn reason(self, inst: &Inst) -> u8 {
        if self == Cells::CLASH {
            return 4;
        }
        let height = self.height();
        let (takes, gives) = match inst.op {
            Op::Nop | Op::Halt | Op::Jmp => (0, 0),
            Op::Lit | Op::Litf => (inst.drop as usize, 1),
            Op::Pop | Op::Djmp | Op::Store | Op::Jf | Op::Out => (1, 0),
            Op::Dup => (1, 2),
            Op::Swap => (2, 2),
            Op::Load | Op::In => (0, 1),
            Op::Add | Op::Sub | Op::Mul | Op::Div | Op::Eq | Op::Lt => (2, 1),
            Op::Not => (1, 1),
        };
        if height < takes {
            return 1;
        }
        if height - takes + gives > 8 {
            return 2;
        }
        let kinds = match inst.op {
            Op::Load => self.local((inst.arg & 15) as usize) != GREATEST,
            Op::Add | Op::Sub | Op::Mul | Op::Div | Op::Eq | Op::Lt => self.value(0) == NUM && self.value(1) == NUM,
            Op::Not | Op::Jf => self.value(0) == FLAG,
            Op::Out => self.value(0) == NUM,
            _ => true,
        };
        if kinds {
            0
        } else {
            3
        }
    }
}

#[derive(Clone, Copy, PartialEq, Eq)]
pub enum Cell {
    Varies,
    Number(i32),
    Flag(bool),
}

/// Where the locals' numbers begin.
const FIRST_LOCAL: usize = 8;

/// A frame of constants: what kind of constant each cell is, the greatest cell being Varies, and which one. Flags
/// are the numbers 0 and 1. The stack's bottom is at index 7 of the numbers and it grows down, so that one shift
/// brings cells and numbers into one order. Where a cell varies or is not, its number means nothing. A frame fills
/// two cache lines, and finding one in an array takes a shift.
#[derive(Clone)]
#[repr(align(128))]
pub struct Constants {
    cells: Cells,
    numbers: [i32; FIRST_LOCAL + LOCALS],
}

/// A carried frame, told by its difference from the frame it was carried from: the cells in full, and the number
/// that is new. Thus it lives in registers, and numbers are copied once or not at all.
pub struct Carried {
    cells: Cells,
    at: u32,
    new: i32,
    marks: u8,
}

/// Not carried along the first or the second edge.
const NOT_FIRST: u8 = 1;
const NOT_SECOND: u8 = 2;
/// The number that was at the index comes to the next one.
const EXCHANGE: u8 = 4;
/// No number is new: an index that is out of range.
const NOWHERE: u32 = 255;

impl Constants {
    pub const UNREACHED: Constants = Constants { cells: Cells::UNREACHED, numbers: [0; FIRST_LOCAL + LOCALS] };

    pub fn clear(&mut self) {
        self.cells = Cells::UNREACHED;
    }

    /// Makes this the frame with an empty stack and nothing known.
    pub fn enter(&mut self) {
        self.cells = Cells::ENTRY;
    }

    #[inline(always)]
    pub fn reached(&self) -> bool {
        self.cells != Cells::UNREACHED
    }

    pub fn clashed(&self) -> bool {
        self.cells == Cells::CLASH
    }

    pub fn height(&self) -> usize {
        self.cells.height()
    }

    /// Where the number of the value is that has `above` others on it. The mask changes nothing where there is
    /// such a value, and keeps the index in range elsewhere, where the number is not used.
    #[inline(always)]
    fn index(&self, above: u32) -> u32 {
        9u32.wrapping_sub(self.cells.tall()).wrapping_add(above) & 7
    }

    #[inline(always)]
    fn number(&self, above: u32) -> i32 {
        self.numbers[self.index(above) as usize]
    }

    /// The value that has `above` others on it; it varies where there is none.
    #[inline(always)]
    pub fn value(&self, above: u32) -> Cell {
        cell(self.cells.value(above as usize), self.number(above))
    }

    #[inline(always)]
    pub fn local(&self, n: usize) -> Cell {
        cell(self.cells.local(n), self.numbers[FIRST_LOCAL + n])
    }

    /// The two numbers on top, if that is what they are known to be.
    #[inline(always)]
    pub fn operands(&self) -> Option<(i32, i32)> {
        (self.cells.top_two() == 5).then(|| (self.number(1), self.number(0)))
    }

    #[inline(always)]
    fn unchanged(&self, cells: Cells) -> Carried {
        Carried { cells, at: NOWHERE, new: 0, marks: 0 }
    }

    /// The instruction done on the frame; `None` where nothing can pass.
    #[inline(always)]
    pub fn after(&self, inst: &Inst) -> Option<Carried> {
        let cells = self.cells;
        let tall = cells.tall();
        if cells == Cells::UNREACHED {
            return None;
        }
        let mut to = self.unchanged(Cells::CLASH);
        if cells == Cells::CLASH {
            return Some(to);
        }
        match inst.op {
            Op::Nop | Op::Halt | Op::Jmp => to.cells = cells,
            Op::Lit | Op::Litf => {
                let kind = if inst.op == Op::Lit { NUM } else { FLAG };
                if let Some(cells) = cells.literal(inst.drop, kind) {
                    to.cells = cells;
                    to.at = 9 - cells.tall();
                    to.new = inst.arg;
                }
            }
            Op::Pop | Op::Djmp | Op::Out if cells.top() != 0 => to.cells = cells.pop(),
            Op::Dup if cells.top() != 0 && tall <= 8 => {
                to.cells = cells.push(cells.top());
                to.at = 8 - tall;
                to.new = self.number(0);
            }
            Op::Swap if tall >= 3 => {
                to.cells = cells.swap();
                to.at = self.index(0);
                to.new = self.number(1);
                to.marks = EXCHANGE;
            }
            Op::Load if tall <= 8 => {
                let local = (inst.arg & 15) as usize;
                to.cells = cells.push(cells.local(local));
                to.at = 8 - tall;
                to.new = self.numbers[FIRST_LOCAL + local];
            }
            Op::Store if cells.top() != 0 => {
                let local = (inst.arg & 15) as usize;
                to.cells = cells.store(local);
                to.at = (FIRST_LOCAL + local) as u32;
                to.new = self.number(0);
            }
            Op::Add | Op::Sub | Op::Mul | Op::Div | Op::Eq | Op::Lt if tall >= 3 => {
                if inst.op == Op::Div && cells.top() == NUM && self.number(0) == 0 {
                    return None;
                }
                let less = cells.pop();
                match self.operands() {
                    Some((a, b)) => {
                        let (kind, new) = worked(inst.op, a, b);
                        to.cells = less.with_top(kind);
                        to.at = self.index(1);
                        to.new = new;
                    }
                    None => to.cells = less.with_top(GREATEST),
                }
            }
            Op::Not if cells.top() == FLAG => {
                to.cells = cells;
                to.at = self.index(0);
                to.new = 1 ^ self.number(0);
            }
            Op::Not if cells.top() != 0 => to.cells = cells.with_top(GREATEST),
            Op::Jf if cells.top() != 0 => {
                to.cells = cells.pop();
                if cells.top() == FLAG {
                    // Going forward the jump's edge is the second, and else the first.
                    let truth = self.number(0) != 0;
                    to.marks = if truth == (inst.arg > 0) { NOT_SECOND } else { NOT_FIRST };
                }
            }
            Op::In if tall <= 8 => to.cells = cells.push(GREATEST),
            _ => {}
        }
        Some(to)
    }

    /// Joins into this frame what was carried from `from`; whether this one changed.
    #[inline(always)]
    pub fn join(&mut self, to: &Carried, second: bool, from: &Constants) -> bool {
        if to.marks & (if second { NOT_SECOND } else { NOT_FIRST }) != 0 {
            return false;
        }
        if self.cells == Cells::UNREACHED {
            self.cells = to.cells;
            self.numbers = from.numbers;
            if let Some(number) = self.numbers.get_mut(to.at as usize) {
                *number = to.new;
            }
            if to.marks & EXCHANGE != 0 {
                let at = (to.at & 7) as usize;
                self.numbers[at + 1] = from.numbers[at];
            }
            return true;
        }
        let old = self.cells;
        if !old.of_one_height(to.cells) {
            self.cells = Cells::CLASH;
            return old != Cells::CLASH;
        }
        let mut joined = old.0 | to.cells.0;
        // A bit for each cell that is still known, which is so where both frames know it and of the same kind. The
        // stack's are brought to where its numbers are, and the locals' next to them.
        let known = (joined ^ joined >> 1) & 0x5555_5555_0000_5555;
        let gap = 2 * (9u32.wrapping_sub(old.tall()) & 7);
        let mut rest = (known & STACK) << gap | known >> 32 << 16;
        while rest != 0 {
            let bit = rest.trailing_zeros();
            rest &= rest - 1;
            let index = bit / 2;
            let (Some(&held), Some(&old)) = (self.numbers.get(index as usize), from.numbers.get(index as usize)) else {
                break;
            };
            let mut new = old;
            if index == to.at {
                new = to.new;
            } else if to.marks & EXCHANGE != 0 && index == to.at + 1 {
                new = from.numbers[(to.at & 7) as usize];
            }
            if new != held {
                joined |= GREATEST << if bit < 16 { bit.wrapping_sub(gap) & 15 } else { (bit + 16) & 63 };
            }
        }
        self.cells = Cells(joined);
        joined != old.0
    }
}

#[inline(always)]
fn cell(kind: u64, number: i32) -> Cell {
    match kind {
        NUM => Cell::Number(number),
        FLAG => Cell::Flag(number != 0),
        _ => Cell::Varies,
    }
}

/// What an operation makes of two numbers, by which it can be done: the kind, and the number or flag.
#[inline(always)]
pub fn worked(op: Op, a: i32, b: i32) -> (u64, i32) {
    match op {
        Op::Add => (NUM, a.wrapping_add(b)),
        Op::Sub => (NUM, a.wrapping_sub(b)),
        Op::Mul => (NUM, a.wrapping_mul(b)),
        Op::Div => (NUM, if b == 0 { 0 } else { a.wrapping_div(b) }),
        Op::Eq => (FLAG, (a == b) as i32),
        _ => (FLAG, (a < b) as i32),
    }
}
