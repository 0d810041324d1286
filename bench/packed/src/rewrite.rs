//! The four rules: what they make of an instruction by the facts at its place.

use crate::facts::{worked, Cell, Constants, NUM};
use crate::solve::Facts;
use crate::unit::{Inst, Op, Unit};

/// What the rules look at.
pub struct View<'a> {
    pub unit: &'a Unit,
    pub constants: &'a Facts<Constants>,
    pub live: &'a Facts<u16>,
}

/// An instruction before it has a place.
pub type Made = (Op, u8, i32);

impl View<'_> {
    fn unreached(&self, place: usize) -> Option<Made> {
        let unreached = !self.constants[place].reached() && self.unit.code[place].op != Op::Halt;
        unreached.then_some((Op::Halt, 0, 0))
    }

    /// The result is found from the operands: the whole carried frame is not needed for it. Whether the height
    /// allows the instruction is settled by the verifier.
    #[inline(always)]
    fn literal(&self, place: usize) -> Option<Made> {
        let inst = &self.unit.code[place];
        let frame = &self.constants[place];
        let (drop, cell) = match inst.op {
            Op::Load if frame.reached() => (0, frame.local((inst.arg & 15) as usize)),
            Op::Dup => (0, frame.value(0)),
            Op::Not => match frame.value(0) {
                Cell::Flag(flag) => (1, Cell::Flag(!flag)),
                _ => return None,
            },
            Op::Add | Op::Sub | Op::Mul | Op::Div | Op::Eq | Op::Lt => {
                let (a, b) = frame.operands()?;
                if inst.op == Op::Div && b == 0 {
                    return None;
                }
                let (kind, result) = worked(inst.op, a, b);
                return Some((if kind == NUM { Op::Lit } else { Op::Litf }, 2, result));
            }
            _ => return None,
        };
        match cell {
            Cell::Varies => None,
            Cell::Number(number) => Some((Op::Lit, drop, number)),
            Cell::Flag(flag) => Some((Op::Litf, drop, flag as i32)),
        }
    }

    #[inline(always)]
    fn branch(&self, place: usize) -> Option<Made> {
        let inst = &self.unit.code[place];
        if inst.op != Op::Jf {
            return None;
        }
        match self.constants[place].value(0) {
            Cell::Flag(true) => Some((Op::Pop, 0, 0)),
            Cell::Flag(false) => Some((Op::Djmp, 0, inst.arg)),
            _ => None,
        }
    }

    #[inline(always)]
    fn dead_store(&self, place: usize) -> Option<Made> {
        let inst = &self.unit.code[place];
        let dead = inst.op == Op::Store && self.live[place] >> (inst.arg & 15) & 1 == 0;
        dead.then_some((Op::Pop, 0, 0))
    }

    /// What the lowest rule at a place makes, if one does.
    #[inline(always)]
    fn lowest(&self, place: usize) -> Option<Made> {
        if !self.constants[place].reached() {
            // An unreached frame has no top, so that only the rules at both ends are left.
            return self.unreached(place);
        }
        match self.unit.code[place].op {
            Op::Jf => self.branch(place),
            Op::Store => self.dead_store(place),
            _ => self.literal(place),
        }
    }

    /// The lowest place with a rule, and what the lowest one makes there.
    pub fn first(&self) -> Option<(usize, Made)> {
        (0..self.unit.n).find_map(|place| self.lowest(place).map(|made| (place, made)))
    }

    /// Whether some rule makes this at the place.
    pub fn yields(&self, place: usize, made: Made) -> bool {
        let made = Some(made);
        self.unreached(place) == made
            || self.literal(place) == made
            || self.branch(place) == made
            || self.dead_store(place) == made
    }
}

/// What stands at a place once a rule has made it.
pub fn placed(place: usize, (op, drop, arg): Made) -> Inst {
    Inst::at(place, op, drop, arg)
}
