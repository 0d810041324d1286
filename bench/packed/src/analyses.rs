//! The three analyses of a unit's code, the verifier's answer, and an analysis of bare nodes in a line.

use crate::facts::{Carried, Constants, Kinds};
use crate::solve::{Analysis, Facts};
use crate::unit::{Inst, Op, Unit, NONE};

/// The edges out of a place, from the ends that stand in its instruction, each with whether it is the second.
struct Ahead {
    first: u8,
    second: u8,
    at_second: bool,
}

impl Iterator for Ahead {
    type Item = (usize, bool);

    #[inline(always)]
    fn next(&mut self) -> Option<(usize, bool)> {
        if self.first == NONE {
            return None;
        }
        let edge = ((self.first & 127) as usize, self.at_second);
        self.first = self.second;
        self.second = NONE;
        self.at_second = true;
        Some(edge)
    }
}

#[inline(always)]
fn ahead(inst: &Inst) -> Ahead {
    Ahead { first: inst.first, second: inst.second, at_second: false }
}

/// Kinds of values and locals before each place.
pub struct Types<'a>(pub &'a Unit);

impl Analysis for Types<'_> {
    type Fact = Kinds;
    type Carried = Kinds;
    type Edge = ();
    const SMALL: bool = true;

    fn nodes(&self) -> usize {
        self.0.n
    }

    fn seed(&self, facts: &mut Facts<Kinds>) {
        facts[..self.0.n].fill(Kinds::UNREACHED);
        facts[0] = Kinds::ENTRY;
    }

    #[inline(always)]
    fn edges(&self, node: usize) -> impl Iterator<Item = (usize, ())> {
        ahead(&self.0.code[node & 127]).map(|(end, _)| (end, ()))
    }

    #[inline(always)]
    fn carry(&self, node: usize, from: &Kinds) -> Option<Kinds> {
        (*from != Kinds::UNREACHED).then(|| from.after(&self.0.code[node & 127]))
    }

    #[inline(always)]
    fn join(carried: &Kinds, _: (), _: &Kinds, into: &mut Kinds) -> bool {
        into.join(*carried)
    }
}

/// Constants before each place.
pub struct Known<'a>(pub &'a Unit);

impl Analysis for Known<'_> {
    type Fact = Constants;
    type Carried = Carried;
    type Edge = bool;
    const SMALL: bool = false;

    fn nodes(&self) -> usize {
        self.0.n
    }

    fn seed(&self, facts: &mut Facts<Constants>) {
        for fact in &mut facts[..self.0.n] {
            fact.clear();
        }
        facts[0].enter();
    }

    #[inline(always)]
    fn edges(&self, node: usize) -> impl Iterator<Item = (usize, bool)> {
        ahead(&self.0.code[node & 127])
    }

    #[inline(always)]
    fn carry(&self, node: usize, from: &Constants) -> Option<Carried> {
        from.after(&self.0.code[node & 127])
    }

    #[inline(always)]
    fn join(carried: &Carried, second: bool, from: &Constants, into: &mut Constants) -> bool {
        into.join(carried, second, from)
    }
}

/// Locals live after each place, a bit for each.
pub struct Live<'a>(pub &'a Unit);

/// The places that can be just before one, rising: those that jump there, and its neighbour if it falls through.
struct Behind<'a> {
    jump: u8,
    neighbour: u8,
    unit: &'a Unit,
}

impl Iterator for Behind<'_> {
    type Item = (usize, ());

    #[inline(always)]
    fn next(&mut self) -> Option<(usize, ())> {
        let from;
        if self.jump < self.neighbour {
            from = self.jump;
            self.jump = self.unit.jumped_too[(from & 127) as usize];
        } else if self.neighbour != NONE {
            from = self.neighbour;
            self.neighbour = NONE;
        } else {
            return None;
        }
        Some(((from & 127) as usize, ()))
    }
}

impl Analysis for Live<'_> {
    type Fact = u16;
    type Carried = u16;
    type Edge = ();
    const SMALL: bool = true;

    fn nodes(&self) -> usize {
        self.0.n
    }

    fn seed(&self, facts: &mut Facts<u16>) {
        facts[..self.0.n].fill(0);
    }

    #[inline(always)]
    fn edges(&self, node: usize) -> impl Iterator<Item = (usize, ())> {
        let unit = self.0;
        let falls = match node.checked_sub(1) {
            Some(before) => !matches!(unit.code[before & 127].op, Op::Halt | Op::Jmp | Op::Djmp),
            None => false,
        };
        let neighbour = if falls { node as u8 - 1 } else { NONE };
        Behind { jump: unit.jumped_from[node & 127], neighbour, unit }
    }

    #[inline(always)]
    fn carry(&self, node: usize, from: &u16) -> Option<u16> {
        let inst = &self.0.code[node & 127];
        let bit = 1u16 << (inst.arg & 15);
        let before = match inst.op {
            Op::Store => from & !bit,
            Op::Load => from | bit,
            _ => *from,
        };
        (before != 0).then_some(before)
    }

    #[inline(always)]
    fn join(carried: &u16, _: (), _: &u16, into: &mut u16) -> bool {
        let joined = *into | carried;
        let changed = joined != *into;
        *into = joined;
        changed
    }
}

/// Why the verifier refuses a unit: the place, and a reason from 1 to 4.
#[derive(Clone, Copy, Debug)]
pub struct Unfit {
    pub place: usize,
    pub reason: u8,
}

/// An instruction that cannot be done on a reached frame carries Clash to an end, as all but HALT have one and
/// HALT can be done on all frames but Clash. So without a Clash among the facts nothing is wrong, and the places
/// are gone through only to say what is.
pub fn verified(unit: &Unit, facts: &Facts<Kinds>) -> Result<(), Unfit> {
    if facts[..unit.n].iter().fold(false, |any, fact| any | (*fact == Kinds::CLASH)) {
        return Err(unfit(unit, facts));
    }
    Ok(())
}

#[cold]
fn unfit(unit: &Unit, facts: &Facts<Kinds>) -> Unfit {
    let mut lowest_clash = None;
    for place in 0..unit.n {
        if facts[place] == Kinds::UNREACHED {
            continue;
        }
        match facts[place].reason(&unit.code[place]) {
            0 => {}
            4 => {
                lowest_clash.get_or_insert(place);
            }
            reason => return Unfit { place, reason },
        }
    }
    Unfit { place: lowest_clash.unwrap_or(0), reason: 4 }
}

/// Nodes in a line with an edge each way between neighbours. The facts are truths; the last node's seed is true.
pub struct Line(pub usize);

impl Analysis for Line {
    type Fact = bool;
    type Carried = ();
    type Edge = ();
    const SMALL: bool = true;

    fn nodes(&self) -> usize {
        self.0
    }

    fn seed(&self, facts: &mut Facts<bool>) {
        facts[..self.0].fill(false);
        facts[self.0 - 1] = true;
    }

    #[inline(always)]
    fn edges(&self, node: usize) -> impl Iterator<Item = (usize, ())> {
        let back = node.checked_sub(1);
        let on = if node + 1 < self.0 { Some(node + 1) } else { None };
        back.into_iter().chain(on).map(|end| (end, ()))
    }

    #[inline(always)]
    fn carry(&self, _: usize, from: &bool) -> Option<()> {
        from.then_some(())
    }

    #[inline(always)]
    fn join(_: &(), _: (), _: &bool, into: &mut bool) -> bool {
        !std::mem::replace(into, true)
    }
}
