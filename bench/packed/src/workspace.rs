//! The workspace: a unit with its facts, attempts that change it, and the refusals.

use crate::analyses::{verified, Known, Live, Types, Unfit};
use crate::facts::{Constants, Kinds};
use crate::machine::{self, Outcome};
use crate::rewrite::{placed, Made, View};
use crate::solve::{solve, Facts, Policy};
use crate::unit::{Fault, Inst, Op, Unit, PLACES};

const DEEPEST: usize = 8;
/// Each change lowers the unit's weight, which is at most twice its length.
const MOST_CHANGES: usize = 2 * PLACES;

/// Why a call is refused. Numbers count the refusals in the order in which the checks are made.
#[derive(Clone, Copy, Debug)]
pub enum Refusal {
    Call { number: u8 },
    Unit(Fault),
    Verifier(Unfit),
}

impl std::fmt::Display for Refusal {
    fn fmt(&self, f: &mut std::fmt::Formatter<'_>) -> std::fmt::Result {
        match self {
            Refusal::Call { number } => write!(f, "refused {number}"),
            Refusal::Unit(Fault { number, place }) if *number < 7 => write!(f, "refused {number} file place {place}"),
            Refusal::Unit(Fault { number, place }) => write!(f, "refused {number} unit place {place}"),
            Refusal::Verifier(Unfit { place, reason }) => write!(f, "refused 8 verifier place {place} reason {reason}"),
        }
    }
}

fn refused(number: u8) -> Refusal {
    Refusal::Call { number }
}

/// An open attempt; spent by keep or abandon, which give it back when they refuse.
#[must_use]
#[derive(Debug)]
pub struct Token {
    depth: usize,
}

/// One pick policy for each analysis.
pub struct Policies<P> {
    pub types: P,
    pub constants: P,
    pub live: P,
}

/// A unit with its kinds. There are two: a file is read and verified in the one that is not held, so that a
/// refused load leaves the held one as it was, and an accepted one exchanges two pointers.
struct Typed {
    unit: Unit,
    kinds: Facts<Kinds>,
}

impl Typed {
    fn new() -> Box<Typed> {
        Box::new(Typed { unit: Unit::new(), kinds: [Kinds::UNREACHED; PLACES] })
    }
}

/// Takes of the last solving of each analysis.
#[derive(Clone, Copy)]
pub struct Takes {
    pub types: u32,
    pub constants: u32,
    pub live: u32,
}

#[derive(Clone, Copy)]
struct Change {
    place: u8,
    old: Inst,
}

pub struct Workspace {
    loaded: bool,
    held: Box<Typed>,
    spare: Box<Typed>,
    constants: Box<Facts<Constants>>,
    live: Facts<u16>,
    takes: Takes,
    depth: usize,
    /// The length of the record at each open.
    marks: [usize; DEEPEST],
    record: [Change; MOST_CHANGES],
    changes: usize,
}

impl Workspace {
    pub fn new() -> Workspace {
        Workspace {
            loaded: false,
            held: Typed::new(),
            spare: Typed::new(),
            constants: Box::new([Constants::UNREACHED; PLACES]),
            live: [0; PLACES],
            takes: Takes { types: 0, constants: 0, live: 0 },
            depth: 0,
            marks: [0; DEEPEST],
            record: [Change { place: 0, old: Inst::at(0, Op::Halt, 0, 0) }; MOST_CHANGES],
            changes: 0,
        }
    }

    pub fn load<P: Policy>(&mut self, file: &[u8], policies: &mut Policies<P>) -> Result<(), Refusal> {
        if self.depth != 0 {
            return Err(refused(1));
        }
        let Typed { unit, kinds } = &mut *self.spare;
        unit.read(file).map_err(Refusal::Unit)?;
        let types = solve(&Types(unit), kinds, &mut policies.types);
        verified(unit, kinds).map_err(Refusal::Verifier)?;
        std::mem::swap(&mut self.held, &mut self.spare);
        self.loaded = true;
        self.changes = 0;
        self.takes.types = types;
        self.solve_rest(policies);
        Ok(())
    }

    fn solve_rest<P: Policy>(&mut self, policies: &mut Policies<P>) {
        let unit = &self.held.unit;
        self.takes.constants = solve(&Known(unit), &mut self.constants, &mut policies.constants);
        self.takes.live = solve(&Live(unit), &mut self.live, &mut policies.live);
    }

    fn solve_all<P: Policy>(&mut self, policies: &mut Policies<P>) {
        let Typed { unit, kinds } = &mut *self.held;
        self.takes.types = solve(&Types(unit), kinds, &mut policies.types);
        self.solve_rest(policies);
    }

    fn loaded(&self) -> Result<(), Refusal> {
        if self.loaded {
            Ok(())
        } else {
            Err(refused(2))
        }
    }

    fn innermost(&self, token: &Token) -> Result<(), Refusal> {
        self.loaded()?;
        if token.depth != self.depth {
            return Err(refused(10));
        }
        Ok(())
    }

    pub fn open(&mut self) -> Result<Token, Refusal> {
        self.loaded()?;
        if self.depth == DEEPEST {
            return Err(refused(9));
        }
        self.marks[self.depth] = self.changes;
        self.depth += 1;
        Ok(Token { depth: self.depth })
    }

    fn view(&self) -> View<'_> {
        View { unit: &self.held.unit, constants: &self.constants, live: &self.live }
    }

    fn change(&mut self, place: usize, made: Made) {
        let old = self.held.unit.put(place, placed(place, made));
        self.record[self.changes] = Change { place: place as u8, old };
        self.changes += 1;
    }

    pub fn propose<P: Policy>(
        &mut self,
        token: &mut Token,
        place: usize,
        made: Made,
        policies: &mut Policies<P>,
    ) -> Result<(), Refusal> {
        self.innermost(token)?;
        if place >= self.held.unit.n {
            return Err(refused(11));
        }
        if !self.view().yields(place, made) {
            return Err(refused(12));
        }
        self.change(place, made);
        self.solve_all(policies);
        Ok(())
    }

    pub fn tidy<P: Policy>(&mut self, token: &mut Token, policies: &mut Policies<P>) -> Result<u32, Refusal> {
        self.innermost(token)?;
        policies.types.clear();
        policies.constants.clear();
        policies.live.clear();
        let mut count = 0;
        while let Some((place, made)) = self.view().first() {
            self.change(place, made);
            self.solve_all(policies);
            count += 1;
        }
        Ok(count)
    }

    pub fn keep(&mut self, token: Token) -> Result<(), (Refusal, Token)> {
        if let Err(refusal) = self.innermost(&token) {
            return Err((refusal, token));
        }
        self.depth -= 1;
        if self.depth == 0 {
            self.changes = 0;
        }
        Ok(())
    }

    pub fn abandon<P: Policy>(&mut self, token: Token, policies: &mut Policies<P>) -> Result<(), (Refusal, Token)> {
        if let Err(refusal) = self.innermost(&token) {
            return Err((refusal, token));
        }
        self.depth -= 1;
        let mark = self.marks[self.depth];
        while self.changes > mark {
            self.changes -= 1;
            let Change { place, old } = self.record[self.changes];
            self.held.unit.put(place as usize, old);
        }
        self.solve_all(policies);
        Ok(())
    }

    pub fn run(&self, inputs: &[i32], outputs: &mut [i32], budget: u32) -> Result<Outcome, Refusal> {
        self.loaded()?;
        Ok(machine::run(&self.held.unit, inputs, outputs, budget))
    }

    /// Answers how many bytes of the buffer's front the file fills.
    pub fn write_out(&self, buffer: &mut [u8]) -> Result<usize, Refusal> {
        if self.depth != 0 {
            return Err(refused(1));
        }
        self.loaded()?;
        let length = self.held.unit.length();
        if buffer.len() < length {
            return Err(refused(13));
        }
        self.held.unit.write(buffer);
        Ok(length)
    }

    pub fn facts_at(&self, place: usize) -> Result<(Kinds, &Constants, u16), Refusal> {
        self.loaded()?;
        if place >= self.held.unit.n {
            return Err(refused(11));
        }
        Ok((self.held.kinds[place], &self.constants[place], self.live[place]))
    }

    pub fn take_counts(&self) -> Result<Takes, Refusal> {
        self.loaded()?;
        Ok(self.takes)
    }

    pub fn unit(&self) -> Result<&Unit, Refusal> {
        self.loaded()?;
        Ok(&self.held.unit)
    }

    /// The lowest rule's change at the lowest place that has one.
    pub fn first_change(&self) -> Result<Option<(usize, Made)>, Refusal> {
        self.loaded()?;
        Ok(self.view().first())
    }
}
