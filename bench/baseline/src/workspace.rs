//! The workspace: one unit with its facts, which are right after every call, and attempts at changing it.

use crate::analyses::{verify, Backward, Forward, VerifierFault};
use crate::facts::{Constant, Frame, Kind, Live};
use crate::machine::{self, Outcome};
use crate::policies::Policy;
use crate::rewrite::Site;
use crate::solve::solve;
use crate::unit::{Edges, FileFault, Inst, ReadFault, Unit, UnitFault, Ways, PLACES};
use std::fmt;

const DEEPEST: usize = 8;
/// Each change makes the unit lighter, and the heaviest unit weighs this much.
const CHANGES: usize = 2 * PLACES;

/// Why a call is refused.
#[derive(Clone, Copy, PartialEq, Eq, Debug)]
pub enum Refusal {
    AttemptOpen,
    NoUnit,
    Load(LoadFault),
    Deepest,
    NotInnermost,
    NoPlace,
    NoRule,
    ShortBuffer,
}

/// What is wrong with a file that is loaded, by the layer that found it.
#[derive(Clone, Copy, PartialEq, Eq, Debug)]
pub enum LoadFault {
    File(FileFault),
    Unit(UnitFault),
    Verifier(VerifierFault),
}

impl Refusal {
    pub fn number(self) -> u8 {
        match self {
            Refusal::AttemptOpen => 1,
            Refusal::NoUnit => 2,
            Refusal::Load(LoadFault::File(FileFault::Length)) => 3,
            Refusal::Load(LoadFault::File(FileFault::Check)) => 4,
            Refusal::Load(LoadFault::File(FileFault::Head)) => 5,
            Refusal::Load(LoadFault::File(FileFault::Count)) => 6,
            Refusal::Load(LoadFault::Unit(_)) => 7,
            Refusal::Load(LoadFault::Verifier(_)) => 8,
            Refusal::Deepest => 9,
            Refusal::NotInnermost => 10,
            Refusal::NoPlace => 11,
            Refusal::NoRule => 12,
            Refusal::ShortBuffer => 13,
        }
    }
}

impl From<ReadFault> for Refusal {
    fn from(fault: ReadFault) -> Refusal {
        Refusal::Load(match fault {
            ReadFault::File(fault) => LoadFault::File(fault),
            ReadFault::Unit(fault) => LoadFault::Unit(fault),
        })
    }
}

impl From<VerifierFault> for Refusal {
    fn from(fault: VerifierFault) -> Refusal {
        Refusal::Load(LoadFault::Verifier(fault))
    }
}

impl fmt::Display for Refusal {
    fn fmt(&self, out: &mut fmt::Formatter) -> fmt::Result {
        write!(out, "refused {}", self.number())?;
        match self {
            Refusal::Load(LoadFault::File(fault)) => write!(out, ": file: {fault}"),
            Refusal::Load(LoadFault::Unit(fault)) => write!(out, ": unit: place {}", fault.place),
            Refusal::Load(LoadFault::Verifier(fault)) => {
                write!(out, ": verifier: place {} reason {}", fault.place, fault.reason as u8)
            }
            _ => Ok(()),
        }
    }
}

/// A pick policy for each analysis.
pub struct Policies<P> {
    pub types: P,
    pub constants: P,
    pub live: P,
}

/// How many nodes the last solving of each analysis took.
#[derive(Clone, Copy, Debug)]
pub struct TakeCounts {
    pub types: u32,
    pub constants: u32,
    pub live: u32,
}

/// An attempt, which is to be kept or abandoned.
#[must_use]
#[derive(Debug)]
pub struct Token {
    depth: usize,
}

/// A call that is refused gives back the token that it did not spend.
pub type Unspent = (Refusal, Token);

/// A unit with the facts that decide whether it is accepted.
struct Slot {
    unit: Unit,
    edges: Edges,
    types: [Frame<Kind>; PLACES],
}

/// The instruction that was at a place before it was changed.
#[derive(Clone, Copy)]
struct Change {
    place: usize,
    before: Inst,
}

pub struct Workspace {
    /// The unit held, and one to read the next into, so that a refused file leaves no trace.
    slots: [Slot; 2],
    held: usize,
    loaded: bool,
    constants: [Frame<Constant>; PLACES],
    live: [Live; PLACES],
    takes: TakeCounts,
    changes: [Change; CHANGES],
    changed: usize,
    /// How many changes there were when each open attempt began.
    marks: [usize; DEEPEST],
    depth: usize,
}

impl Slot {
    const fn new() -> Slot {
        Slot { unit: Unit::empty(), edges: Edges::none(), types: [const { Frame::Unreached }; PLACES] }
    }

    fn solve_types<P: Policy>(&mut self, policy: &mut P) -> u32 {
        solve(&Forward::new(self.unit.code(), &self.edges), &mut self.types, policy).expect("a fact for each place")
    }
}

impl Workspace {
    pub const fn new() -> Workspace {
        Workspace {
            slots: [const { Slot::new() }; 2],
            held: 0,
            loaded: false,
            constants: [const { Frame::Unreached }; PLACES],
            live: [0; PLACES],
            takes: TakeCounts { types: 0, constants: 0, live: 0 },
            changes: [Change { place: 0, before: Inst::Halt }; CHANGES],
            changed: 0,
            marks: [0; DEEPEST],
            depth: 0,
        }
    }

    pub fn load<P: Policy>(&mut self, file: &[u8], policies: &mut Policies<P>) -> Result<(), Refusal> {
        if self.depth > 0 {
            return Err(Refusal::AttemptOpen);
        }
        let other = 1 - self.held;
        let slot = &mut self.slots[other];
        slot.unit.read(file)?;
        slot.edges.make(slot.unit.code());
        let takes = slot.solve_types(&mut policies.types);
        verify(slot.unit.code(), &slot.types)?;
        (self.held, self.loaded, self.changed, self.takes.types) = (other, true, 0, takes);
        self.solve_rest(policies);
        Ok(())
    }

    pub fn open(&mut self) -> Result<Token, Refusal> {
        self.held()?;
        *self.marks.get_mut(self.depth).ok_or(Refusal::Deepest)? = self.changed;
        self.depth += 1;
        Ok(Token { depth: self.depth })
    }

    /// Makes one change, if a rule gives it.
    pub fn propose<P: Policy>(
        &mut self,
        token: &mut Token,
        place: usize,
        inst: Inst,
        policies: &mut Policies<P>,
    ) -> Result<(), Refusal> {
        self.innermost(token)?;
        if place >= self.held()?.unit.code().len() {
            return Err(Refusal::NoPlace);
        }
        if !self.site(place).gives(inst) {
            return Err(Refusal::NoRule);
        }
        self.change(place, inst);
        self.solve_all(policies);
        Ok(())
    }

    /// Makes the first change that a rule gives until there is none; how many there were.
    pub fn tidy<P: Policy>(&mut self, token: &mut Token, policies: &mut Policies<P>) -> Result<usize, Refusal> {
        self.innermost(token)?;
        let before = self.changed;
        while let Some((place, inst)) = self.first_change()? {
            self.change(place, inst);
            self.solve_all(policies);
        }
        if self.changed == before {
            // Nothing was solved, which would have left them empty.
            policies.types.clear();
            policies.constants.clear();
            policies.live.clear();
        }
        Ok(self.changed - before)
    }

    /// Ends an attempt; its changes are then the enclosing attempt's, or for good.
    pub fn keep(&mut self, token: Token) -> Result<(), Unspent> {
        if let Err(refusal) = self.innermost(&token) {
            return Err((refusal, token));
        }
        self.depth -= 1;
        if self.depth == 0 {
            self.changed = 0;
        }
        Ok(())
    }

    /// Ends an attempt and takes its changes back.
    pub fn abandon<P: Policy>(&mut self, token: Token, policies: &mut Policies<P>) -> Result<(), Unspent> {
        if let Err(refusal) = self.innermost(&token) {
            return Err((refusal, token));
        }
        self.depth -= 1;
        let kept = self.marks[self.depth];
        let slot = &mut self.slots[self.held];
        // The last change first, as a place may have been changed twice.
        for change in self.changes[kept..self.changed].iter().rev() {
            slot.unit.replace(change.place, change.before);
        }
        if kept < self.changed {
            slot.edges.make(slot.unit.code());
        }
        self.changed = kept;
        self.solve_all(policies);
        Ok(())
    }

    /// Writes the unit's file; how long it is.
    pub fn write_out(&self, buffer: &mut [u8]) -> Result<usize, Refusal> {
        if self.depth > 0 {
            return Err(Refusal::AttemptOpen);
        }
        self.held()?.unit.write(buffer).ok_or(Refusal::ShortBuffer)
    }

    pub fn run(&self, inputs: &[i32], outputs: &mut [i32], budget: u32) -> Result<Outcome, Refusal> {
        Ok(machine::run(self.held()?.unit.code(), inputs, outputs, budget))
    }

    pub fn facts_at(&self, place: usize) -> Result<(&Frame<Kind>, &Frame<Constant>, Live), Refusal> {
        let slot = self.held()?;
        if place >= slot.unit.code().len() {
            return Err(Refusal::NoPlace);
        }
        Ok((&slot.types[place], &self.constants[place], self.live[place]))
    }

    pub fn take_counts(&self) -> Result<TakeCounts, Refusal> {
        self.held().map(|_| self.takes)
    }

    pub fn code(&self) -> Result<&[Inst], Refusal> {
        self.held().map(|slot| slot.unit.code())
    }

    /// The lowest place that a rule changes, and what the lowest rule there makes of it.
    pub fn first_change(&self) -> Result<Option<(usize, Inst)>, Refusal> {
        let n = self.held()?.unit.code().len();
        Ok((0..n).find_map(|place| self.site(place).change().map(|inst| (place, inst))))
    }

    #[inline(always)]
    fn site(&self, place: usize) -> Site<'_> {
        let inst = self.slots[self.held].unit.code()[place];
        Site { inst, constants: &self.constants[place], live: self.live[place] }
    }

    fn held(&self) -> Result<&Slot, Refusal> {
        if self.loaded { Ok(&self.slots[self.held]) } else { Err(Refusal::NoUnit) }
    }

    fn innermost(&self, token: &Token) -> Result<(), Refusal> {
        self.held()?;
        if token.depth == self.depth { Ok(()) } else { Err(Refusal::NotInnermost) }
    }

    /// Changes a place and remembers what was there; the facts are still those of before.
    fn change(&mut self, place: usize, inst: Inst) {
        let slot = &mut self.slots[self.held];
        let before = slot.unit.code()[place];
        self.changes[self.changed] = Change { place, before };
        self.changed += 1;
        slot.unit.replace(place, inst);
        if Ways::of(place, before) != Ways::of(place, inst) {
            slot.edges.make(slot.unit.code());
        }
    }

    fn solve_all<P: Policy>(&mut self, policies: &mut Policies<P>) {
        self.takes.types = self.slots[self.held].solve_types(&mut policies.types);
        self.solve_rest(policies);
    }

    fn solve_rest<P: Policy>(&mut self, policies: &mut Policies<P>) {
        let Slot { unit, edges, .. } = &self.slots[self.held];
        let code = unit.code();
        self.takes.constants = solve(&Forward::new(code, edges), &mut self.constants, &mut policies.constants)
            .expect("a fact for each place");
        self.takes.live =
            solve(&Backward::new(code, edges), &mut self.live, &mut policies.live).expect("a fact for each place");
    }
}
