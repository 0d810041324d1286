//! The analyses: frames forward over code, live locals backward over it, and a line of nodes on which the solver alone is timed.

use crate::facts::{Cell, Cells, Frame, Kind, Live};
use crate::solve::Analysis;
use crate::unit::{Edge, Edges, Inst, STACK};
use std::marker::PhantomData;

/// Frames of one kind of cell before each place; of kinds for the verifier, of constants for the rewrites.
pub struct Forward<'a, C> {
    code: &'a [Inst],
    edges: &'a Edges,
    cells: PhantomData<C>,
}

impl<'a, C> Forward<'a, C> {
    pub fn new(code: &'a [Inst], edges: &'a Edges) -> Self {
        Forward { code, edges, cells: PhantomData }
    }
}

impl<C: Cell> Analysis for Forward<'_, C> {
    type Fact = Frame<C>;
    type Edge = Edge;

    fn nodes(&self) -> usize {
        self.code.len()
    }

    fn edges(&self, node: usize) -> impl Iterator<Item = Edge> {
        self.edges.out(node).iter().copied()
    }

    fn end(&self, edge: Edge) -> usize {
        edge.end.into()
    }

    fn seed(&self, node: usize, fact: &mut Frame<C>) {
        if node == 0 {
            *fact = Frame::At(Cells::ENTRY);
        } else {
            *fact = Frame::Unreached;
        }
    }

    #[inline(always)]
    fn carry(&self, edge: Edge, fact: &mut Frame<C>) {
        fact.carry(self.code[usize::from(edge.start)], edge.jump);
    }

    #[inline(always)]
    fn join(into: &mut Frame<C>, from: &Frame<C>) -> bool {
        into.join(from)
    }
}

/// The locals live after each place.
pub struct Backward<'a> {
    code: &'a [Inst],
    edges: &'a Edges,
}

impl<'a> Backward<'a> {
    pub fn new(code: &'a [Inst], edges: &'a Edges) -> Self {
        Backward { code, edges }
    }
}

impl Analysis for Backward<'_> {
    type Fact = Live;
    type Edge = Edge;

    fn nodes(&self) -> usize {
        self.code.len()
    }

    fn edges(&self, node: usize) -> impl Iterator<Item = Edge> {
        self.edges.into(node).iter().copied()
    }

    fn end(&self, edge: Edge) -> usize {
        edge.start.into()
    }

    fn seed(&self, _: usize, live: &mut Live) {
        *live = 0;
    }

    fn carry(&self, edge: Edge, live: &mut Live) {
        match self.code[usize::from(edge.end)] {
            Inst::Load(local) => *live |= 1 << local,
            Inst::Store(local) => *live &= !(1 << local),
            _ => {}
        }
    }

    fn join(into: &mut Live, from: &Live) -> bool {
        let joined = *into | *from;
        let rose = joined != *into;
        *into = joined;
        rose
    }
}

/// Nodes in a row, each with an edge to the one before and to the one after; the last knows something, and so all come to.
pub struct Line {
    nodes: usize,
}

impl Line {
    pub fn new(nodes: usize) -> Line {
        Line { nodes }
    }
}

impl Analysis for Line {
    type Fact = bool;
    type Edge = usize;

    fn nodes(&self) -> usize {
        self.nodes
    }

    fn edges(&self, node: usize) -> impl Iterator<Item = usize> {
        let after = (node + 1 < self.nodes).then_some(node + 1);
        node.checked_sub(1).into_iter().chain(after)
    }

    fn end(&self, edge: usize) -> usize {
        edge
    }

    fn seed(&self, node: usize, fact: &mut bool) {
        *fact = node + 1 == self.nodes;
    }

    fn carry(&self, _: usize, _: &mut bool) {}

    fn join(into: &mut bool, from: &bool) -> bool {
        let rose = !*into && *from;
        *into |= *from;
        rose
    }
}

/// Why an instruction does not apply to the frame at its place.
#[derive(Clone, Copy, PartialEq, Eq, Debug)]
pub enum Reason {
    TooFew = 1,
    TooMany = 2,
    WrongKind = 3,
    Clash = 4,
}

/// The place that keeps a unit from being accepted.
#[derive(Clone, Copy, PartialEq, Eq, Debug)]
pub struct VerifierFault {
    pub place: usize,
    pub reason: Reason,
}

/// Whether every instruction applies wherever a run may come to it, by the kinds that were solved for the code.
pub fn verify(code: &[Inst], types: &[Frame<Kind>]) -> Result<(), VerifierFault> {
    let types = &types[..code.len()];
    // An instruction that can fail to apply leads somewhere, and carries a clash there. So without a clash all apply.
    let Some(clash) = types.iter().position(|frame| *frame == Frame::Clash) else { return Ok(()) };
    let first = code.iter().zip(types).enumerate().find_map(|(place, (inst, frame))| match frame {
        Frame::At(cells) => inapplicable(*inst, cells).map(|reason| VerifierFault { place, reason }),
        _ => None,
    });
    Err(first.unwrap_or(VerifierFault { place: clash, reason: Reason::Clash }))
}

fn inapplicable(inst: Inst, cells: &Cells<Kind>) -> Option<Reason> {
    let (taken, put) = inst.values();
    match cells.stack().len().checked_sub(taken) {
        None => Some(Reason::TooFew),
        Some(left) if left + put > STACK => Some(Reason::TooMany),
        // No matter which way is gone: kinds alone never tell which one is.
        Some(_) => { *cells }.perform(inst, false).is_err().then_some(Reason::WrongKind),
    }
}
