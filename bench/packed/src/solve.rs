//! The worklist solver, for any analysis and any pick policy, and the two pick policies.

use crate::unit::PLACES;

/// Facts stand in arrays of this length, so that a masked node is always in range.
pub type Facts<F> = [F; PLACES];

/// Nodes with facts, and edges along which facts are carried.
pub trait Analysis {
    type Fact: Clone;
    /// What a node's edges carry, as far as it is the same for all of them, in whatever form joins fastest.
    type Carried;
    /// Tells an edge from the others out of its node.
    type Edge: Copy;
    /// Whether a fact is small enough that taking a copy is cheaper than borrowing two places of the array.
    const SMALL: bool;

    fn nodes(&self) -> usize;
    fn seed(&self, facts: &mut Facts<Self::Fact>);
    /// The edges out of a node in order, each with the node it leads to.
    fn edges(&self, node: usize) -> impl Iterator<Item = (usize, Self::Edge)>;
    /// Carries a node's fact; `None` where no edge carries more than the least fact.
    fn carry(&self, node: usize, from: &Self::Fact) -> Option<Self::Carried>;
    /// Joins what the edge carries into `into`; whether that changed it. `from` is the fact that was carried.
    fn join(carried: &Self::Carried, edge: Self::Edge, from: &Self::Fact, into: &mut Self::Fact) -> bool;
}

/// A set of pending nodes.
pub trait Policy {
    fn clear(&mut self);
    /// Makes a node pending, if it is not; whether there can be such a node.
    fn add(&mut self, node: usize) -> bool;
    fn take(&mut self) -> Option<usize>;
    /// Clears, and adds the nodes below `n` in rising order.
    fn start(&mut self, n: usize) {
        self.clear();
        for node in 0..n {
            self.add(node);
        }
    }
}

/// Solves from the seeds and answers the number of takes.
#[inline(never)]
pub fn solve<A: Analysis, P: Policy>(analysis: &A, facts: &mut Facts<A::Fact>, policy: &mut P) -> u32 {
    analysis.seed(facts);
    policy.start(analysis.nodes());
    let mut takes = 0;
    while let Some(node) = policy.take() {
        takes += 1;
        if A::SMALL {
            let from = facts[node & 127].clone();
            spread(analysis, facts, policy, node, &from);
        } else if let Some(carried) = analysis.carry(node, &facts[node & 127]) {
            for (end, edge) in analysis.edges(node) {
                let Ok([from, into]) = facts.get_disjoint_mut([node & 127, end & 127]) else {
                    // An edge leads back to the node, so that its fact as it was taken has to be copied. Joins
                    // made already change nothing when they are made again.
                    spread_copy(analysis, facts, policy, node);
                    break;
                };
                if A::join(&carried, edge, from, into) {
                    policy.add(end);
                }
            }
        }
    }
    takes
}

#[inline(always)]
fn spread<A: Analysis, P: Policy>(a: &A, facts: &mut Facts<A::Fact>, policy: &mut P, node: usize, from: &A::Fact) {
    if let Some(carried) = a.carry(node, from) {
        for (end, edge) in a.edges(node) {
            if A::join(&carried, edge, from, &mut facts[end & 127]) {
                policy.add(end);
            }
        }
    }
}

#[cold]
#[inline(never)]
fn spread_copy<A: Analysis, P: Policy>(a: &A, facts: &mut Facts<A::Fact>, policy: &mut P, node: usize) {
    let from = facts[node & 127].clone();
    spread(a, facts, policy, node, &from);
}

/// Takes the node that has been pending longest: a ring has them in the order they were added, and each has a mark.
pub struct FirstIn {
    ring: [u8; PLACES],
    head: usize,
    count: usize,
    pending: [bool; PLACES],
}

const RISING: [u8; PLACES] = {
    let mut rising = [0; PLACES];
    let mut i = 0;
    while i < PLACES {
        rising[i] = i as u8;
        i += 1;
    }
    rising
};

impl FirstIn {
    pub fn new() -> FirstIn {
        FirstIn { ring: [0; PLACES], head: 0, count: 0, pending: [false; PLACES] }
    }
}

impl Policy for FirstIn {
    fn clear(&mut self) {
        self.head = 0;
        self.count = 0;
        self.pending = [false; PLACES];
    }

    #[inline(always)]
    fn add(&mut self, node: usize) -> bool {
        let Some(pending) = self.pending.get_mut(node) else { return false };
        if !*pending {
            *pending = true;
            self.ring[(self.head + self.count) & 127] = node as u8;
            self.count += 1;
        }
        true
    }

    #[inline(always)]
    fn take(&mut self) -> Option<usize> {
        if self.count == 0 {
            return None;
        }
        let node = (self.ring[self.head & 127] & 127) as usize;
        self.head += 1;
        self.count -= 1;
        self.pending[node] = false;
        Some(node)
    }

    fn start(&mut self, n: usize) {
        self.ring = RISING;
        self.head = 0;
        self.count = n;
        self.pending = [false; PLACES];
        self.pending[..n].fill(true);
    }
}

/// Takes the highest node; a bit for each tells which are pending.
pub struct Highest {
    pending: u128,
}

impl Highest {
    pub fn new() -> Highest {
        Highest { pending: 0 }
    }
}

impl Policy for Highest {
    fn clear(&mut self) {
        self.pending = 0;
    }

    #[inline(always)]
    fn add(&mut self, node: usize) -> bool {
        if node >= PLACES {
            return false;
        }
        self.pending |= 1 << node;
        true
    }

    #[inline(always)]
    fn take(&mut self) -> Option<usize> {
        if self.pending == 0 {
            return None;
        }
        let node = 127 - self.pending.leading_zeros() as usize;
        self.pending ^= 1 << node;
        Some(node)
    }

    fn start(&mut self, n: usize) {
        self.pending = if n == 0 { 0 } else { !0 >> (PLACES - n) };
    }
}
