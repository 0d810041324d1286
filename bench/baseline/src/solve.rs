//! The solver, which finds the least solution of any analysis by taking pending nodes until there are none.

use crate::policies::Policy;

/// An analysis: facts at nodes, and how they follow from one another along edges.
pub trait Analysis {
    type Fact: Copy;
    type Edge: Copy;

    fn nodes(&self) -> usize;
    fn edges(&self, node: usize) -> impl Iterator<Item = Self::Edge>;
    /// The node that an edge leads to.
    fn end(&self, edge: Self::Edge) -> usize;
    /// Puts what is known of a node from the start into its fact, whatever that was.
    fn seed(&self, node: usize, fact: &mut Self::Fact);
    /// Turns the fact at an edge's node into what holds at its end.
    fn carry(&self, edge: Self::Edge, fact: &mut Self::Fact);
    /// Joins a fact into another, and tells whether that one rose.
    fn join(into: &mut Self::Fact, from: &Self::Fact) -> bool;
}

/// Solves an analysis into the first of the caller's facts; how many nodes were taken, or none where there are too few facts.
pub fn solve<A: Analysis, P: Policy>(analysis: &A, facts: &mut [A::Fact], policy: &mut P) -> Option<u32> {
    let facts = facts.get_mut(..analysis.nodes())?;
    policy.clear();
    for (node, fact) in facts.iter_mut().enumerate() {
        analysis.seed(node, fact);
        policy.add(node as u8);
    }
    let mut takes = 0;
    while let Some(node) = policy.take() {
        takes += 1;
        let node = usize::from(node);
        let mut edges = analysis.edges(node);
        let mut next = edges.next();
        // Read once: an edge back to the node itself may raise its fact before the other edge is followed.
        let mut taken = facts[node];
        let mut carried;
        while let Some(edge) = next {
            next = edges.next();
            // The last edge may spoil the copy that all edges start from; most nodes have no other.
            let fact = if next.is_some() {
                carried = taken;
                &mut carried
            } else {
                &mut taken
            };
            analysis.carry(edge, fact);
            let end = analysis.end(edge);
            if A::join(&mut facts[end], fact) {
                policy.add(end as u8);
            }
        }
    }
    Some(takes)
}
