//! Pick policies: which of the pending nodes the solver takes next.

/// A set of pending nodes, each from 0 to 127.
pub trait Policy {
    fn clear(&mut self);
    /// Makes a node pending, if it is not; whether there can be such a node.
    fn add(&mut self, node: u8) -> bool;
    /// Takes any pending node out, if there is one.
    fn take(&mut self) -> Option<u8>;
}

const NODES: u8 = 128;

/// The bit of each node, looked up as a shift of so wide a word takes many steps.
static BITS: [u128; NODES as usize] = {
    let mut bits = [1; NODES as usize];
    let mut node = 1;
    while node < bits.len() {
        bits[node] = 1 << node;
        node += 1;
    }
    bits
};

/// Takes the node that has been pending longest.
pub struct FirstIn {
    pending: [bool; NODES as usize],
    ring: [u8; NODES as usize],
    /// Where the ring is taken from and added to. They count on past its end, so that they are alike only when it is empty.
    first: u8,
    last: u8,
}

impl FirstIn {
    pub const fn new() -> FirstIn {
        FirstIn { pending: [false; NODES as usize], ring: [0; NODES as usize], first: 0, last: 0 }
    }
}

impl Policy for FirstIn {
    fn clear(&mut self) {
        if self.first != self.last {
            self.pending = [false; NODES as usize];
        }
        (self.first, self.last) = (0, 0);
    }

    #[inline(always)]
    fn add(&mut self, node: u8) -> bool {
        let Some(pending) = self.pending.get_mut(usize::from(node)) else { return false };
        if !std::mem::replace(pending, true) {
            self.ring[usize::from(self.last % NODES)] = node;
            self.last = self.last.wrapping_add(1);
        }
        true
    }

    #[inline(always)]
    fn take(&mut self) -> Option<u8> {
        if self.first == self.last {
            return None;
        }
        let node = self.ring[usize::from(self.first % NODES)];
        self.pending[usize::from(node)] = false;
        self.first = self.first.wrapping_add(1);
        Some(node)
    }
}

/// Takes the highest node.
pub struct Highest {
    pending: u128,
}

impl Highest {
    pub const fn new() -> Highest {
        Highest { pending: 0 }
    }
}

impl Policy for Highest {
    fn clear(&mut self) {
        self.pending = 0;
    }

    #[inline(always)]
    fn add(&mut self, node: u8) -> bool {
        let Some(bit) = BITS.get(usize::from(node)) else { return false };
        self.pending |= bit;
        true
    }

    #[inline(always)]
    fn take(&mut self) -> Option<u8> {
        let node = self.pending.checked_ilog2()?;
        self.pending ^= BITS[node as usize];
        Some(node as u8)
    }
}
