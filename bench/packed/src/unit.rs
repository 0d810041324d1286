//! Instructions in the compact form that everything else works on, and the bytes they are read from and written to.

/// The most instructions a unit can have.
pub const PLACES: usize = 128;
/// The most locals a unit can have.
pub const LOCALS: usize = 16;
/// The length of the longest file.
pub const LONGEST: usize = 6 + 6 * PLACES;
/// Stands where a place could be but none is.
pub const NONE: u8 = 255;

#[derive(Clone, Copy, PartialEq, Eq, Debug)]
#[repr(u8)]
pub enum Op {
    Nop,
    Halt,
    Lit,
    Litf,
    Pop,
    Dup,
    Swap,
    Load,
    Store,
    Add,
    Sub,
    Mul,
    Div,
    Eq,
    Lt,
    Not,
    Jmp,
    Jf,
    Djmp,
    In,
    Out,
}

/// Eight bytes. The places that can be next stand beside the operation, lower one first, so that the forward
/// analyses find operation and edges with one read.
#[derive(Clone, Copy)]
pub struct Inst {
    pub arg: i32,
    pub op: Op,
    pub drop: u8,
    pub first: u8,
    pub second: u8,
}

impl Inst {
    /// The instruction at `place`, whose argument is known to be in range there.
    pub fn at(place: usize, op: Op, drop: u8, arg: i32) -> Inst {
        let (first, second) = ends(SHAPES[op as usize].flow, place as u8, arg);
        Inst { arg, op, drop, first, second }
    }
}

const NOTHING: Inst = Inst { arg: 0, op: Op::Halt, drop: 0, first: NONE, second: NONE };

#[derive(Clone, Copy, PartialEq)]
enum Flow {
    Falls,
    Ends,
    Jumps,
    Both,
}

/// What an argument may be: an index into the widths that `read` makes.
const ZERO: u8 = 0;
const ANY: u8 = 1;
const TRUTH: u8 = 2;
const LOCAL: u8 = 3;
const TARGET: u8 = 4;

#[derive(Clone, Copy)]
struct Shape {
    op: Op,
    most: u8,
    arg: u8,
    flow: Flow,
}

const fn shape(op: Op, most: u8, arg: u8, flow: Flow) -> Shape {
    Shape { op, most, arg, flow }
}

const SHAPES: [Shape; 21] = [
    shape(Op::Nop, 0, ZERO, Flow::Falls),
    shape(Op::Halt, 0, ZERO, Flow::Ends),
    shape(Op::Lit, 2, ANY, Flow::Falls),
    shape(Op::Litf, 2, TRUTH, Flow::Falls),
    shape(Op::Pop, 0, ZERO, Flow::Falls),
    shape(Op::Dup, 0, ZERO, Flow::Falls),
    shape(Op::Swap, 0, ZERO, Flow::Falls),
    shape(Op::Load, 0, LOCAL, Flow::Falls),
    shape(Op::Store, 0, LOCAL, Flow::Falls),
    shape(Op::Add, 0, ZERO, Flow::Falls),
    shape(Op::Sub, 0, ZERO, Flow::Falls),
    shape(Op::Mul, 0, ZERO, Flow::Falls),
    shape(Op::Div, 0, ZERO, Flow::Falls),
    shape(Op::Eq, 0, ZERO, Flow::Falls),
    shape(Op::Lt, 0, ZERO, Flow::Falls),
    shape(Op::Not, 0, ZERO, Flow::Falls),
    shape(Op::Jmp, 0, TARGET, Flow::Jumps),
    shape(Op::Jf, 0, TARGET, Flow::Both),
    shape(Op::Djmp, 0, TARGET, Flow::Jumps),
    shape(Op::In, 0, ZERO, Flow::Falls),
    shape(Op::Out, 0, ZERO, Flow::Falls),
];

/// The two ends in rising order. Equal ends happen only where both are the next place; there the edge of falling
/// through is the first, as it is wherever the jump goes forward.
#[inline(always)]
fn ends(flow: Flow, place: u8, arg: i32) -> (u8, u8) {
    let next = place.wrapping_add(1);
    let target = place.wrapping_add(arg as u8);
    match flow {
        Flow::Falls => (next, NONE),
        Flow::Ends => (NONE, NONE),
        Flow::Jumps => (target, NONE),
        Flow::Both if arg > 0 => (next, target),
        Flow::Both => (target, next),
    }
}

/// What is wrong with a file or an instruction in it: the refusal's number and the place.
#[derive(Clone, Copy, Debug)]
pub struct Fault {
    pub number: u8,
    pub place: usize,
}

pub struct Unit {
    pub locals: u8,
    pub n: usize,
    /// As long as a byte can count; the places past the unit's are never come to.
    pub code: [Inst; 256],
    /// Where the loaded unit had jumps, rising. Changes turn jumps into other things but never the reverse, so
    /// this stays a superset and tells `link` where to look.
    jumps: [u8; PLACES],
    jump_count: usize,
    /// For each place the lowest jump that goes there, and for each jump the next higher one with its target.
    pub jumped_from: [u8; PLACES],
    pub jumped_too: [u8; PLACES],
}

impl Unit {
    pub fn new() -> Unit {
        Unit {
            locals: 0,
            n: 0,
            code: [NOTHING; 256],
            jumps: [0; PLACES],
            jump_count: 0,
            jumped_from: [NONE; PLACES],
            jumped_too: [NONE; PLACES],
        }
    }

    /// Fills this unit from a file; after a fault its contents mean nothing.
    pub fn read(&mut self, file: &[u8]) -> Result<(), Fault> {
        let fault = |number, place| Err(Fault { number, place });
        let length = file.len();
        if length < 12 || length > LONGEST || length % 6 != 0 {
            return fault(3, 0);
        }
        let n = length / 6 - 1;
        let (body, check) = file.split_at(length - 2);
        if sum(body) != u16::from_be_bytes([check[0], check[1]]) {
            return fault(4, 0);
        }
        let locals = body[1];
        if body[0] != 1 || locals as usize > LOCALS {
            return fault(5, 0);
        }
        if u16::from_be_bytes([body[2], body[3]]) as usize != n {
            return fault(6, 0);
        }
        let widths: [u64; 8] = [1, 1 << 32, 2, locals as u64, n as u64, 0, 0, 0];
        let mut jump_count = 0;
        for (place, (six, inst)) in body[4..].chunks_exact(6).zip(self.code.iter_mut()).enumerate() {
            let Some(shape) = SHAPES.get(six[0] as usize) else { return fault(7, place) };
            let arg = i32::from_be_bytes([six[2], six[3], six[4], six[5]]);
            let from = if shape.arg == TARGET { place as u32 } else { 0 };
            // One comparison for every kind of argument: negative ones turn into large unsigned ones.
            let moved = from.wrapping_add(arg as u32) as u64;
            if six[1] > shape.most || moved >= widths[(shape.arg & 7) as usize] {
                return fault(7, place);
            }
            let (first, second) = ends(shape.flow, place as u8, arg);
            *inst = Inst { arg, op: shape.op, drop: six[1], first, second };
            if shape.arg == TARGET {
                self.jumps[jump_count & 127] = place as u8;
                jump_count += 1;
            }
        }
        if matches!(SHAPES[self.code[n - 1].op as usize].flow, Flow::Falls | Flow::Both) {
            return fault(7, n - 1);
        }
        self.locals = locals;
        self.n = n;
        self.jump_count = jump_count;
        self.link();
        Ok(())
    }

    /// Makes the lists of the jumps into each place. Going down through the jumps leaves each list rising.
    pub fn link(&mut self) {
        self.jumped_from = [NONE; PLACES];
        for &place in self.jumps[..self.jump_count].iter().rev() {
            let inst = &self.code[(place & 127) as usize];
            if matches!(inst.op, Op::Jmp | Op::Djmp | Op::Jf) {
                let target = place.wrapping_add(inst.arg as u8);
                let list = &mut self.jumped_from[(target & 127) as usize];
                self.jumped_too[(place & 127) as usize] = *list;
                *list = place;
            }
        }
    }

    /// Puts an instruction at a place; the lists of jumps are made again only where the edges differ.
    pub fn put(&mut self, place: usize, inst: Inst) -> Inst {
        let old = std::mem::replace(&mut self.code[place], inst);
        if old.first != inst.first || old.second != inst.second {
            self.link();
        }
        old
    }

    pub fn length(&self) -> usize {
        6 + 6 * self.n
    }

    /// Writes the file into the front of a buffer that is long enough.
    pub fn write(&self, buffer: &mut [u8]) {
        let (body, check) = buffer[..self.length()].split_at_mut(self.length() - 2);
        body[0] = 1;
        body[1] = self.locals;
        body[2..4].copy_from_slice(&(self.n as u16).to_be_bytes());
        for (six, inst) in body[4..].chunks_exact_mut(6).zip(&self.code) {
            let [a, b, c, d] = inst.arg.to_be_bytes();
            six.copy_from_slice(&[inst.op as u8, inst.drop, a, b, c, d]);
        }
        check.copy_from_slice(&sum(body).to_be_bytes());
    }
}

/// The check over at most a longest file's body. Eight bytes are added at once into four lanes of sixteen bits,
/// each of which grows by at most 510 in each of at most 97 additions and so cannot overflow.
fn sum(bytes: &[u8]) -> u16 {
    const EVEN: u64 = 0x00ff_00ff_00ff_00ff;
    let mut lanes = 0u64;
    let (eights, rest) = bytes.as_chunks::<8>();
    for eight in eights {
        let word = u64::from_le_bytes(*eight);
        lanes += (word & EVEN) + ((word >> 8) & EVEN);
    }
    let mut total = (lanes & 0xffff) + (lanes >> 16 & 0xffff) + (lanes >> 32 & 0xffff) + (lanes >> 48);
    for &byte in rest {
        total += byte as u64;
    }
    (total % 65_521) as u16
}
