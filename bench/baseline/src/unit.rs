//! Units: their instructions, the edges between their places, and the file that holds them.

use std::fmt;

/// The most instructions of a unit.
pub const PLACES: usize = 128;
/// The locals that a frame has cells for, whether the unit uses them or not.
pub const LOCALS: usize = 16;
/// The most values on the stack.
pub const STACK: usize = 8;
/// The bytes of the longest file.
pub const LONGEST: usize = file_length(PLACES);

const HEAD: usize = 4;
const PART: usize = 6;
const FORMAT: u8 = 1;
const MODULUS: u32 = 65_521;

/// One instruction. A jump keeps its distance, which counts from the place where it stands.
#[derive(Clone, Copy, PartialEq, Eq, Debug)]
pub enum Inst {
    Nop,
    Halt,
    Lit { drop: u8, number: i32 },
    LitF { drop: u8, flag: bool },
    Pop,
    Dup,
    Swap,
    Load(u8),
    Store(u8),
    Add,
    Sub,
    Mul,
    Div,
    Eq,
    Lt,
    Not,
    Jmp(i32),
    Jf(i32),
    Djmp(i32),
    In,
    Out,
}

impl Inst {
    /// The instruction that a part of a file stands for, if there is one with these operands.
    fn read(part: &[u8; PART]) -> Option<Inst> {
        let [code, drop, a, b, c, d] = *part;
        let arg = i32::from_be_bytes([a, b, c, d]);
        Some(match (code, drop, arg) {
            (2, 0..=2, number) => Inst::Lit { drop, number },
            (3, 0..=2, 0 | 1) => Inst::LitF { drop, flag: arg == 1 },
            (7, 0, 0..=255) => Inst::Load(arg as u8),
            (8, 0, 0..=255) => Inst::Store(arg as u8),
            (16, 0, distance) => Inst::Jmp(distance),
            (17, 0, distance) => Inst::Jf(distance),
            (18, 0, distance) => Inst::Djmp(distance),
            (_, 0, 0) => match code {
                0 => Inst::Nop,
                1 => Inst::Halt,
                4 => Inst::Pop,
                5 => Inst::Dup,
                6 => Inst::Swap,
                9 => Inst::Add,
                10 => Inst::Sub,
                11 => Inst::Mul,
                12 => Inst::Div,
                13 => Inst::Eq,
                14 => Inst::Lt,
                15 => Inst::Not,
                19 => Inst::In,
                20 => Inst::Out,
                _ => return None,
            },
            _ => return None,
        })
    }

    /// The code, drop count and argument that stand for the instruction in a file.
    pub fn numbers(self) -> (u8, u8, i32) {
        match self {
            Inst::Nop => (0, 0, 0),
            Inst::Halt => (1, 0, 0),
            Inst::Lit { drop, number } => (2, drop, number),
            Inst::LitF { drop, flag } => (3, drop, flag.into()),
            Inst::Pop => (4, 0, 0),
            Inst::Dup => (5, 0, 0),
            Inst::Swap => (6, 0, 0),
            Inst::Load(local) => (7, 0, local.into()),
            Inst::Store(local) => (8, 0, local.into()),
            Inst::Add => (9, 0, 0),
            Inst::Sub => (10, 0, 0),
            Inst::Mul => (11, 0, 0),
            Inst::Div => (12, 0, 0),
            Inst::Eq => (13, 0, 0),
            Inst::Lt => (14, 0, 0),
            Inst::Not => (15, 0, 0),
            Inst::Jmp(distance) => (16, 0, distance),
            Inst::Jf(distance) => (17, 0, distance),
            Inst::Djmp(distance) => (18, 0, distance),
            Inst::In => (19, 0, 0),
            Inst::Out => (20, 0, 0),
        }
    }

    /// Whether a unit of `n` places and `locals` locals may have the instruction at `place`.
    fn fits(self, place: usize, n: usize, locals: u8) -> bool {
        match self {
            Inst::Load(local) | Inst::Store(local) => local < locals,
            Inst::Jmp(distance) | Inst::Jf(distance) | Inst::Djmp(distance) => {
                // Wide enough that no distance wraps round into the unit.
                (0..n as i64).contains(&(place as i64 + i64::from(distance)))
            }
            _ => true,
        }
    }

    /// Whether nothing follows from it to the next place, so that a unit may end with it.
    fn ends(self) -> bool {
        matches!(self, Inst::Halt | Inst::Jmp(_) | Inst::Djmp(_))
    }

    /// How many values it takes off the stack, and how many it puts back.
    pub fn values(self) -> (usize, usize) {
        match self {
            Inst::Nop | Inst::Halt | Inst::Jmp(_) => (0, 0),
            Inst::Lit { drop, .. } | Inst::LitF { drop, .. } => (drop.into(), 1),
            Inst::Load(_) | Inst::In => (0, 1),
            Inst::Pop | Inst::Store(_) | Inst::Jf(_) | Inst::Djmp(_) | Inst::Out => (1, 0),
            Inst::Not => (1, 1),
            Inst::Dup => (1, 2),
            Inst::Swap => (2, 2),
            Inst::Add | Inst::Sub | Inst::Mul | Inst::Div | Inst::Eq | Inst::Lt => (2, 1),
        }
    }
}

/// The place a jump leads to; the reader of units has seen that there is one.
#[inline(always)]
pub fn target(place: usize, distance: i32) -> usize {
    place.wrapping_add_signed(distance as isize)
}

/// The code of one unit. Past its end the array keeps what an earlier unit left there.
pub struct Unit {
    pub locals: u8,
    n: usize,
    code: [Inst; PLACES],
}

impl Unit {
    pub const fn empty() -> Unit {
        Unit { locals: 0, n: 0, code: [Inst::Halt; PLACES] }
    }

    pub fn code(&self) -> &[Inst] {
        &self.code[..self.n]
    }

    pub fn replace(&mut self, place: usize, inst: Inst) {
        self.code[place] = inst;
    }

    /// Reads a file into this unit, which is of no use after a fault.
    pub fn read(&mut self, file: &[u8]) -> Result<(), ReadFault> {
        let n = match file.len().checked_sub(HEAD + 2) {
            Some(rest) if rest % PART == 0 && (1..=PLACES).contains(&(rest / PART)) => rest / PART,
            _ => return Err(FileFault::Length.into()),
        };
        let (summed, check) = file.split_at(file.len() - 2);
        if check != check_sum(summed).to_be_bytes() {
            return Err(FileFault::Check.into());
        }
        let (head, parts) = summed.split_at(HEAD);
        let locals = head[1];
        if head[0] != FORMAT || usize::from(locals) > LOCALS {
            return Err(FileFault::Head.into());
        }
        if usize::from(u16::from_be_bytes([head[2], head[3]])) != n {
            return Err(FileFault::Count.into());
        }
        let (parts, _) = parts.as_chunks::<PART>();
        for (place, (part, inst)) in parts.iter().zip(&mut self.code).enumerate() {
            match Inst::read(part) {
                Some(read) if read.fits(place, n, locals) => *inst = read,
                _ => return Err(UnitFault { place }.into()),
            }
        }
        if !self.code[n - 1].ends() {
            return Err(UnitFault { place: n - 1 }.into());
        }
        (self.locals, self.n) = (locals, n);
        Ok(())
    }

    /// Writes the unit's file at the front of a buffer and answers its length, or none where the buffer is too short.
    pub fn write(&self, buffer: &mut [u8]) -> Option<usize> {
        let length = file_length(self.n);
        let (summed, check) = buffer.get_mut(..length)?.split_at_mut(length - 2);
        let (head, parts) = summed.split_at_mut(HEAD);
        let [high, low] = (self.n as u16).to_be_bytes();
        head.copy_from_slice(&[FORMAT, self.locals, high, low]);
        let (parts, _) = parts.as_chunks_mut::<PART>();
        for (part, inst) in parts.iter_mut().zip(self.code()) {
            let (code, drop, arg) = inst.numbers();
            let [a, b, c, d] = arg.to_be_bytes();
            *part = [code, drop, a, b, c, d];
        }
        check.copy_from_slice(&check_sum(summed).to_be_bytes());
        Some(length)
    }
}

const fn file_length(n: usize) -> usize {
    HEAD + PART * n + 2
}

/// The longest file's bytes add up to far less than a word holds, so one modulus at the end is enough.
fn check_sum(bytes: &[u8]) -> u16 {
    (bytes.iter().copied().map(u32::from).sum::<u32>() % MODULUS) as u16
}

/// A way from one place to another.
#[derive(Clone, Copy, PartialEq, Eq)]
pub struct Edge {
    pub start: u8,
    pub end: u8,
    /// Whether the start's jump makes it, rather than the step to the next place.
    pub jump: bool,
}

const NO_EDGE: Edge = Edge { start: 0, end: 0, jump: false };

/// The edges that leave a place: those to lower places first, and a step before a jump to the same place.
#[derive(Clone, Copy, PartialEq, Eq)]
pub struct Ways {
    edges: [Edge; 2],
    count: u8,
}

impl Ways {
    const NONE: Ways = Ways { edges: [NO_EDGE; 2], count: 0 };

    #[inline(always)]
    pub fn of(place: usize, inst: Inst) -> Ways {
        let start = place as u8;
        let step = Edge { start, end: start.wrapping_add(1), jump: false };
        let jump = |distance| Edge { start, end: target(place, distance) as u8, jump: true };
        match inst {
            Inst::Halt => Ways::NONE,
            Inst::Jmp(distance) | Inst::Djmp(distance) => Ways { edges: [jump(distance), NO_EDGE], count: 1 },
            Inst::Jf(distance) if distance < 1 => Ways { edges: [jump(distance), step], count: 2 },
            Inst::Jf(distance) => Ways { edges: [step, jump(distance)], count: 2 },
            _ => Ways { edges: [step, NO_EDGE], count: 1 },
        }
    }

    #[inline(always)]
    fn edges(&self) -> &[Edge] {
        &self.edges[..self.count.into()]
    }
}

/// The edges at every place of a unit: those that leave it, and those that come to it, by their start.
pub struct Edges {
    out: [Ways; PLACES],
    into: [Edge; 2 * PLACES],
    /// Where the edges into each place begin; those into the next begin where they end.
    first_into: [u16; PLACES + 1],
}

impl Edges {
    pub const fn none() -> Edges {
        Edges { out: [Ways::NONE; PLACES], into: [NO_EDGE; 2 * PLACES], first_into: [0; PLACES + 1] }
    }

    #[inline(always)]
    pub fn out(&self, place: usize) -> &[Edge] {
        self.out[place].edges()
    }

    #[inline(always)]
    pub fn into(&self, place: usize) -> &[Edge] {
        &self.into[self.first_into[place].into()..self.first_into[place + 1].into()]
    }

    pub fn make(&mut self, code: &[Inst]) {
        let n = code.len();
        // At first an entry counts the edges into the place before its own; then it is where the next of them goes.
        self.first_into[..=n].fill(0);
        for (place, (inst, ways)) in code.iter().zip(&mut self.out).enumerate() {
            *ways = Ways::of(place, *inst);
            for edge in ways.edges() {
                self.first_into[usize::from(edge.end) + 1] += 1;
            }
        }
        let mut before = 0;
        for entry in &mut self.first_into[1..=n] {
            (before, *entry) = (before + *entry, before);
        }
        for edge in self.out[..n].iter().flat_map(Ways::edges) {
            let next = &mut self.first_into[usize::from(edge.end) + 1];
            self.into[usize::from(*next)] = *edge;
            *next += 1;
        }
    }
}

/// What is wrong with a file before its instructions are looked at.
#[derive(Clone, Copy, PartialEq, Eq, Debug)]
pub enum FileFault {
    Length,
    Check,
    Head,
    Count,
}

/// The lowest place whose instruction is none, or does not fit there.
#[derive(Clone, Copy, PartialEq, Eq, Debug)]
pub struct UnitFault {
    pub place: usize,
}

/// Why a file cannot be read.
#[derive(Clone, Copy, PartialEq, Eq, Debug)]
pub enum ReadFault {
    File(FileFault),
    Unit(UnitFault),
}

impl From<FileFault> for ReadFault {
    fn from(fault: FileFault) -> ReadFault {
        ReadFault::File(fault)
    }
}

impl From<UnitFault> for ReadFault {
    fn from(fault: UnitFault) -> ReadFault {
        ReadFault::Unit(fault)
    }
}

impl fmt::Display for FileFault {
    fn fmt(&self, out: &mut fmt::Formatter) -> fmt::Result {
        out.write_str(match self {
            FileFault::Length => "no unit has a file of this length",
            FileFault::Check => "the check sum differs",
            FileFault::Head => "wrong format or too many locals",
            FileFault::Count => "the count of instructions differs from the length",
        })
    }
}
