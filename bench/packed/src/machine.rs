//! The interpreter. It trusts no verifier: kinds, heights and unset locals are tested at every step.

use crate::unit::{Op, Unit};

#[derive(Clone, Copy, PartialEq, Eq, Debug)]
pub enum Ending {
    Running,
    Halted,
    Trapped,
    Dry,
    Full,
    Stuck,
}

/// All that a run gives back but the outputs, which stand in the front of the caller's buffer.
#[derive(Clone, Copy, Debug)]
pub struct Outcome {
    pub ending: Ending,
    pub place: usize,
    pub steps: u32,
    pub inputs: usize,
    pub outputs: usize,
}

/// A value in one word: numbers have zeros in the upper half, so that two of them are told with one test.
type Value = u64;

const FALSE: Value = 1 << 32;
/// In a local alone, and told by its sign.
const UNSET: Value = 1 << 63;

fn both_numbers(a: Value, b: Value) -> bool {
    (a | b) < FALSE
}

fn flag(truth: bool) -> Value {
    FALSE | truth as Value
}

fn number(value: Value) -> i32 {
    value as i32
}

fn unset(value: Value) -> bool {
    (value as i64) < 0
}

/// Whether a flag is true; flags differ in the lowest bit alone.
fn truth(value: Value) -> bool {
    value & 1 != 0
}

pub fn run(unit: &Unit, inputs: &[i32], outputs: &mut [i32], budget: u32) -> Outcome {
    let code = &unit.code;
    // The top is held apart from the values under it, so that most results are never stored. Slot i holds the
    // value of height i while it is covered; slot 0 takes what is written when there is no top yet.
    let mut top: Value = 0;
    let mut under = [0 as Value; 8];
    let mut locals = [UNSET; 16];
    let mut height = 0usize;
    // The code is as long as a byte can count, so that a place in a byte is always in range.
    let mut place = 0u8;
    let mut left = budget;
    let mut used = 0usize;
    let mut written = 0usize;
    let ending = loop {
        if left == 0 {
            break Ending::Running;
        }
        let inst = &code[place as usize];
        let next = place.wrapping_add(1);
        // Each test of the height is one unsigned comparison, in which too few values wrap to a large number; it
        // also tells the compiler that the index is in range.
        macro_rules! push {
            ($value:expr) => {{
                let value = $value;
                if height > 7 {
                    break Ending::Stuck;
                }
                under[height] = top;
                top = value;
                height += 1;
                place = next;
            }};
        }
        macro_rules! literal {
            ($value:expr) => {{
                let left = height.wrapping_sub(inst.drop as usize);
                if left > 7 {
                    break Ending::Stuck;
                }
                if inst.drop == 0 {
                    under[left] = top;
                }
                top = $value;
                height = left + 1;
                place = next;
            }};
        }
        macro_rules! pop {
            () => {{
                height = height.wrapping_sub(1);
                if height > 7 {
                    break Ending::Stuck;
                }
                let popped = top;
                top = under[height];
                popped
            }};
        }
        macro_rules! work {
            ($a:ident, $b:ident, $trap:expr, $value:expr) => {{
                let less = height.wrapping_sub(1);
                if less.wrapping_sub(1) > 6 {
                    break Ending::Stuck;
                }
                let ($a, $b) = (under[less], top);
                if !both_numbers($a, $b) {
                    break Ending::Stuck;
                }
                if $trap {
                    break Ending::Trapped;
                }
                top = $value;
                height = less;
                place = next;
            }};
        }
        match inst.op {
            Op::Nop => place = next,
            Op::Halt => break Ending::Halted,
            Op::Lit => literal!(inst.arg as u32 as Value),
            Op::Litf => literal!(flag(inst.arg != 0)),
            Op::Pop => {
                pop!();
                place = next;
            }
            Op::Dup => {
                if height == 0 {
                    break Ending::Stuck;
                }
                push!(top);
            }
            Op::Swap => {
                let less = height.wrapping_sub(1);
                if less.wrapping_sub(1) > 6 {
                    break Ending::Stuck;
                }
                std::mem::swap(&mut top, &mut under[less]);
                place = next;
            }
            Op::Load => {
                let value = locals[(inst.arg & 15) as usize];
                if unset(value) {
                    break Ending::Stuck;
                }
                push!(value);
            }
            Op::Store => {
                locals[(inst.arg & 15) as usize] = pop!();
                place = next;
            }
            Op::Add => work!(a, b, false, number(a).wrapping_add(number(b)) as u32 as Value),
            Op::Sub => work!(a, b, false, number(a).wrapping_sub(number(b)) as u32 as Value),
            Op::Mul => work!(a, b, false, number(a).wrapping_mul(number(b)) as u32 as Value),
            Op::Div => work!(a, b, b == 0, number(a).wrapping_div(number(b)) as u32 as Value),
            Op::Eq => work!(a, b, false, flag(a == b)),
            Op::Lt => work!(a, b, false, flag(number(a) < number(b))),
            Op::Not => {
                if height == 0 || top < FALSE {
                    break Ending::Stuck;
                }
                top ^= 1;
                place = next;
            }
            Op::Jmp => place = place.wrapping_add(inst.arg as u8),
            Op::Jf => {
                if top < FALSE {
                    break Ending::Stuck;
                }
                let popped = pop!();
                place = if truth(popped) { next } else { place.wrapping_add(inst.arg as u8) };
            }
            Op::Djmp => {
                pop!();
                place = place.wrapping_add(inst.arg as u8);
            }
            Op::In => {
                if height > 7 {
                    break Ending::Stuck;
                }
                let Some(&input) = inputs.get(used) else { break Ending::Dry };
                used += 1;
                push!(input as u32 as Value);
            }
            Op::Out => {
                if height == 0 || top >= FALSE {
                    break Ending::Stuck;
                }
                let Some(output) = outputs.get_mut(written) else { break Ending::Full };
                written += 1;
                *output = number(pop!());
                place = next;
            }
        }
        left -= 1;
    };
    Outcome { ending, place: place as usize, steps: budget - left, inputs: used, outputs: written }
}
