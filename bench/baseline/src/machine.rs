//! The interpreter, which runs code that it tests at every step.

use crate::unit::{target, Inst, LOCALS, STACK};

#[derive(Clone, Copy, PartialEq, Eq, Debug)]
pub enum Value {
    Number(i32),
    Flag(bool),
}

#[derive(Clone, Copy, PartialEq, Eq, Debug)]
pub enum Ending {
    Running,
    Halted,
    Trapped,
    Dry,
    Full,
    Stuck,
}

#[derive(Clone, Copy, PartialEq, Eq, Debug)]
pub struct Outcome {
    pub ending: Ending,
    pub place: usize,
    pub steps: u32,
    pub inputs: usize,
    pub outputs: usize,
}

/// Runs code from its first place. Outputs past those that it counts are as they were.
/// It is kept apart so that its speed hangs less on the code around it.
#[inline(never)]
pub fn run(code: &[Inst], inputs: &[i32], outputs: &mut [i32], budget: u32) -> Outcome {
    use Value::{Flag, Number};

    let mut stack = [Number(0); STACK];
    let mut height = 0usize;
    let mut locals: [Option<Value>; LOCALS] = [None; LOCALS];
    let (mut place, mut steps, mut read, mut written) = (0, 0, 0, 0);

    // Each of these ends the run where it cannot be done. Below an empty stack the height wraps, so that one test serves
    // for both ends of it.
    macro_rules! pop {
        () => {{
            height = height.wrapping_sub(1);
            match stack.get(height) {
                Some(value) => *value,
                None => break Ending::Stuck,
            }
        }};
    }
    macro_rules! number {
        () => {
            match pop!() {
                Number(number) => number,
                Flag(_) => break Ending::Stuck,
            }
        };
    }
    macro_rules! flag {
        () => {
            match pop!() {
                Flag(flag) => flag,
                Number(_) => break Ending::Stuck,
            }
        };
    }
    macro_rules! drop {
        ($count:expr) => {
            match height.checked_sub($count.into()) {
                Some(left) => height = left,
                None => break Ending::Stuck,
            }
        };
    }
    macro_rules! push {
        ($value:expr) => {
            match stack.get_mut(height) {
                Some(cell) => {
                    *cell = $value;
                    height += 1;
                }
                None => break Ending::Stuck,
            }
        };
    }
    macro_rules! combine {
        (|$a:ident, $b:ident| $result:expr) => {{
            let $b = number!();
            let $a = number!();
            push!($result)
        }};
    }

    // Done with the step, which leads elsewhere than to the next place.
    macro_rules! jump {
        ($distance:expr) => {{
            place = target(place, $distance);
            steps += 1;
            continue;
        }};
    }

    // What a step did to the stack before it ended the run is not seen any more; what it did to inputs and outputs would be.
    let ending = loop {
        if steps == budget {
            break Ending::Running;
        }
        match code[place] {
            Inst::Nop => {}
            Inst::Halt => break Ending::Halted,
            Inst::Lit { drop, number } => {
                drop!(drop);
                push!(Number(number));
            }
            Inst::LitF { drop, flag } => {
                drop!(drop);
                push!(Flag(flag));
            }
            Inst::Pop => {
                pop!();
            }
            Inst::Dup => {
                let top = pop!();
                push!(top);
                push!(top);
            }
            Inst::Swap => {
                let top = pop!();
                let below = pop!();
                push!(top);
                push!(below);
            }
            // By its kind, as a value that was just written in two parts is slow to read as a whole.
            Inst::Load(local) => match locals[usize::from(local)] {
                Some(Number(number)) => push!(Number(number)),
                Some(Flag(flag)) => push!(Flag(flag)),
                None => break Ending::Stuck,
            },
            Inst::Store(local) => locals[usize::from(local)] = Some(pop!()),
            Inst::Add => combine!(|a, b| Number(a.wrapping_add(b))),
            Inst::Sub => combine!(|a, b| Number(a.wrapping_sub(b))),
            Inst::Mul => combine!(|a, b| Number(a.wrapping_mul(b))),
            Inst::Div => combine!(|a, b| {
                if b == 0 {
                    break Ending::Trapped;
                }
                Number(a.wrapping_div(b))
            }),
            Inst::Eq => combine!(|a, b| Flag(a == b)),
            Inst::Lt => combine!(|a, b| Flag(a < b)),
            Inst::Not => {
                let flag = flag!();
                push!(Flag(!flag));
            }
            Inst::Jmp(distance) => jump!(distance),
            Inst::Jf(distance) => {
                if !flag!() {
                    jump!(distance);
                }
            }
            Inst::Djmp(distance) => {
                pop!();
                jump!(distance);
            }
            Inst::In => {
                if height == STACK {
                    break Ending::Stuck;
                }
                let Some(number) = inputs.get(read) else { break Ending::Dry };
                push!(Number(*number));
                read += 1;
            }
            Inst::Out => {
                let number = number!();
                let Some(output) = outputs.get_mut(written) else { break Ending::Full };
                *output = number;
                written += 1;
            }
        }
        place += 1;
        steps += 1;
    };
    Outcome { ending, place, steps, inputs: read, outputs: written }
}
