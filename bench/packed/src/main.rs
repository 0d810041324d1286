//! The command line: what is asked for, the clock, and how answers are printed.

mod analyses;
mod facts;
mod machine;
mod rewrite;
mod solve;
#[cfg(test)]
mod tests;
mod unit;
mod workspace;

use analyses::Line;
use facts::{Cell, Constants, Kinds};
use rewrite::Made;
use solve::{solve, FirstIn, Highest, Policy};
use std::fmt::Write;
use std::hint::black_box;
use std::process::ExitCode;
use std::time::Instant;
use unit::{LOCALS, LONGEST, PLACES};
use workspace::{Policies, Workspace};

const USAGE: &str = "packed [answers] load|tidy|abandon|propose|write|run|solve FILE TIMES [first-in|highest]";
/// How many inputs a run is given, and how many outputs it has room for.
const ROOM: usize = 1 << 20;

#[derive(Clone, Copy, PartialEq)]
enum Task {
    Load,
    Tidy,
    Abandon,
    Propose,
    Write,
    Run,
    Solve,
}

struct Asked {
    answers: bool,
    task: Task,
    name: String,
    times: u32,
    highest: bool,
}

fn asked() -> Option<Asked> {
    let mut words: Vec<String> = std::env::args().skip(1).collect();
    let answers = words.first().map(String::as_str) == Some("answers");
    if answers {
        words.remove(0);
    }
    if words.len() != 3 && words.len() != 4 {
        return None;
    }
    let task = match words[0].as_str() {
        "load" => Task::Load,
        "tidy" => Task::Tidy,
        "abandon" => Task::Abandon,
        "propose" => Task::Propose,
        "write" => Task::Write,
        "run" => Task::Run,
        "solve" => Task::Solve,
        _ => return None,
    };
    let highest = match words.get(3).map(String::as_str) {
        None | Some("first-in") => false,
        Some("highest") => true,
        Some(_) => return None,
    };
    Some(Asked { answers, task, name: words[1].clone(), times: words[2].parse().ok()?, highest })
}

fn main() -> ExitCode {
    let done = match asked() {
        None => Err(USAGE.to_string()),
        Some(asked) if asked.highest => with(&asked, Highest::new),
        Some(asked) => with(&asked, FirstIn::new),
    };
    match done {
        Ok(text) => {
            print!("{text}");
            ExitCode::SUCCESS
        }
        Err(message) => {
            eprintln!("packed: {message}");
            ExitCode::FAILURE
        }
    }
}

fn with<P: Policy>(asked: &Asked, policy: fn() -> P) -> Result<String, String> {
    let file = std::fs::read(&asked.name).map_err(|error| format!("{}: {error}", asked.name))?;
    let mut policies = Policies { types: policy(), constants: policy(), live: policy() };
    let mut workspace = Workspace::new();
    // Loading once shows whether the unit is accepted at all; the workspace is then at the depth it started with.
    workspace.load(&file, &mut policies).map_err(|refusal| format!("{}: {refusal}", asked.name))?;
    let n = workspace.unit().unwrap().n;
    let first = workspace.first_change().unwrap();
    let mut text = String::new();
    match asked.task {
        Task::Load => {
            let time = clock(asked, || {
                workspace.load(black_box(&file), &mut policies).unwrap();
                black_box(&mut workspace);
            });
            told(asked, &mut text, time, &workspace);
        }
        Task::Tidy => {
            let mut changes = 0;
            let time = clock(asked, || {
                workspace.load(black_box(&file), &mut policies).unwrap();
                let mut token = workspace.open().unwrap();
                changes = workspace.tidy(&mut token, &mut policies).unwrap();
                workspace.keep(token).unwrap();
                black_box(&mut workspace);
            });
            if asked.answers {
                writeln!(text, "changes {changes}").unwrap();
            }
            told(asked, &mut text, time, &workspace);
        }
        Task::Abandon => {
            let time = clock(asked, || {
                workspace.load(black_box(&file), &mut policies).unwrap();
                let token = workspace.open().unwrap();
                workspace.abandon(token, &mut policies).unwrap();
                black_box(&mut workspace);
            });
            told(asked, &mut text, time, &workspace);
        }
        Task::Propose => {
            let Some((place, made)) = first else { return Err(format!("{}: nothing to propose", asked.name)) };
            let time = clock(asked, || {
                workspace.load(black_box(&file), &mut policies).unwrap();
                let mut token = workspace.open().unwrap();
                let (place, made): (usize, Made) = black_box((place, made));
                workspace.propose(&mut token, place, made, &mut policies).unwrap();
                workspace.abandon(token, &mut policies).unwrap();
                black_box(&mut workspace);
            });
            if asked.answers {
                let (op, drop, arg) = made;
                writeln!(text, "proposal {place}: {} {drop} {arg}", op as u8).unwrap();
            }
            told(asked, &mut text, time, &workspace);
        }
        Task::Write => {
            let mut buffer = [0; LONGEST];
            let mut length = 0;
            let time = clock(asked, || {
                length = black_box(&workspace).write_out(black_box(&mut buffer)).unwrap();
                black_box(&mut buffer);
            });
            if asked.answers {
                writeln!(text, "length {length}").unwrap();
                hex_line(&mut text, &buffer[..length]);
            } else {
                time_line(&mut text, time);
            }
        }
        Task::Run => {
            let inputs: Vec<i32> = (0..ROOM as u64).map(|i| ((i * 2_654_435_761) as u32 >> 8) as i32).collect();
            // Written once, so that no page of it is first touched under the clock.
            let mut outputs = vec![0; ROOM];
            black_box(&mut outputs).fill(black_box(0));
            let start = Instant::now();
            let outcome = workspace.run(&inputs, &mut outputs, asked.times).unwrap();
            let time = start.elapsed().as_nanos() as f64;
            if asked.answers {
                let written = &outputs[..outcome.outputs];
                let sum = written.iter().fold(0i32, |sum, output| sum.wrapping_mul(31).wrapping_add(*output));
                writeln!(
                    text,
                    "{:?} place {} steps {} inputs {} outputs {} sum {sum}",
                    outcome.ending, outcome.place, outcome.steps, outcome.inputs, outcome.outputs
                )
                .unwrap();
            } else {
                black_box(&outputs);
                time_line(&mut text, time);
            }
        }
        Task::Solve => {
            let mut facts = [false; PLACES];
            let mut takes = 0;
            let time = clock(asked, || {
                takes = solve(&Line(black_box(n)), &mut facts, &mut policies.types);
                black_box(&mut facts);
            });
            if asked.answers {
                writeln!(text, "takes {takes}").unwrap();
                for fact in &facts[..n] {
                    text.push(if *fact { '1' } else { '0' });
                }
                text.push('\n');
            } else {
                time_line(&mut text, time);
            }
        }
    }
    Ok(text)
}

/// Does a task as often as asked, or once where its answer is wanted; the nanoseconds of one time.
#[inline(always)]
fn clock(asked: &Asked, mut task: impl FnMut()) -> f64 {
    let times = if asked.answers { 1 } else { asked.times };
    let start = Instant::now();
    for _ in 0..times {
        task();
    }
    start.elapsed().as_nanos() as f64 / times.max(1) as f64
}

fn time_line(text: &mut String, time: f64) {
    writeln!(text, "{time:.1}").unwrap();
}

fn hex_line(text: &mut String, bytes: &[u8]) {
    text.push_str("file ");
    for byte in bytes {
        write!(text, "{byte:02x}").unwrap();
    }
    text.push('\n');
}

/// The time, or all that the workspace has.
fn told(asked: &Asked, text: &mut String, time: f64, workspace: &Workspace) {
    if !asked.answers {
        time_line(text, time);
        return;
    }
    let takes = workspace.take_counts().unwrap();
    writeln!(text, "takes {} {} {}", takes.types, takes.constants, takes.live).unwrap();
    let mut buffer = [0; LONGEST];
    let length = workspace.write_out(&mut buffer).unwrap();
    hex_line(text, &buffer[..length]);
    for place in 0..workspace.unit().unwrap().n {
        let (kinds, constants, live) = workspace.facts_at(place).unwrap();
        write!(text, "{place} types ").unwrap();
        kinds_line(text, kinds);
        write!(text, "{place} constants ").unwrap();
        constants_line(text, constants);
        write!(text, "{place} live").unwrap();
        for local in (0..LOCALS).filter(|local| live >> local & 1 != 0) {
            write!(text, " {local}").unwrap();
        }
        text.push('\n');
    }
}

fn frame_line(text: &mut String, stack: &[String], locals: impl Iterator<Item = (usize, String)>) {
    write!(text, "({})", stack.join(" ")).unwrap();
    for (local, cell) in locals {
        write!(text, " {local}={cell}").unwrap();
    }
    text.push('\n');
}

fn kinds_line(text: &mut String, frame: Kinds) {
    if frame == Kinds::UNREACHED {
        text.push_str("Unreached\n");
    } else if frame == Kinds::CLASH {
        text.push_str("Clash\n");
    } else {
        let name = |kind| match kind {
            facts::NUM => "Num".to_string(),
            facts::FLAG => "Flag".to_string(),
            _ => "Unusable".to_string(),
        };
        let stack: Vec<String> = (0..frame.height()).rev().map(|above| name(frame.value(above))).collect();
        let locals = (0..LOCALS).map(|n| (n, frame.local(n))).filter(|(_, kind)| *kind != facts::GREATEST);
        frame_line(text, &stack, locals.map(|(n, kind)| (n, name(kind))));
    }
}

fn constants_line(text: &mut String, frame: &Constants) {
    if !frame.reached() {
        text.push_str("Unreached\n");
    } else if frame.clashed() {
        text.push_str("Clash\n");
    } else {
        let name = |cell| match cell {
            Cell::Varies => "?".to_string(),
            Cell::Number(number) => number.to_string(),
            Cell::Flag(flag) => flag.to_string(),
        };
        let stack: Vec<String> = (0..frame.height() as u32).rev().map(|above| name(frame.value(above))).collect();
        let locals = (0..LOCALS).map(|n| (n, frame.local(n))).filter(|(_, cell)| *cell != Cell::Varies);
        frame_line(text, &stack, locals.map(|(n, cell)| (n, name(cell))));
    }
}
