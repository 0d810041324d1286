//! Small units by hand, and the refusals in the order of their checks.

use crate::machine::{run, Ending};
use crate::solve::{FirstIn, Highest, Policy};
use crate::unit::{Op, Unit, LONGEST};
use crate::workspace::{Policies, Refusal, Token, Workspace};

fn file(locals: u8, code: &[(u8, u8, i32)]) -> Vec<u8> {
    let mut bytes = vec![1, locals];
    bytes.extend((code.len() as u16).to_be_bytes());
    for &(op, drop, arg) in code {
        bytes.extend([op, drop]);
        bytes.extend(arg.to_be_bytes());
    }
    let sum = bytes.iter().map(|byte| *byte as u32).sum::<u32>() % 65_521;
    bytes.extend((sum as u16).to_be_bytes());
    bytes
}

fn policies<P: Policy>(new: fn() -> P) -> Policies<P> {
    Policies { types: new(), constants: new(), live: new() }
}

fn number(refusal: Refusal) -> u8 {
    let text = refusal.to_string();
    text.split(' ').nth(1).unwrap().parse().unwrap()
}

fn refusal(locals: u8, code: &[(u8, u8, i32)]) -> String {
    let loaded = Workspace::new().load(&file(locals, code), &mut policies(FirstIn::new));
    loaded.map_or_else(|refusal| refusal.to_string(), |_| "loaded".to_string())
}

const SAMPLE: [(u8, u8, i32); 5] = [(2, 0, 5), (8, 0, 0), (7, 0, 0), (20, 0, 0), (1, 0, 0)];

fn takes(workspace: &Workspace) -> (u32, u32, u32) {
    let takes = workspace.take_counts().unwrap();
    (takes.types, takes.constants, takes.live)
}

fn written(workspace: &Workspace) -> Vec<u8> {
    let mut buffer = [0; LONGEST];
    let length = workspace.write_out(&mut buffer).unwrap();
    buffer[..length].to_vec()
}

#[test]
fn takes_of_the_sample() {
    let mut workspace = Workspace::new();
    workspace.load(&file(1, &SAMPLE), &mut policies(FirstIn::new)).unwrap();
    assert_eq!(takes(&workspace), (5, 5, 6));
    workspace.load(&file(1, &SAMPLE), &mut policies(Highest::new)).unwrap();
    assert_eq!(takes(&workspace), (9, 9, 5));
}

#[test]
fn attempts() {
    let mut policies = policies(FirstIn::new);
    let mut workspace = Workspace::new();
    assert_eq!(number(workspace.open().unwrap_err()), 2);
    let sample = file(1, &SAMPLE);
    workspace.load(&sample, &mut policies).unwrap();
    let mut outer = workspace.open().unwrap();
    assert_eq!(number(workspace.load(&sample, &mut policies).unwrap_err()), 1);
    assert_eq!(number(workspace.write_out(&mut [0; LONGEST]).unwrap_err()), 1);
    assert_eq!(number(workspace.propose(&mut outer, 5, (Op::Lit, 0, 5), &mut policies).unwrap_err()), 11);
    assert_eq!(number(workspace.propose(&mut outer, 2, (Op::Lit, 0, 6), &mut policies).unwrap_err()), 12);
    workspace.propose(&mut outer, 2, (Op::Lit, 0, 5), &mut policies).unwrap();
    let mut inner = workspace.open().unwrap();
    assert_eq!(number(workspace.tidy(&mut outer, &mut policies).unwrap_err()), 10);
    assert_eq!(workspace.tidy(&mut inner, &mut policies).unwrap(), 1);
    let (refusal, outer) = workspace.keep(outer).unwrap_err();
    assert_eq!(number(refusal), 10);
    workspace.keep(inner).unwrap();
    workspace.abandon(outer, &mut policies).unwrap();
    assert_eq!(written(&workspace), sample);
    assert_eq!(takes(&workspace), (5, 5, 6));

    let mut token = workspace.open().unwrap();
    assert_eq!(workspace.tidy(&mut token, &mut policies).unwrap(), 2);
    assert_eq!(workspace.tidy(&mut token, &mut policies).unwrap(), 0);
    workspace.keep(token).unwrap();
    assert_eq!(written(&workspace), file(1, &[(2, 0, 5), (4, 0, 0), (2, 0, 5), (20, 0, 0), (1, 0, 0)]));
    assert_eq!(number(workspace.write_out(&mut [0; 35]).unwrap_err()), 13);
    assert_eq!(workspace.write_out(&mut [0; 36]).unwrap(), 36);

    let tokens: Vec<Token> = (0..8).map(|_| workspace.open().unwrap()).collect();
    assert_eq!(number(workspace.open().unwrap_err()), 9);
    for token in tokens.into_iter().rev() {
        workspace.abandon(token, &mut policies).unwrap();
    }
    assert_eq!(written(&workspace).len(), 36);
}

#[test]
fn an_unreached_store_becomes_either() {
    let code = [(16, 0, 3), (2, 0, 1), (8, 0, 0), (1, 0, 0)];
    for made in [(Op::Halt, 0, 0), (Op::Pop, 0, 0)] {
        let mut policies = policies(FirstIn::new);
        let mut workspace = Workspace::new();
        workspace.load(&file(1, &code), &mut policies).unwrap();
        let mut token = workspace.open().unwrap();
        workspace.propose(&mut token, 2, made, &mut policies).unwrap();
        workspace.abandon(token, &mut policies).unwrap();
        assert_eq!(written(&workspace), file(1, &code));
    }
}

#[test]
fn refused_files() {
    let load = |bytes: &[u8]| number(Workspace::new().load(bytes, &mut policies(FirstIn::new)).unwrap_err());
    let good = file(1, &SAMPLE);
    assert_eq!(load(&[]), 3);
    assert_eq!(load(&good[..35]), 3);
    assert_eq!(load(&file(0, &[(1, 0, 0); 129])), 3);
    assert_eq!(load(&file(0, &[])), 3);
    assert_eq!(refusal(0, &[(1, 0, 0); 128]), "loaded");
    let mut bad = good.clone();
    bad[10] = 77;
    assert_eq!(load(&bad), 4);
    let mut bad = good.clone();
    bad[0] += 1;
    bad[35] += 1;
    assert_eq!(load(&bad), 5);
    let mut bad = good;
    bad[3] += 1;
    bad[35] += 1;
    assert_eq!(load(&bad), 6);
    assert_eq!(refusal(17, &[(1, 0, 0)]), "refused 5 file place 0");
    assert_eq!(file(0, &[(1, 0, 0)]), [1, 0, 0, 1, 1, 0, 0, 0, 0, 0, 0, 3]);
}

#[test]
fn refused_units() {
    assert_eq!(refusal(0, &[(16, 0, -1)]), "refused 7 unit place 0");
    assert_eq!(refusal(0, &[(16, 0, 0)]), "loaded");
    assert_eq!(refusal(0, &[(0, 0, 0), (21, 0, 0)]), "refused 7 unit place 1");
    assert_eq!(refusal(0, &[(0, 0, 0), (0, 0, 0)]), "refused 7 unit place 1");
    assert_eq!(refusal(1, &[(7, 0, -1), (1, 0, 0)]), "refused 7 unit place 0");
    assert_eq!(refusal(0, &[(7, 0, 0), (1, 0, 0)]), "refused 7 unit place 0");
    assert_eq!(refusal(0, &[(3, 0, 2), (1, 0, 0)]), "refused 7 unit place 0");
    assert_eq!(refusal(0, &[(2, 3, 0), (1, 0, 0)]), "refused 7 unit place 0");
    assert_eq!(refusal(0, &[(16, 0, i32::MIN)]), "refused 7 unit place 0");
    assert_eq!(refusal(0, &[(16, 0, i32::MAX)]), "refused 7 unit place 0");
    assert_eq!(refusal(0, &[(2, 0, i32::MIN), (1, 0, 0)]), "loaded");
    let mut deep = vec![(2, 0, 0); 8];
    deep.push((1, 0, 0));
    assert_eq!(refusal(0, &deep), "loaded");
    deep.insert(0, (2, 0, 0));
    assert_eq!(refusal(0, &deep), "refused 8 verifier place 8 reason 2");
    assert_eq!(refusal(0, &[(2, 0, 0), (3, 0, 0), (9, 0, 0), (1, 0, 0)]), "refused 8 verifier place 2 reason 3");
    assert_eq!(refusal(0, &[(2, 0, 0), (16, 0, -1)]), "refused 8 verifier place 0 reason 4");
    assert_eq!(refusal(0, &[(3, 0, 0), (17, 0, 0), (1, 0, 0)]), "refused 8 verifier place 1 reason 4");
}

#[test]
fn runs() {
    let mut policies = policies(FirstIn::new);
    let mut workspace = Workspace::new();
    let div = |a, b| file(0, &[(2, 0, a), (2, 0, b), (12, 0, 0), (20, 0, 0), (1, 0, 0)]);
    for (a, b, result) in [(7, -2, -3), (i32::MIN, -1, i32::MIN), (-7, 2, -3)] {
        workspace.load(&div(a, b), &mut policies).unwrap();
        let mut outputs = [9; 2];
        let outcome = workspace.run(&[], &mut outputs, 9).unwrap();
        assert_eq!((outcome.ending, outcome.place, outcome.steps, outputs), (Ending::Halted, 4, 4, [result, 9]));
        assert_eq!(workspace.run(&[], &mut [], 9).unwrap().ending, Ending::Full);
        assert_eq!(workspace.run(&[], &mut [], 3).unwrap().ending, Ending::Running);
    }
    workspace.load(&div(1, 0), &mut policies).unwrap();
    let outcome = workspace.run(&[], &mut [], 9).unwrap();
    assert_eq!((outcome.ending, outcome.place, outcome.steps), (Ending::Trapped, 2, 2));
    workspace.load(&file(0, &[(19, 0, 0), (4, 0, 0), (16, 0, -2)]), &mut policies).unwrap();
    let outcome = workspace.run(&[5, 6], &mut [], 99).unwrap();
    assert_eq!((outcome.ending, outcome.place, outcome.steps, outcome.inputs), (Ending::Dry, 0, 6, 2));
}

#[test]
fn stuck_runs() {
    // The verifier refuses these, so the units are read only.
    let stuck = |locals, code: &[(u8, u8, i32)]| {
        let mut unit = Unit::new();
        let mut code = code.to_vec();
        code.push((1, 0, 0));
        unit.read(&file(locals, &code)).unwrap();
        let outcome = run(&unit, &[], &mut [], 99);
        (outcome.ending == Ending::Stuck).then_some(outcome.place)
    };
    assert_eq!(stuck(0, &[(2, 0, 1), (9, 0, 0)]), Some(1));
    assert_eq!(stuck(0, &[(2, 0, 1), (3, 0, 0), (9, 0, 0)]), Some(2));
    assert_eq!(stuck(0, &[(3, 0, 1), (2, 0, 0), (12, 0, 0)]), Some(2));
    assert_eq!(stuck(1, &[(7, 0, 0)]), Some(0));
    assert_eq!(stuck(0, &[(3, 0, 1), (20, 0, 0)]), Some(1));
    assert_eq!(stuck(0, &[(2, 0, 1), (15, 0, 0)]), Some(1));
    assert_eq!(stuck(0, &[(2, 0, 1), (17, 0, 1)]), Some(1));
    assert_eq!(stuck(0, &[(3, 0, 1), (4, 0, 0), (17, 0, 1)]), Some(2));
    assert_eq!(stuck(0, &[(3, 0, 1), (4, 0, 0), (15, 0, 0)]), Some(2));
    assert_eq!(stuck(0, &[(2, 0, 1), (6, 0, 0)]), Some(1));
    assert_eq!(stuck(0, &[(2, 0, 1), (2, 2, 1)]), Some(1));
    for (op, arg) in [(4, 0), (5, 0), (8, 0), (18, 1), (20, 0)] {
        assert_eq!(stuck(1, &[(op, 0, arg)]), Some(0));
    }
    for op in [2, 3, 5, 19] {
        let mut code = vec![(2, 0, 1); 8];
        code.push((op, 0, 0));
        assert_eq!(stuck(0, &code), Some(8));
    }
    let mut code = vec![(2, 0, 1), (8, 0, 0)];
    code.extend([(2, 0, 1); 8]);
    code.push((7, 0, 0));
    assert_eq!(stuck(1, &code), Some(10));
    assert_eq!(stuck(0, &[(2, 0, 1), (2, 0, 1), (6, 0, 0), (9, 0, 0), (4, 0, 0)]), None);
}
