//! Rule 6 of the check against the document's own words: all paths of a
//! function, each walked to its end with nothing remembered of the others.

mod common;

use std::collections::BTreeSet;

use common::{number, program};
use oracle::check::{judge, Broken};
use oracle::checked_runs::{run, tally, UNITS};
use oracle::generate_checked::case;
use oracle::image::{image, Constant, Function, Program};
use oracle::op::Op;
use oracle::print;

/// What an opcode pops and pushes, its operands being a and b.
fn effect(op: Op, a: usize, b: usize) -> (usize, usize) {
    match op as u8 {
        0 | 3 | 4 | 5 => (0, 1),
        6 | 22 | 35 => (1, 1),
        8..=11 | 14..=21 => (2, 1),
        26 | 37 => (1, 0),
        27 => (0, 0),
        28 | 34 => (b, 1),
        36 => (a, 1),
        other => panic!("{other} is not let through by the rules before"),
    }
}

/// A function's code, and what was met on its paths.
struct Walk<'a> {
    code: &'a [u8],
    in_main: bool,
    /// Position and height, of all paths.
    met: BTreeSet<(usize, usize)>,
    wrong: bool,
    /// How many more steps may be walked: paths double at each condition.
    steps: usize,
}

impl Walk<'_> {
    fn word(&self, at: usize) -> usize {
        let byte = |at: usize| usize::from(self.code.get(at).copied().unwrap_or(0));
        byte(at) + 256 * byte(at + 1)
    }

    fn from(&mut self, position: usize, height: usize) {
        self.met.insert((position, height));
        if self.steps == 0 || self.wrong {
            return;
        }
        self.steps -= 1;
        if position == self.code.len() {
            self.wrong |= !self.in_main;
            return;
        }
        let op = Op::from_byte(self.code[position]).expect("it is an opcode");
        let (a, b) = (self.word(position + 1), self.word(position + 3));
        let (pops, pushes) = effect(op, a, b);
        if pops > height || op == Op::GetLocal && a >= height {
            self.wrong = true;
            return;
        }
        let behind = position + 1 + 2 * op.operands_read();
        let after = height - pops + pushes;
        match op {
            Op::Return if !self.in_main => {}
            Op::Jump => self.from(behind + a, after),
            Op::JumpIfFalse => {
                self.from(behind, after);
                self.from(behind + a, after);
            }
            _ => self.from(behind, after),
        }
    }
}

/// The greatest height of a function; none if it breaks rule 6. The outer
/// none: it has too many paths to walk them all.
fn by_paths(function: &Function, count: usize, in_main: bool) -> Option<Option<usize>> {
    let mut walk = Walk {
        code: &function.code,
        in_main,
        met: BTreeSet::new(),
        wrong: false,
        steps: 20_000,
    };
    walk.from(0, count);
    let positions: BTreeSet<usize> = walk.met.iter().map(|(position, _)| *position).collect();
    if walk.wrong || positions.len() < walk.met.len() {
        return Some(None);
    }
    let greatest = walk.met.iter().map(|(_, height)| *height).max();
    (walk.steps > 0).then_some(greatest)
}

/// How many values a function is passed by the first Call of it.
fn count_of(program: &Program, called: usize) -> usize {
    for function in &program.functions {
        let code = &function.code;
        let mut at = 0;
        while at < code.len() {
            let op = Op::from_byte(code[at]).expect("it is an opcode");
            let word = |at: usize| usize::from(code[at]) + 256 * usize::from(code[at + 1]);
            if op == Op::Call && word(at + 1) == called {
                return word(at + 3);
            }
            at += 1 + 2 * op.operands_read();
        }
    }
    0
}

#[test]
fn heights_are_those_of_all_paths() {
    let mut compared = (0, 0);
    for index in 0..6_000 {
        let Ok(machine) = print::load(&case(3, index)) else {
            continue;
        };
        let program = machine.program;
        let judged = judge(&program);
        if judged.as_ref().is_err_and(|broken| broken.rule < 6) {
            continue;
        }
        let functions = program.functions.iter().enumerate();
        let walked: Option<Vec<Option<usize>>> = functions
            .map(|(number, function)| by_paths(function, count_of(&program, number), number == 0))
            .collect();
        let Some(walked) = walked else {
            continue;
        };
        match walked.iter().position(Option::is_none) {
            None => {
                let passed = judged.expect("by all paths it is in order");
                let greatest: Vec<usize> = walked.into_iter().flatten().collect();
                assert_eq!(passed.greatest_heights, greatest, "image {index}");
                compared.0 += 1;
            }
            Some(function) => {
                assert_eq!(judged, Err(Broken { rule: 6, function }), "image {index}");
                compared.1 += 1;
            }
        }
    }
    assert!(compared.0 > 2_000 && compared.1 > 1_000, "{compared:?}");
}

/// Enough of each sort, so that comparing on them says something.
#[test]
fn the_images_have_every_answer() {
    let tally = tally(11, 5_000, UNITS);
    assert_eq!(tally.violations, [""; 0]);
    assert!(3 * tally.passed_rules_1_to_5() >= tally.images);
    assert!(5 * tally.passed >= tally.images);
    for refusal in ["refused 20", "refused 21"] {
        assert!(tally.refused.contains_key(refusal), "{refusal}");
    }
    for rule in 1..=6 {
        let count = tally.refused.get(&format!("refused 40 rule {rule}"));
        assert!(count.is_some_and(|count| *count >= 100), "{rule}");
    }
    for ending in ["value", "continue", "fault 6", "fault 10", "fault 13"] {
        assert!(tally.endings.contains_key(ending), "{ending}");
    }
}

// What a pass promises is really looked for.

/// The image, and what the check says of it.
fn passed(codes: &[&str]) -> (Vec<u8>, oracle::check::Passed) {
    let program = program(&[number(1.0), Constant::Boolean(true)], codes);
    let passed = judge(&program).expect("it passes");
    (image(&program), passed)
}

#[track_caller]
fn breach(codes: &[&str], of: &[&str], words: &str) {
    let (_, said) = passed(of);
    let run_of = image(&program(&[number(1.0), Constant::Boolean(true)], codes));
    let (_, violation) = run(&run_of, &said, UNITS);
    let violation = violation.expect("it is a breach");
    assert!(violation.contains(words), "{violation}");
}

#[test]
fn a_good_run_is_no_breach() {
    let (image, said) = passed(&["00 00 00 1C 01 00 01 00 25", "03 00 00 25"]);
    assert_eq!(run(&image, &said, UNITS), ("value".to_owned(), None));
    let (image, said) = passed(&["04 07 00"]);
    assert_eq!(run(&image, &said, UNITS), ("fault 6".to_owned(), None));
    let (image, said) = passed(&["22 00 00 00 00 23 00 00"]);
    assert_eq!(run(&image, &said, UNITS), ("fault 6".to_owned(), None));
}

/// Programs run against what the check says of others.
#[test]
fn a_breach_is_seen() {
    let good = "00 00 00 00 00 00 08 25";
    // Higher than the greatest height, in main and in a callee.
    breach(
        &["00 00 00 00 00 00 00 00 00"],
        &[good],
        "has 3 values, above 2",
    );
    breach(
        &["1C 01 00 00 00", "00 00 00 00 00 00 25"],
        &["1C 01 00 00 00", "00 00 00 06 06 06 25"],
        "has 2 values, above 1",
    );
    // Not as high as is known there, though not above the greatest.
    breach(
        &["00 00 00 25 00 00 00 25"],
        &["00 00 00 06 04 00 00 25"],
        "is 0 high and not Some(Some(1))",
    );
    // Below its base.
    breach(
        &["00 01 00 1C 01 00 00 00", "1A 00 00 05 25"],
        &["00 01 00 1C 01 00 00 00", "1B 00 00 05 25"],
        "ends below its base",
    );
    // The faults.
    breach(&["26"], &["05"], "fault 1 at");
    breach(&["01 00 00"], &["00 00 00"], "fault 2 at");
    breach(&["00"], &["05"], "fault 3 at");
    breach(&["06"], &["05"], "fault 4 at");
    breach(&["00 09 00"], &["00 00 00"], "fault 6 at");
    breach(&["03 00 00"], &["00 00 00"], "fault 6 at");
}
