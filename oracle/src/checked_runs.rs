//! What the check promises of a program that has passed, looked for in runs:
//! faults 1 to 4 and 14 never come, 6 comes only from GetUpvalue or a field,
//! and no frame exceeds its function's greatest height. More than that, at
//! each step every frame is exactly as high as the check says it is there.

use std::collections::BTreeMap;

use crate::check::{self, Broken, Passed, Refusal};
use crate::generate_checked;
use crate::limits::{Answer, Frame, Machine};
use crate::op::Op;
use crate::print;

/// The units of each run, if nobody says how many. Those that need more call
/// themselves again and again.
pub const UNITS: u64 = 10_000;

/// What became of the images of a seed.
#[derive(Debug, Default)]
pub struct Tally {
    pub images: u64,
    pub passed: u64,
    /// How many were refused, by the words of the refusal.
    pub refused: BTreeMap<String, u64>,
    /// How many runs of passed programs ended so.
    pub endings: BTreeMap<String, u64>,
    /// What must not happen, each with the number of its image.
    pub violations: Vec<String>,
}

impl Tally {
    /// Those that passed, and those that only the sixth rule refused.
    pub fn passed_rules_1_to_5(&self) -> u64 {
        self.passed + self.refused.get(&of_rule(6)).unwrap_or(&0)
    }
}

fn of_rule(rule: u32) -> String {
    format!("refused 40 rule {rule}")
}

/// Checks the generated images, and runs those that pass.
pub fn tally(seed: u64, count: u64, units: u64) -> Tally {
    let mut tally = Tally::default();
    for index in 0..count {
        let image = generate_checked::case(seed, index);
        tally.images += 1;
        match check::check(&image) {
            Ok(passed) => {
                tally.passed += 1;
                let (ending, violation) = run(&image, &passed, units);
                *tally.endings.entry(ending).or_default() += 1;
                let violation = violation.map(|words| format!("image {index}: {words}"));
                tally.violations.extend(violation);
            }
            Err(refusal) => *tally.refused.entry(words(refusal)).or_default() += 1,
        }
    }
    tally
}

fn words(refusal: Refusal) -> String {
    match refusal {
        Refusal::Loading(refused) => format!("refused {}", refused.number()),
        Refusal::Rule(Broken { rule, .. }) => of_rule(rule),
    }
}

/// Runs a passed image on a freshly loaded machine: how it ended, and the
/// first thing that must not have happened.
pub fn run(image: &[u8], passed: &Passed, units: u64) -> (String, Option<String>) {
    let mut machine = print::load(image).expect("what has passed is loaded");
    let mut violation = None;
    let mut innermost = machine.frames[0].clone();
    let report = machine.run_watched(units, |machine| {
        if violation.is_none() {
            violation = wrong_height(machine, passed);
        }
        innermost.clone_from(machine.frames.last().expect("there is always a frame"));
    });
    let ending = match report.answer {
        Answer::Value(_) => "value".to_owned(),
        Answer::Continue => "continue".to_owned(),
        Answer::Fault(fault) => {
            let violation_by_fault = wrong_fault(fault, &machine, &innermost);
            violation = violation.or(violation_by_fault);
            format!("fault {fault}")
        }
    };
    (ending, violation)
}

/// A frame whose part of the stack is not as high as the check says. A frame's
/// part goes from its base to that of the next inner frame, or to the top.
fn wrong_height(machine: &Machine, passed: &Passed) -> Option<String> {
    let inner_bases = machine.frames[1..].iter().map(|frame| frame.base);
    let tops = inner_bases.chain([machine.stack.len()]);
    let innermost = machine.frames.len() - 1;
    for (index, (frame, top)) in machine.frames.iter().zip(tops).enumerate() {
        let Some(part) = top.checked_sub(frame.base) else {
            return Some(format!("{frame:?} ends below its base, at {top}"));
        };
        let greatest = passed.greatest_heights[frame.function];
        if part > greatest {
            return Some(format!("{frame:?} has {part} values, above {greatest}"));
        }
        // A caller stands behind its Call, where it will have one value more.
        let height = part + usize::from(index != innermost);
        let known = passed.heights[frame.function].get(frame.position);
        if known != Some(&Some(height)) {
            return Some(format!("{frame:?} is {height} high and not {known:?}"));
        }
    }
    None
}

/// A fault that no passed program has. The frame is that of the step at fault,
/// as it was before it.
fn wrong_fault(fault: u32, machine: &Machine, frame: &Frame) -> Option<String> {
    let code = &machine.program.functions[frame.function].code;
    let op = code.get(frame.position).copied().and_then(Op::from_byte);
    let allowed = match fault {
        1..=4 | 14 => false,
        6 => matches!(op, Some(Op::GetUpvalue | Op::AccessStructField)),
        _ => true,
    };
    (!allowed).then(|| format!("fault {fault} at {frame:?}, {op:?}"))
}
