//! The law of dealing (document 02, Wish 4), looked for in generated images:
//! however units are dealt out, zero included, the end is that of one run given
//! their sum, but paused where that run ends in 13; and abandoned, the paused
//! run ends as that one does. The one run is document 01's, undivided.

pub mod scripts;

use std::collections::BTreeMap;

use crate::generate::{self, Rng};
use crate::limits::{Answer, Frame, Machine, Part, Refused, Report};
use crate::op::Op;
use crate::print;
use crate::value::{Elements, Value};

/// The most units of a run that may not come to its end by itself.
const MANY: u64 = 20_000;
/// The most parts of a run.
const PARTS: usize = 40;

/// What was seen, and how often; and each difference.
#[derive(Default)]
pub struct Count {
    /// By the number of a fault, or 0, and by words.
    pub seen: BTreeMap<(u32, String), u64>,
    pub differences: Vec<String>,
}

impl Count {
    fn add(&mut self, what: impl Into<String>) {
        *self.seen.entry((0, what.into())).or_default() += 1;
    }

    fn add_ending(&mut self, answer: &Answer) {
        let (number, how) = match answer {
            Answer::Value(_) => (0, "ended in a value".to_owned()),
            Answer::Continue => (0, "ended in continue".to_owned()),
            Answer::Fault(13) => (13, "were abandoned, fault 13".to_owned()),
            Answer::Fault(number) => (*number, format!("ended in fault {number}")),
        };
        let what = (number, format!("runs that {how}"));
        *self.seen.entry(what).or_default() += 1;
    }
}

/// Makes so many runs, of the images of a seed that can be loaded.
pub fn runs(seed: u64, count: u64) -> Count {
    let mut counted = Count::default();
    let mut made = 0;
    for index in 0.. {
        if made == count {
            break;
        }
        match print::load(&generate::case(seed, index)) {
            Ok(mut machine) => {
                // Chance that does not depend on the image's.
                let mut rng = Rng::new(!seed, index);
                if rng.chance(30) {
                    counted.add("runs that find values on the stack, and a last result");
                    put_values(&mut machine, &mut rng);
                }
                if rng.chance(50) {
                    counted.add("runs on a strict machine");
                    machine.strict = true;
                }
                if rng.chance(10) && put_frames(&mut machine, &mut rng) {
                    counted.add("runs that find frames of an earlier run, entered at some units");
                }
                let difference = Run::new(&machine, &mut rng).compare(&mut counted);
                let difference = difference.map(|words| format!("image {index}: {words}"));
                counted.differences.extend(difference);
                made += 1;
            }
            Err(_) => counted.add("images that are refused, so not run"),
        }
    }
    counted
}

/// What an earlier run might have left: scalars and lists of one element, and
/// a last result.
fn put_values(machine: &mut Machine, rng: &mut Rng) {
    let one = Value::Scalar(1.0);
    for _ in 0..rng.between(1, 4) {
        let value = match rng.below(3) {
            0 => {
                machine.cells_used += 2;
                Value::List(Elements::new(vec![one.clone()]))
            }
            1 => Value::Boolean(true),
            _ => one.clone(),
        };
        machine.stack.push(value);
    }
    machine.last_result = machine.stack.first().cloned();
}

/// What an earlier run might have left that ended in a callee: frames that it
/// entered at some units. Not if main has no code.
fn put_frames(machine: &mut Machine, rng: &mut Rng) -> bool {
    let mut frames = vec![];
    let mut entered = 0;
    for inwards in 0..rng.between(1, 3) {
        entered += rng.below(9) as u64;
        let function = match inwards {
            0 => 0,
            _ => rng.below(machine.program.functions.len()),
        };
        let length = machine.program.functions[function].code.len();
        if length == 0 {
            break;
        }
        frames.push(Frame {
            function,
            position: rng.between(1, length),
            base: match inwards {
                0 => 0,
                _ => rng.below(machine.stack.len() + 1),
            },
            entered,
        });
    }
    let some = !frames.is_empty();
    if some {
        machine.frames = frames;
    }
    some
}

/// One run, and how its units are dealt out.
struct Run<'a> {
    machine: &'a Machine,
    parts: Vec<u64>,
    rng: &'a mut Rng,
}

impl<'a> Run<'a> {
    fn new(machine: &'a Machine, rng: &'a mut Rng) -> Run<'a> {
        let needed = machine.clone().one_run(MANY);
        let ends = !matches!(needed.answer, Answer::Fault(13));
        let sum = units(rng, needed.spent, ends);
        Run {
            machine,
            parts: deal(rng, sum),
            rng,
        }
    }

    /// The first difference between the one run and the run in parts.
    fn compare(mut self, counted: &mut Count) -> Option<String> {
        let mut one = self.machine.clone();
        let sum = self.parts.iter().sum();
        let expected = one.one_run(sum);
        let mut machine = self.machine.clone();
        let report = match self.dealt(&mut machine, counted) {
            Ok(report) => report,
            Err(words) => return Some(words),
        };
        let abandoned = report.is_none();
        if abandoned != matches!(expected.answer, Answer::Fault(13)) {
            return Some(format!("paused: {abandoned}, but {expected:?}"));
        }
        counted.add_ending(&expected.answer);
        let report = report.or_else(|| machine.abandon_run().ok());
        match report {
            Some(report) if same_report(&report, &expected) && same_state(&machine, &one) => None,
            report => Some(format!(
                "given {:?}: {report:?}, not {expected:?}",
                self.parts
            )),
        }
    }

    /// The run in parts: its end, or none if it is paused at last.
    fn dealt(
        &mut self,
        machine: &mut Machine,
        counted: &mut Count,
    ) -> Result<Option<Report>, String> {
        let mut returned_before = 0;
        let mut given: u64 = 0;
        match machine.begin_run().map_err(refused)? {
            Part::Over(report) => {
                counted.add("runs that are over at once");
                return Ok(Some(report));
            }
            Part::Paused { spent, returns } => {
                self.pause(machine, given, (spent, returns), counted)?;
            }
        }
        for units in self.parts.clone() {
            if self.rng.chance(10) {
                self.refused_in_pause(machine, given, counted)?;
            }
            counted.add("parts");
            if units == 0 {
                counted.add("parts of no units");
            }
            given += units;
            match machine.continue_run(units).map_err(refused)? {
                Part::Over(report) => {
                    if returned_before > 0 && report.returns == returned_before {
                        counted.add("ends behind the part of the last root Return");
                    }
                    return Ok(Some(report));
                }
                Part::Paused { spent, returns } => {
                    self.pause(machine, given, (spent, returns), counted)?;
                    returned_before = returns;
                }
            }
        }
        Ok(None)
    }

    /// The paused machine is the one that has got all these units at once, and
    /// stands before an instruction that costs more than is left.
    fn pause(
        &mut self,
        machine: &Machine,
        given: u64,
        paused: (u64, u64),
        counted: &mut Count,
    ) -> Result<(), String> {
        counted.add("pauses");
        let record = machine
            .under_way
            .as_ref()
            .map(|run| (run.given, run.spent, run.returns));
        if record != Some((given, paused.0, paused.1)) {
            return Err(format!("given {given}, {paused:?}, but {record:?}"));
        }
        let left = given - paused.0;
        let frame = machine.frames.last().expect("there is always a frame");
        let ahead = machine.program.functions[frame.function]
            .code
            .get(frame.position);
        let Some(op) = ahead else {
            return Err(format!("paused at an end, {frame:?}"));
        };
        if left > 0 {
            counted.add("pauses with units left, before a comparison");
            let op = Op::from_byte(*op);
            if !matches!(op, Some(Op::Equal | Op::NotEqual)) {
                return Err(format!("{left} units left before {op:?}"));
            }
        }
        if self.rng.chance(20) {
            counted.add("pauses compared with those of a run given all at once");
            let mut once = self.machine.clone();
            once.begin_run().map_err(refused)?;
            match once.continue_run(given).map_err(refused)? {
                Part::Paused { spent, returns }
                    if (spent, returns) == paused && same_state(machine, &once) => {}
                part => return Err(format!("given {given}: {part:?}, not {paused:?}")),
            }
        }
        Ok(())
    }

    /// Calls that are refused while a run is under way; what follows shows that
    /// they have changed nothing.
    fn refused_in_pause(
        &mut self,
        machine: &mut Machine,
        given: u64,
        counted: &mut Count,
    ) -> Result<(), String> {
        let (number, refused) = match self.rng.below(5) {
            0 => (25, machine.begin_run().err()),
            4 => {
                let strict = self.rng.chance(50);
                (25, machine.set_strict(strict).err())
            }
            1 => (25, machine.emit(255, &[], 0).err()),
            2 => (25, machine.patch_u16_value_at(u16::MAX, 0).err()),
            _ if given > 0 => {
                let units = self.rng.pick(&[u64::MAX - given + 1, u64::MAX]);
                (22, machine.continue_run(units).err())
            }
            _ => (25, machine.end_function().err()),
        };
        counted.add(format!("calls refused {number} in a pause"));
        match refused {
            Some(refused) if refused.number() == number => Ok(()),
            other => Err(format!("{other:?}, not refused {number}")),
        }
    }
}

fn refused(refused: Refused) -> String {
    format!("refused {}", refused.number())
}

/// The units of a run: none, few, around those that it needs, or many; where it
/// comes to its end by itself also all that there can be.
fn units(rng: &mut Rng, needed: u64, ends: bool) -> u64 {
    match rng.below(10) {
        0 => rng.below(4) as u64,
        1..=3 => rng.draw() % (needed + 1),
        4 => needed.saturating_sub(1),
        5 => needed,
        6 => needed + 1,
        7 if ends => u64::MAX,
        8 if ends => u64::MAX - rng.below(9) as u64,
        _ => needed + rng.below(9) as u64,
    }
}

/// So many units in parts, some of them of none.
fn deal(rng: &mut Rng, sum: u64) -> Vec<u64> {
    let mut parts = vec![];
    let mut left = sum;
    let (most, size) = match rng.below(4) {
        // One by one, as far as that goes.
        0 => (PARTS, 1),
        1 => (PARTS, rng.between(2, 9) as u64),
        2 => (rng.between(1, 4), sum / 2 + 1),
        _ => (rng.between(2, 9), sum / 4 + 1),
    };
    while left > 0 && parts.len() < most {
        let units = (rng.draw() % size.saturating_add(1)).min(left);
        parts.push(units);
        left -= units;
    }
    parts.push(left);
    if rng.chance(30) {
        parts.push(0);
    }
    parts
}

fn same_report(left: &Report, right: &Report) -> bool {
    let answer = match (&left.answer, &right.answer) {
        (Answer::Value(left), Answer::Value(right)) => left.same(right),
        (Answer::Continue, Answer::Continue) => true,
        (Answer::Fault(left), Answer::Fault(right)) => left == right,
        _ => false,
    };
    answer
        && left.spent == right.spent
        && left.returns == right.returns
        && left.backtrace == right.backtrace
}

fn same_state(left: &Machine, right: &Machine) -> bool {
    let last = match (&left.last_result, &right.last_result) {
        (Some(left), Some(right)) => left.same(right),
        (None, None) => true,
        _ => false,
    };
    last && same_values(&left.stack, &right.stack)
        && left.frames == right.frames
        && left.cells_used == right.cells_used
}

fn same_values(left: &[Value], right: &[Value]) -> bool {
    left.len() == right.len() && left.iter().zip(right).all(|(l, r)| l.same(r))
}
