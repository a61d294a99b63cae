//! Dealt runs as scripts for the console, and what it has to answer. The
//! script deals units out; each answer is that of document 01's undivided run
//! given the units of all parts so far: no run in parts is asked. And whole runs
//! on strict machines, likewise.

use super::{deal, units};
use crate::console::{said_of, Console};
use crate::generate::{self, Rng};
use crate::limits::{Answer, Machine, Part};
use crate::print::{self, UNITS};
use crate::script::in_hex;

/// The most units of a run that may not come to its end by itself: the console
/// may be an emulated program.
const MANY: u64 = 6_000;
/// The most bytes of an image, so that a script has many.
const LONGEST: usize = 1_000;
/// The most runs of an image, each from where the one before has left it, but
/// at the start of main.
const RUNS: usize = 8;

/// A script of some runs, and its answers.
#[derive(Default)]
pub struct Scripted {
    pub script: String,
    pub answers: String,
    pub runs: u64,
}

/// What is made of an image.
type Tell = fn(&[u8], Machine, &mut Rng) -> Scripted;

/// The script of a seed, of at most so many bytes: runs in parts, on machines
/// that are strict or not.
pub fn scripted(seed: u64, most: usize) -> Scripted {
    script_of(seed, most, dealt_runs)
}

/// The same of whole runs on strict machines, given the runner's units.
pub fn strict(seed: u64, most: usize) -> Scripted {
    script_of(seed, most, strict_run)
}

fn script_of(seed: u64, most: usize, tell: Tell) -> Scripted {
    let mut all = Scripted::default();
    for index in 0.. {
        let image = generate::case(seed, index);
        let Ok(machine) = print::load(&image) else {
            continue;
        };
        if image.len() > LONGEST {
            continue;
        }
        // Chance that does not depend on the image's.
        let mut rng = Rng::new(!seed, index);
        let told = tell(&image, machine, &mut rng);
        if all.script.len() + told.script.len() > most {
            break;
        }
        all.script += &told.script;
        all.answers += &told.answers;
        all.runs += told.runs;
    }
    all
}

fn dealt_runs(image: &[u8], machine: Machine, rng: &mut Rng) -> Scripted {
    let mut told = Telling::of(image, machine, rng);
    for run in 0..told.rng.between(1, RUNS) {
        match told.rng.below(4) {
            0 => told.look("strict 0"),
            1 => told.look("strict 1"),
            _ => {}
        }
        if run > 0 {
            // A beginning sets to 0 when the frame was entered.
            let entered = told.rng.below(3);
            told.look(&format!("frame 0 0 0 0 {entered}"));
            told.look("count frames 1");
        }
        told.run();
    }
    told.told
}

fn strict_run(image: &[u8], machine: Machine, rng: &mut Rng) -> Scripted {
    let mut told = Telling::of(image, machine, rng);
    told.look("strict 1");
    let lent = told.console.as_lent();
    let machine = lent.expect("a loaded machine is in good order");
    let after = match told.part("start", &machine, 0) {
        Some(after) => after,
        None => told.given(&machine, [UNITS].into_iter()),
    };
    told.console = Console::of(after);
    told.told.runs += 1;
    told.look("last");
    told.told
}

struct Telling<'a> {
    /// Its machine is the one that undivided runs have left.
    console: Console,
    told: Scripted,
    rng: &'a mut Rng,
}

impl<'a> Telling<'a> {
    fn of(image: &[u8], machine: Machine, rng: &'a mut Rng) -> Telling<'a> {
        let mut told = Telling {
            console: Console::of(machine),
            told: Scripted::default(),
            rng,
        };
        told.line(&format!("image {}", in_hex(image)), "done\n");
        told
    }

    fn line(&mut self, line: &str, answer: &str) {
        self.told.script += line;
        self.told.script.push('\n');
        self.told.answers += answer;
    }

    /// A line that runs nothing.
    fn look(&mut self, line: &str) {
        let said = self.console.obey(0, line.as_bytes());
        let said = said.expect("the rules fix what is looked at");
        self.line(line, &String::from_utf8_lossy(&said));
    }

    fn run(&mut self) {
        let machine = self.console.as_lent();
        let machine = machine.expect("an undivided run leaves it in good order");
        let after = self.dealt(&machine);
        let (height, frames) = (after.stack.len(), after.frames.len());
        self.console = Console::of(after);
        self.told.runs += 1;
        if self.rng.chance(50) {
            self.look("last");
        }
        if self.rng.chance(30) && height > 0 {
            let place = self.rng.below(height);
            self.look(&format!("stack {place}"));
        }
        if self.rng.chance(30) {
            let frame = self.rng.below(frames);
            self.look(&format!("frame {frame}"));
        }
    }

    /// The parts of a run, and the machine that one run has left.
    fn dealt(&mut self, machine: &Machine) -> Machine {
        let needed = machine.clone().one_run(MANY);
        let ends = !matches!(needed.answer, Answer::Fault(13));
        let sum = units(self.rng, needed.spent, ends);
        if let Some(after) = self.part("start", machine, 0) {
            return after;
        }
        let parts = deal(self.rng, sum);
        self.given(machine, parts.into_iter())
    }

    /// The parts behind the beginning; abandoned where it is then paused.
    fn given(&mut self, machine: &Machine, parts: impl Iterator<Item = u64>) -> Machine {
        let mut given = 0;
        for units in parts {
            given += units;
            if let Some(after) = self.part(&format!("continue {units}"), machine, given) {
                return after;
            }
        }
        let mut after = machine.clone();
        let report = Part::Over(after.one_run(given));
        let said = said_of(&report, after.stack.len(), after.frames.len());
        self.line("abandon", &said);
        after
    }

    /// A part, by one run given the units of all parts up to this: paused where
    /// that run ends in 13.
    fn part(&mut self, line: &str, machine: &Machine, given: u64) -> Option<Machine> {
        let mut one = machine.clone();
        let (report, reached) = one.one_run_as_far(given);
        if matches!(report.answer, Answer::Fault(13)) {
            let paused = Part::Paused {
                spent: reached.spent,
                returns: report.returns,
            };
            self.line(line, &said_of(&paused, reached.values, reached.frames));
            return None;
        }
        let said = said_of(&Part::Over(report), one.stack.len(), one.frames.len());
        self.line(line, &said);
        Some(one)
    }
}
