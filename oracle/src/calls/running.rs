//! Runs, and code behind what has run.

use super::Story;
use crate::generate::Rng;
use crate::limits::Part;
use crate::op::{Op, OPS};

/// More units than any run of a story needs that comes to its end.
pub(super) const PLENTY: u64 = 1_000_000;

impl Story<'_> {
    pub(super) fn is_under_way(&self) -> bool {
        self.machine().under_way.is_some()
    }

    /// The units that a run would spend, if it is not refused.
    pub(super) fn needed(&self) -> u64 {
        let machine = self.console.as_lent();
        machine.map_or(0, |mut machine| machine.run(PLENTY).spent)
    }

    /// The units that the run under way still wants, if it comes to an end.
    pub(super) fn needed_more(&self) -> u64 {
        let mut machine = self.machine().clone();
        let given = machine.under_way.as_ref().map_or(0, |run| run.given);
        match machine.continue_run(PLENTY) {
            Ok(Part::Over(report)) => report.spent.saturating_sub(given),
            _ => 0,
        }
    }

    /// Units: few, many, or just about as many as are needed.
    pub(super) fn units(&mut self) -> u64 {
        let needed = self.needed();
        match self.rng.below(16) {
            0 => self.rng.pick(&[0, 0, 1]),
            1 => self.rng.below(4) as u64,
            2 => self.rng.below(needed as usize + 1) as u64,
            3 => needed.saturating_sub(1),
            4 => needed,
            5 if needed < PLENTY => u64::MAX,
            _ => PLENTY,
        }
    }

    /// A run, its units dealt out by chance; if it is paused at last it gets
    /// what it needs, or is abandoned.
    pub(super) fn run(&mut self) {
        let needed = self.needed();
        let units = self.units();
        self.start();
        self.deal(units);
        if self.is_under_way() && needed < PLENTY && self.rng.chance(50) {
            self.go_on(needed);
        }
        self.give_up();
    }

    /// A run with so many units at once, abandoned if it is then paused.
    pub(super) fn run_with(&mut self, units: u64) {
        self.line("start");
        if self.is_under_way() {
            self.go_on(units);
        }
        self.give_up();
    }

    /// Code is added behind what has run, and run too; some more times.
    pub(super) fn retry(&mut self) {
        for _ in 0..self.rng.between(1, 3) {
            if self.machine().current != 0 {
                self.line("end");
            }
            for _ in 0..self.rng.between(1, 3) {
                self.more();
            }
            self.run();
            self.look();
        }
    }

    /// Some code that may or may not find what it needs.
    pub(super) fn more(&mut self) {
        let constants = self.machine().program.constants.len() as u16;
        let structs = self.machine().program.structs.len() as u16;
        let functions = self.machine().program.functions.len() as u16;
        let any = |rng: &mut Rng, below: u16| rng.below(below as usize + 1) as u16;
        match self.rng.below(14) {
            0 | 11 => self.code(Op::Return, &[]),
            1 | 12 => self.code(Op::GetLastResult, &[]),
            2 => {
                self.code(Op::GetLastResult, &[]);
                let one = any(self.rng, constants);
                self.load(one);
                let op = self.rng.pick(&[Op::Add, Op::Divide, Op::Equal]);
                self.code(op, &[]);
                self.code(Op::Return, &[]);
            }
            3 => {
                // A list that holds the last result twice.
                self.code(Op::GetLastResult, &[]);
                self.code(Op::GetLastResult, &[]);
                self.code(Op::BuildList, &[2]);
                self.code(Op::Return, &[]);
            }
            4 | 5 => {
                let count = self.rng.below(4);
                for _ in 0..count {
                    let one = any(self.rng, constants);
                    self.load(one);
                }
                if self.rng.chance(50) {
                    self.code(Op::BuildList, &[count as u16]);
                } else {
                    let number = any(self.rng, structs);
                    self.code(Op::BuildStructInstance, &[number, count as u16]);
                }
            }
            6 => {
                let field = self.rng.below(3) as u16;
                self.code(Op::AccessStructField, &[field]);
            }
            7 => {
                let number = any(self.rng, functions);
                let count = self.rng.below(3) as u16;
                self.code(Op::Call, &[number, count]);
            }
            8 => {
                let op = self.rng.pick(&[Op::GetLocal, Op::GetUpvalue]);
                let slot = self.rng.below(4) as u16;
                self.code(op, &[slot]);
            }
            9 => {
                let op = self.rng.pick(&OPS);
                self.code(op, &[]);
            }
            _ => {
                let offset = self.rng.pick(&[0, 1, 4, 65_535]);
                self.code(Op::Jump, &[offset]);
            }
        }
    }
}
