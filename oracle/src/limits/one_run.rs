//! Document 01's run: it gets its units at once, and where they do not suffice
//! the fault is 13. Document 02 divides it; however the units are dealt out, the
//! end is the one that is found here, given their sum. It is written for
//! itself: no run in parts is asked.

use std::collections::BTreeSet;

use super::{Answer, Machine, Most, Report, Step};

/// How far a run came: the units of its whole steps, and the values and frames
/// that it then had. Where it ends in 13, that is before the step that it could
/// not pay for.
#[derive(Clone, Copy, Debug, PartialEq, Eq)]
pub struct Reached {
    pub spent: u64,
    pub values: usize,
    pub frames: usize,
}

impl Machine {
    /// Runs until the current frame's code is at its end, or a fault. No run
    /// may be under way.
    pub fn one_run(&mut self, units: u64) -> Report {
        self.one_run_as_far(units).0
    }

    /// The same, and how far it came.
    pub fn one_run_as_far(&mut self, units: u64) -> (Report, Reached) {
        self.unenter();
        let stack_at_start = self.stack.clone();
        let mut cells_to_keep = self.cells_used;
        let mut answer = Answer::Continue;
        let mut spent = 0;
        let mut returns = 0;
        let mut most = Most::default();
        let mut by_name = BTreeSet::new();

        let (fault, reached) = loop {
            most = self.taken_since(most);
            let reached = Reached {
                spent,
                values: self.stack.len(),
                frames: self.frames.len(),
            };
            // The end comes before the units: a run that is over asks none.
            if self.is_at_the_end() {
                let report = Report {
                    answer,
                    spent,
                    returns,
                    backtrace: vec![],
                    most,
                    by_name,
                };
                return (report, reached);
            }
            if spent == units {
                break (13, reached);
            }
            spent += 1;
            match self.step(spent, units - spent) {
                Ok(Step::Done(pairs)) => spent += pairs,
                Ok(Step::CalledByName(function)) => {
                    by_name.insert(function);
                }
                Ok(Step::RootReturn(value)) => {
                    cells_to_keep = self.cells_used;
                    returns += 1;
                    answer = Answer::Value(value);
                }
                Err(fault) => break (fault, reached),
            }
        };

        if fault == 13 {
            spent = units;
        }
        let backtrace = self
            .backtrace()
            .expect("during a run every frame's place lies inside its code");
        self.recover(stack_at_start, cells_to_keep);
        let report = Report {
            answer: Answer::Fault(fault),
            spent,
            returns,
            backtrace,
            most,
            by_name,
        };
        (report, reached)
    }
}
