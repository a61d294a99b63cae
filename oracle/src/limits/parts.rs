//! A run in parts (document 02, Wish 4): begun, continued with units as they
//! come, and perhaps abandoned.

use std::collections::BTreeSet;

use super::{Answer, Entry, Machine, Most, Refused, Report, Step};
use crate::run_record::RunRecord;
use crate::value::Value;

/// What a run under way has to remember between its parts.
#[derive(Clone, Debug)]
pub struct Run {
    /// All units given so far, spent or not.
    pub given: u64,
    pub spent: u64,
    /// The root Returns completed so far.
    pub returns: u64,
    /// The value of the last of them, in whichever part it came.
    returned: Option<Value>,
    /// The cells taken when it came, or when the run was begun.
    pub cells_to_keep: usize,
    most: Most,
    by_name: BTreeSet<usize>,
}

impl Run {
    /// A run that was given nothing yet.
    pub fn begun(machine: &Machine) -> Run {
        Run {
            given: 0,
            spent: 0,
            returns: 0,
            returned: None,
            cells_to_keep: machine.cells_used,
            most: Most::default(),
            by_name: BTreeSet::new(),
        }
    }

    /// The run that a host's words say: the last result is that of its last
    /// root Return, if it has had one.
    pub fn of_record(words: &RunRecord, machine: &Machine) -> Run {
        let returned = machine.last_result.clone();
        Run {
            given: words.given,
            spent: words.spent,
            returns: words.returns,
            returned: returned.filter(|_| words.returns > 0),
            cells_to_keep: words.mark as usize,
            most: Most::default(),
            by_name: BTreeSet::new(),
        }
    }

    pub fn units_left(&self) -> u64 {
        self.given - self.spent
    }

    fn over(self, answer: Answer, backtrace: Vec<Entry>) -> Report {
        Report {
            answer,
            spent: self.spent,
            returns: self.returns,
            backtrace,
            most: self.most,
            by_name: self.by_name,
        }
    }
}

/// What beginning and continuing answer.
#[derive(Clone, Debug)]
pub enum Part {
    /// Out of units, and standing before the instruction that it could not pay
    /// for: what the run has spent so far, and its root Returns so far.
    Paused { spent: u64, returns: u64 },
    /// The end of the whole run.
    Over(Report),
}

impl Machine {
    /// 25 if a run is under way.
    pub fn no_run_under_way(&self) -> Result<(), Refused> {
        match self.under_way {
            Some(_) => Err(Refused::UnderWay),
            None => Ok(()),
        }
    }

    /// 18 if no run is under way.
    pub fn a_run_under_way(&self) -> Result<(), Refused> {
        match self.under_way {
            Some(_) => Ok(()),
            None => Err(Refused::NoRun),
        }
    }

    /// Copies the stack, sets to 0 when each frame was entered, and takes no
    /// units. A run that is at its end is over at once.
    pub fn begin_run(&mut self) -> Result<Part, Refused> {
        self.no_run_under_way()?;
        self.copy = self.stack.clone();
        self.unenter();
        self.under_way = Some(Run::begun(self));
        self.continue_run(0)
    }

    /// Goes on with so many units more, and those that were left: to the end,
    /// a fault, or an instruction that cannot be paid for.
    pub fn continue_run(&mut self, units: u64) -> Result<Part, Refused> {
        self.continue_watched(units, |_| ())
    }

    /// The same, shown to somebody before each step and at its end.
    pub fn continue_watched(
        &mut self,
        units: u64,
        mut watch: impl FnMut(&Machine),
    ) -> Result<Part, Refused> {
        let mut run = self.under_way.clone().ok_or(Refused::NoRun)?;
        run.given = run.given.checked_add(units).ok_or(Refused::Limit)?;
        self.under_way = None;
        loop {
            run.most = self.taken_since(run.most);
            watch(self);
            // The end comes before the units: a run that is over asks none.
            if self.is_at_the_end() {
                let answer = run.returned.clone().map_or(Answer::Continue, Answer::Value);
                return Ok(Part::Over(run.over(answer, vec![])));
            }
            if run.units_left() == 0 {
                return Ok(self.paused(run));
            }
            match self.step(run.spent + 1, run.units_left() - 1) {
                Ok(Step::Done(pairs)) => run.spent += 1 + pairs,
                Ok(Step::CalledByName(function)) => {
                    run.spent += 1;
                    run.by_name.insert(function);
                }
                Ok(Step::RootReturn(value)) => {
                    run.spent += 1;
                    run.returns += 1;
                    run.returned = Some(value);
                    run.cells_to_keep = self.cells_used;
                }
                Err(13) => {
                    // A comparison: back before its opcode, nothing of it spent.
                    self.frame().position -= 1;
                    return Ok(self.paused(run));
                }
                Err(fault) => {
                    run.spent += 1;
                    return Ok(Part::Over(self.faulted(run, fault)));
                }
            }
        }
    }

    /// Fault 13, with the count and the backtrace of one run given all these
    /// units at once.
    pub fn abandon_run(&mut self) -> Result<Report, Refused> {
        let mut run = self.under_way.take().ok_or(Refused::NoRun)?;
        // Units are left before a comparison only, and one run had fetched it.
        if run.units_left() > 0 {
            self.frame().position += 1;
        }
        run.spent = run.given;
        Ok(self.faulted(run, 13))
    }

    /// A whole run: begun, continued, and abandoned if it is then paused.
    pub fn run(&mut self, units: u64) -> Report {
        self.run_watched(units, |_| ())
    }

    /// The same, shown to somebody before each step and at its end.
    pub fn run_watched(&mut self, units: u64, mut watch: impl FnMut(&Machine)) -> Report {
        let begun = self.begin_run().expect("no run is under way");
        if let Part::Over(report) = begun {
            watch(self);
            return report;
        }
        let continued = self.continue_watched(units, watch);
        match continued.expect("a run is under way, and was given no units yet") {
            Part::Over(report) => report,
            Part::Paused { .. } => self.abandon_run().expect("a run is under way"),
        }
    }

    fn paused(&mut self, run: Run) -> Part {
        let (spent, returns) = (run.spent, run.returns);
        self.under_way = Some(run);
        Part::Paused { spent, returns }
    }

    fn faulted(&mut self, run: Run, fault: u32) -> Report {
        let backtrace = self
            .backtrace()
            .expect("during a run every frame's place lies inside its code");
        self.recover(self.copy.clone(), run.cells_to_keep);
        run.over(Answer::Fault(fault), backtrace)
    }
}
