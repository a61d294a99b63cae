//! The run that is under way as a host holds it between calls, and may damage
//! it: six words of the machine's record.

use crate::limits::{Machine, Refused, Run};
use crate::value::Value;

/// All zeros where no run is under way.
#[derive(Clone, Copy, Debug, Default, PartialEq, Eq)]
pub struct RunRecord {
    pub on: bool,
    pub given: u64,
    pub spent: u64,
    pub returns: u64,
    /// The cells taken at the last root Return, or at the start.
    pub mark: u64,
    /// The values of the copy.
    pub saved: u64,
}

/// The words, by their names in a script.
#[derive(Clone, Copy, Debug, PartialEq, Eq)]
pub enum RunWord {
    On,
    Given,
    Spent,
    Returns,
    Mark,
    Saved,
}

/// It would take words in the stores to go on, where the oracle has values.
#[derive(Clone, Copy, Debug, PartialEq, Eq)]
pub struct OfWords;

impl RunRecord {
    /// What a call has left.
    pub fn of(machine: &Machine) -> RunRecord {
        let Some(run) = &machine.under_way else {
            return RunRecord::default();
        };
        RunRecord {
            on: true,
            given: run.given,
            spent: run.spent,
            returns: run.returns,
            mark: run.cells_to_keep as u64,
            saved: machine.copy.len() as u64,
        }
    }

    pub fn put(&mut self, word: RunWord, number: u64) {
        match word {
            RunWord::On => self.on = number != 0,
            RunWord::Given => self.given = number,
            RunWord::Spent => self.spent = number,
            RunWord::Returns => self.returns = number,
            RunWord::Mark => self.mark = number,
            RunWord::Saved => self.saved = number,
        }
    }

    /// Makes the machine's run the one that these words say, if they are in
    /// good order; where the innermost frame stands is not looked at here.
    pub fn take(self, machine: &mut Machine) -> Result<Result<(), Refused>, OfWords> {
        let left = RunRecord::of(machine);
        if self == left {
            return Ok(Ok(()));
        }
        if !self.on {
            machine.under_way = None;
            let idle = self == RunRecord::default();
            return Ok(if idle { Ok(()) } else { Err(Refused::Order) });
        }
        if self.spent > self.given
            || self.returns > self.spent
            || (self.returns > 0 && machine.last_result.is_none())
            || self.mark > machine.cells_used as u64
            || self.saved > machine.stores.values as u64
        {
            return Ok(Err(Refused::Order));
        }
        let copied = if left.on { left.saved } else { 0 };
        let whole = [0, machine.cells_used as u64, left.mark].contains(&self.mark);
        if self.saved > copied || !whole {
            return Err(OfWords);
        }
        machine.copy.truncate(self.saved as usize);
        // What abandoning would leave lies in the cells of the mark.
        let mut kept = machine.copy.iter().chain(&machine.last_result);
        if self.mark == 0 && kept.any(takes_cells) {
            return Ok(Err(Refused::Order));
        }
        machine.under_way = Some(Run::of_record(&self, machine));
        Ok(Ok(()))
    }
}

fn takes_cells(value: &Value) -> bool {
    matches!(value, Value::List(_) | Value::StructInstance(..))
}
