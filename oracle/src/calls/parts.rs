//! Stories of runs in parts.

use super::running::PLENTY;
use super::Story;
use crate::op::Op;

impl Story<'_> {
    /// Comparisons that cost several units, with Returns between them; the
    /// units come in small parts, so that many a pause is before a comparison.
    pub(super) fn dealt(&mut self) {
        self.lines(&["#! Units are dealt out", "new", "struct 53"]);
        let one = self.number(1.0);
        let two = self.number(2.0);
        let calling = self.rng.chance(50);
        if calling {
            self.code(Op::Call, &[1, 0]);
            self.line("begin 66");
        }
        for _ in 0..self.rng.between(1, 3) {
            self.compared([one, two]);
        }
        if calling {
            self.line("end");
        }
        self.line("start");
        self.go_on(0);
        while self.is_under_way() {
            if self.rng.chance(25) {
                self.pause();
            }
            if self.is_under_way() {
                let units = self.rng.pick(&[0, 1, 1, 1, 2, 2, 3, 5]);
                self.go_on(units);
            }
        }
        self.look();
        self.retry();
    }

    /// Two equal lists or structs, compared, and the answer returned.
    fn compared(&mut self, [one, two]: [u16; 2]) {
        let count = self.rng.between(1, 3) as u16;
        let nested = self.rng.chance(40);
        for _ in 0..2 {
            for index in 0..count {
                self.load(if index == 0 { one } else { two });
            }
            match self.rng.below(4) {
                0 => self.code(Op::BuildStructInstance, &[0, count]),
                _ => self.code(Op::BuildList, &[count]),
            }
            if nested {
                self.code(Op::BuildList, &[1]);
            }
        }
        let op = self.rng.pick(&[Op::Equal, Op::NotEqual]);
        self.code(op, &[]);
        self.code(Op::Return, &[]);
    }

    /// A run is abandoned wherever it is: after nothing was given, behind a
    /// Return, in a callee, before a comparison with some of its units; then
    /// begun again, and gone on with behind the fault.
    pub(super) fn abandoned(&mut self) {
        self.lines(&["#! Runs are abandoned", "new", "struct 53"]);
        let one = self.number(1.0);
        let two = self.number(2.0);
        self.line("begin 66");
        for constant in [one, two, one, two] {
            self.load(constant);
        }
        self.code(Op::Return, &[]);
        self.line("end");
        for round in 0..self.rng.between(4, 6) {
            self.load(one);
            self.code(Op::Return, &[]);
            self.load(two);
            self.code(Op::BuildList, &[1]);
            self.code(Op::GetUpvalue, &[0]);
            self.code(Op::Equal, &[]);
            self.code(Op::Return, &[]);
            self.code(Op::Call, &[1, 0]);
            self.line("start");
            match round {
                0 => {}
                // Behind the first Return.
                1 => self.go_on(3),
                // Before the comparison, one unit short of its two.
                2 => self.go_on(6),
                // In the callee.
                3 => self.go_on(11),
                _ => {
                    let units = self.rng.below(15) as u64;
                    self.deal(units);
                }
            }
            if self.rng.chance(50) && self.is_under_way() {
                self.line("trace");
            }
            self.give_up();
            self.lines(&["start", "frame 0", "last"]);
            let behind = self.rng.pick(&["abandon", "continue 1", "trace", "offset"]);
            self.line(behind);
        }
        self.look();
        self.retry();
    }

    /// All that is refused while a run is under way, and what is not.
    pub(super) fn paused(&mut self) {
        self.lines(&["#! In a pause", "new", "continue 1", "abandon"]);
        let one = self.number(1.0);
        self.load(one);
        self.code(Op::Return, &[]);
        self.load(one);
        self.code(Op::Return, &[]);
        self.line("start");
        let units = self.rng.below(3) as u64;
        self.go_on(units);
        self.lines(&["op 38 1", "patch 65535 0", "scalar 1", "struct 53"]);
        self.lines(&["begin 66", "end", "new", "image 00", "start 0"]);
        for _ in 0..self.rng.between(2, 5) {
            self.refused_in_pause();
        }
        self.lines(&["save", "list", "offset", "trace", "last", "stack 0"]);
        self.lines(&["find 3C6D61696E3E", "find 66"]);
        // No run can be under way at the end of its code.
        let end = self.machine().program.functions[0].code.len();
        self.line(format!("frame 0 0 {end} 0 0"));
        self.lines(&["continue 0 0", "abandon", "trace", "start"]);
        self.mend();
        self.go_on(1);
        self.too_many_units();
        self.lines(&["continue 1 255", "abandon 255"]);
        let huge = self
            .machine()
            .under_way
            .as_ref()
            .map(|run| u64::MAX - run.given);
        if let Some(units) = huge {
            self.go_on(units);
        }
        self.lines(&["continue 0", "abandon", "start", "abandon"]);
        self.look();
        self.retry();
    }

    /// Each word of a run is damaged, in a pause and where none is under way,
    /// and put back if the call was refused.
    pub(super) fn run_damaged(&mut self) {
        self.lines(&["#! The words of a run are damaged", "new"]);
        let one = self.number(1.0);
        // A value stays on the stack, and perhaps the last result takes cells.
        self.load(one);
        self.load(one);
        if self.rng.chance(60) {
            self.code(Op::BuildList, &[1]);
        }
        self.code(Op::Return, &[]);
        self.run_with(PLENTY);
        for round in 0..self.rng.between(4, 6) {
            self.load(one);
            self.code(Op::BuildList, &[1]);
            self.code(Op::Return, &[]);
            if round == 0 || self.rng.chance(80) {
                self.line("start");
                let units = self.rng.below(3) as u64;
                self.go_on(units);
            }
            if round == 0 {
                // Good order cannot see a unit more than it was given.
                let given = self.console.run_record().given + 1;
                self.line(format!("count given {given}"));
                self.go_on(0);
            }
            for word in ["on", "given", "spent", "returns", "mark", "saved"] {
                self.damage_run(word);
            }
            self.give_up();
        }
        self.look();
        self.retry();
    }

    /// Puts another number for a word of the run, makes a call, and puts the
    /// right one back unless the call has gone on with the wrong one.
    fn damage_run(&mut self, word: &str) {
        let left = self.console.run_record();
        let cells = self.machine().cells_used as u64;
        let values = self.machine().stores.values as u64;
        let (right, wrong) = match word {
            "on" => (left.on.into(), [u64::from(!left.on); 3]),
            "given" => (
                left.given,
                [left.spent.saturating_sub(1), 0, left.given + 1],
            ),
            "spent" => (left.spent, [left.given + 1, 0, left.given]),
            "returns" => (left.returns, [left.spent + 1, left.spent, 0]),
            "mark" => (left.mark, [cells + 1, cells, 0]),
            _ => (left.saved, [values + 1, left.saved / 2, 0]),
        };
        let wrong = self.rng.pick(&wrong);
        self.line(format!("count {word} {wrong}"));
        let calls = [
            "continue 0",
            "continue 1",
            "abandon",
            "start",
            "op 38 1",
            "new",
        ];
        let call = self.rng.pick(&calls[..if wrong == right { 1 } else { 6 }]);
        if self.line(call).starts_with("refused") {
            self.line("continue 1 0");
            self.line(format!("count {word} {right}"));
        }
    }

    /// A run ends in a callee and is begun again: it is over at once.
    pub(super) fn begun_in_a_callee(&mut self) {
        self.lines(&["#! A run that is begun in a callee", "new"]);
        let one = self.number(1.0);
        self.load(one);
        self.code(Op::Return, &[]);
        self.code(Op::Call, &[1, 0]);
        self.line("begin 66");
        for _ in 0..self.rng.between(1, 3) {
            self.load(one);
        }
        let needed = self.needed();
        self.start();
        // Its one root Return is in the first part.
        self.go_on(2);
        self.deal(needed - 2);
        self.lines(&["start", "last", "trace", "frame 1"]);
        // What is emitted into the callee is run, and behind it the end again.
        self.load(one);
        self.run();
        self.lines(&["start", "continue 1"]);
        self.look();
        self.give_up();
        self.retry();
    }
}
