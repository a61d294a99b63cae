//! Stories of when calls began.

use super::running::PLENTY;
use super::Story;
use crate::image::Constant;
use crate::limits::Frame;
use crate::op::Op;

impl Story<'_> {
    /// Main calls f and f calls g, each behind a comparison that costs several
    /// units. In g the run is paused and looked at; it ends there, by its code or
    /// by a fault, or is abandoned; where it has ended there it is begun again, at
    /// once and with more code in g.
    pub(super) fn calls_inside_calls(&mut self) {
        self.lines(&["#! Calls inside calls, and when they began", "new"]);
        let one = self.number(1.0);
        self.calls_of_calls(one);
        self.start();
        while self.is_under_way() && self.machine().frames.len() < 3 {
            let units = self.rng.pick(&[1, 1, 2, 3, 5]);
            self.go_on(units);
        }
        self.look_at_all_frames();
        self.entered_otherwise();
        // Before the comparison of g, which has some of its units.
        while self.is_under_way() && self.units_left() == 0 {
            self.go_on(1);
        }
        self.entered_otherwise();
        if self.is_under_way() {
            let left = self.needed_more();
            let short = self.rng.pick(&[0, 0, 0, 1, 2]);
            self.deal(left.saturating_sub(short));
        }
        self.give_up();
        for _ in 0..self.rng.between(1, 2) {
            self.look_at_all_frames();
            self.line("start");
            self.look_at_all_frames();
            self.give_up();
            if self.rng.chance(20) {
                self.code(Op::Call, &[1, 0]);
            }
            self.load(one);
            if self.rng.chance(30) {
                self.code(Op::Return, &[]);
            }
            match self.rng.chance(50) {
                true => self.run(),
                false => self.run_with(PLENTY),
            }
        }
        self.look_at_all_frames();
        self.retry();
    }

    /// Main calls f, f calls g by number or by name, and g, which stays current,
    /// ends without a Return, divides by zero or returns.
    fn calls_of_calls(&mut self, one: u16) {
        let zero = self.number(0.0);
        let by_name = self.constant(&Constant::FunctionReference(b"g".to_vec()));
        let count = self.rng.below(4);
        self.compare_lists(count, one);
        self.code(Op::Call, &[1, 0]);
        self.code(Op::Return, &[]);
        self.line("begin 66");
        let count = self.rng.below(4);
        self.compare_lists(count, one);
        match self.rng.chance(50) {
            true => self.code(Op::Call, &[2, 1]),
            false => {
                self.load(by_name);
                self.code(Op::CallCallable, &[1, 0]);
            }
        }
        self.code(Op::Return, &[]);
        self.line("begin 67");
        let count = self.rng.between(1, 3);
        self.compare_lists(count, one);
        match self.rng.below(4) {
            0 => {
                self.load(one);
                self.load(zero);
                self.code(Op::Divide, &[]);
            }
            1 => self.code(Op::Return, &[]),
            _ => {}
        }
    }

    /// Two equal lists of so many elements compared: what stays is a boolean.
    fn compare_lists(&mut self, count: usize, one: u16) {
        for _ in 0..2 {
            for _ in 0..count {
                self.load(one);
            }
            self.code(Op::BuildList, &[count as u16]);
        }
        self.code(Op::Equal, &[]);
    }

    /// In a pause in a callee: numbers of units at which its frame or its
    /// caller's cannot have been entered, then the right ones again; and one at
    /// which it can have been.
    fn entered_otherwise(&mut self) {
        let frames = self.machine().frames.clone();
        let [.., caller, innermost] = frames.as_slice() else {
            return;
        };
        let last = frames.len() - 1;
        let spent = self.console.run_record().spent;
        for (index, frame, entered) in [
            (last, innermost, spent + 1),
            (last - 1, caller, innermost.entered + 1),
            (last, innermost, caller.entered),
        ] {
            let Frame {
                function,
                position,
                base,
                ..
            } = frame;
            self.line(format!(
                "frame {index} {function} {position} {base} {entered}"
            ));
            let call = self.rng.pick(&["trace", "trace 0", "abandon 0"]);
            self.line(call);
            self.line("continue 0");
            if self.is_under_way() {
                self.mend();
            }
        }
    }

    fn units_left(&self) -> u64 {
        let run = self.machine().under_way.as_ref();
        run.map_or(0, |run| run.units_left())
    }

    fn look_at_all_frames(&mut self) {
        let frames = self.machine().frames.len();
        for index in 0..frames.min(4) {
            self.line(format!("frame {index}"));
        }
        if frames < 20 {
            self.line("trace");
        }
    }
}
