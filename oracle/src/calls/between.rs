//! Stories of what a host does between two runs.

use super::running::PLENTY;
use super::stories::Descent;
use super::Story;
use crate::command::RECORD;
use crate::generate::some_text;
use crate::image::{Constant, MAIN};
use crate::op::Op;
use crate::script::in_hex as hex;

impl Story<'_> {
    /// A name is given to one function after the other, with runs between: a
    /// reference calls the newest, a number the one that it was.
    pub(super) fn redefined(&mut self) {
        self.lines(&["#! A function is defined anew between runs", "new"]);
        let name = match self.rng.below(4) {
            0 => MAIN.to_vec(),
            1 => some_text(self.rng, 3),
            _ => b"f".to_vec(),
        };
        let reference = self.constant(&Constant::FunctionReference(name.clone()));
        for round in 0..self.rng.between(2, 4) {
            let value = self.number(round as f64);
            self.line(format!("begin {}", hex(&name)));
            self.load(value);
            // Without it the run ends in the callee.
            if self.rng.chance(80) {
                self.code(Op::Return, &[]);
            }
            self.line("end");
            self.load(reference);
            self.code(Op::CallCallable, &[0, 0]);
            self.code(Op::Return, &[]);
            if self.rng.chance(50) {
                self.code(Op::Call, &[1, 0]);
                self.code(Op::Return, &[]);
            }
            if round == 0 {
                self.run_with(PLENTY);
            } else {
                self.run();
            }
            self.look();
        }
        self.line(format!("find {}", hex(&name)));
        self.retry();
    }

    /// A struct is known from one run to the next; two of different numbers
    /// are compared.
    pub(super) fn struct_added(&mut self) {
        self.lines(&["#! A struct is added after a run", "new"]);
        let one = self.number(1.0);
        for number in 0..self.rng.between(2, 3) as u16 {
            // The first time it is not known yet.
            for known in [false, true] {
                if known {
                    self.line(format!("struct {:02X}", 0x41 + number));
                }
                self.load(one);
                self.code(Op::BuildStructInstance, &[number, 1]);
                self.run_with(PLENTY);
                self.look();
            }
        }
        self.code(Op::Equal, &[]);
        self.code(Op::Return, &[]);
        self.run();
        self.look();
        self.retry();
    }

    /// A run ends in a callee, which is the newest function and still the
    /// current one; more code is emitted into it, and the run goes on there.
    pub(super) fn grown(&mut self) {
        self.lines(&["#! The code of a callee grows", "new"]);
        let one = self.number(1.0);
        self.load(one);
        let count = self.rng.below(2) as u16;
        self.code(Op::Call, &[1, count]);
        self.code(Op::Return, &[]);
        self.line("begin 66");
        match self.rng.below(4) {
            // As P6: it is empty.
            0 => {}
            // The code that comes is entered in its middle, or behind it.
            1 => {
                let offset = self.rng.pick(&[1, 3, 4, 65_535]);
                self.code(Op::Jump, &[offset]);
            }
            _ => self.load(one),
        }
        self.run_with(PLENTY);
        self.look();
        for _ in 0..self.rng.between(1, 3) {
            match self.rng.below(3) {
                0 => self.load(one),
                1 => self.code(Op::GetUpvalue, &[0]),
                _ => self.more(),
            }
            self.run();
            self.look();
        }
        self.load(one);
        self.code(Op::Return, &[]);
        self.run();
        self.look();
        self.retry();
    }

    /// Frames that a host puts over values which a run has left: callees look
    /// for their arguments among them, and Return drops them.
    pub(super) fn framed(&mut self) {
        self.lines(&["#! Frames are put over a stack that is not empty", "new"]);
        let one = self.number(1.0);
        self.line("begin 66");
        self.code(Op::GetLocal, &[0]);
        self.load(one);
        self.code(Op::Add, &[]);
        self.code(Op::Return, &[]);
        self.line("end");
        for _ in 0..self.rng.between(2, 5) {
            if self.rng.chance(80) {
                self.load(one);
            } else {
                self.code(Op::BuildList, &[0]);
            }
        }
        self.run_with(PLENTY);
        for _ in 0..self.rng.between(1, 3) {
            self.put_frames();
            self.run();
            self.look();
        }
        // In a pause too: the run goes on with them, if they are in good order.
        self.put_frames();
        self.line("start");
        if self.is_under_way() {
            let units = self.rng.below(4) as u64;
            self.go_on(units);
        }
        if self.is_under_way() {
            self.put_frames();
            let line = self
                .rng
                .pick(&["continue 0", "trace", "continue 100", "abandon"]);
            self.line(line);
        }
        self.give_up();
        self.look();
        self.retry();
    }

    /// Main at its end or before its last instruction, then callees, all in
    /// good order, each with the units at which it was entered.
    fn put_frames(&mut self) {
        let height = self.machine().stack.len();
        let main = self.machine().program.functions[0].code.len();
        let position = self.rng.pick(&[main - 3, main, main]);
        let mut entered = self.entered(0);
        self.line(format!("frame 0 0 {position} 0 {entered}"));
        let callees = self.rng.between(1, 3);
        for callee in 1..=callees {
            // Each but the innermost has begun.
            let position = match callee == callees {
                true => self.rng.pick(&[0, 0, 3, 6, 7, 8]),
                false => self.rng.pick(&[3, 6, 7, 8]),
            };
            let base = self.rng.below(height + 2);
            entered = self.entered(entered);
            self.line(format!("frame {callee} 1 {position} {base} {entered}"));
        }
        self.line(format!("count frames {}", callees + 1));
    }

    /// Units at which a frame may have been entered whose caller was at so
    /// many: with a run under way at most those that it has spent.
    pub(super) fn entered(&mut self, caller: u64) -> u64 {
        let run = self.console.run_record();
        let room = match run.on {
            true => run.spent.saturating_sub(caller),
            false => 40,
        };
        let entered = match self.rng.below(3) {
            0 => caller,
            1 => caller + room,
            _ => caller + self.rng.draw() % (room + 1),
        };
        entered.min(RECORD)
    }

    /// A machine with few cells left, a last result, callees under way and a
    /// current function that is not main: an image over it leaves nothing of
    /// that, and a broken one everything.
    pub(super) fn reloaded(&mut self) {
        self.line("#! An image is loaded over a machine that has run");
        self.line("new");
        let times = self.descending(&Descent::to_cells(8));
        self.load(times);
        self.code(Op::Return, &[]);
        self.load(times);
        self.code(Op::Call, &[1, 1]);
        self.run_with(PLENTY);
        self.line("begin 67");
        self.code(Op::Return, &[]);
        let image = self.machine().save();
        for _ in 0..self.rng.between(1, 2) {
            let cut = self.rng.below(image.len());
            self.line(format!("image {}", hex(&image[..cut])));
            self.look();
        }
        self.line(format!("image {}", hex(&image)));
        self.line("offset");
        self.look();
        // All cells are there again, and no more than those.
        self.run();
        self.look();
        self.retry();
    }
}
