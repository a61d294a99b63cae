//! The stories.

use super::running::PLENTY;
use super::Story;
use crate::command::RECORD;
use crate::generate::{scalar, short, short_damaged, some_constant, some_text};
use crate::image::{image, Constant};
use crate::limits::MAX_DEPTH;
use crate::op::{Op, OPS};
use crate::script::in_hex as hex;

/// A function that calls itself.
#[derive(Default)]
pub(super) struct Descent {
    times: usize,
    /// Left at each call, as they are or in a list.
    values: u16,
    listed: bool,
    /// Left when it is at 0.
    at_end: usize,
    /// Whether it returns from there: if not, the run ends in the last callee.
    returning: bool,
    /// Left by main before it.
    before: usize,
    lists_before: usize,
}

impl Descent {
    /// Lists on the way take 2,040 cells, 204 times 10; empty ones before it
    /// take one each.
    pub(super) fn to_cells(lists_before: usize) -> Descent {
        Descent {
            times: 204,
            values: 9,
            listed: true,
            lists_before,
            ..Descent::default()
        }
    }
}

impl Story<'_> {
    /// A generated program, emitted.
    pub(super) fn emitted(&mut self) {
        self.lines(&["#! A program is emitted", "new"]);
        let program = short(self.rng, 300);
        self.program(&program);
        if self.rng.chance(30) {
            self.saved();
            self.listed();
        }
        self.run();
        self.look();
        self.retry();
    }

    /// A generated image, whole or broken.
    pub(super) fn loaded(&mut self) {
        self.line("#! An image is loaded");
        // So that a machine is there even if the image is broken.
        self.lines(&["new", "scalar 0000000000000000", "op1 0 0 1"]);
        self.run_with(9);
        let bytes = match self.rng.below(10) {
            0 => vec![],
            1..=5 => image(&short(self.rng, 250)),
            _ => short_damaged(self.rng, 250),
        };
        self.line(format!("image {}", hex(&bytes)));
        self.look();
        self.run();
        self.look();
        self.saved();
        self.retry();
    }

    /// Each fault by itself, in main or in a function, after a Return or not;
    /// then code behind it.
    pub(super) fn faulted(&mut self, fault: u32) {
        self.line(format!("#! Fault {fault} and what comes behind"));
        self.line("new");
        let one = self.number(1.0);
        let zero = self.rng.pick(&[0.0, -0.0]);
        let zero = self.number(zero);
        let text = some_text(self.rng, 3);
        let text = self.constant(&Constant::String(text));
        self.line("struct 53");
        let calling = self.rng.chance(40);
        if self.rng.chance(50) {
            self.load(text);
            self.load(one);
            self.code(Op::BuildList, &[2]);
            self.run_with(3);
        }
        if self.rng.chance(50) && fault != 7 {
            self.load(one);
            self.code(Op::BuildStructInstance, &[0, 1]);
            self.code(Op::Return, &[]);
        }
        if calling {
            self.code(Op::Call, &[1, 0]);
            self.line("begin 66");
        }
        self.fault(fault, [one, zero, text]);
        if calling {
            self.line("end");
        }
        let short = match fault {
            13 => self.rng.between(1, 3) as u64,
            _ => 0,
        };
        let units = self.needed().saturating_sub(short);
        self.start();
        self.deal(units);
        self.give_up();
        self.look();
        self.retry();
    }

    fn fault(&mut self, fault: u32, [one, zero, text]: [u16; 3]) {
        match fault {
            1 => {
                let byte = self.rng.between(38, 255) as u8;
                self.unknown_opcode(byte);
            }
            2 => {
                let left_out: Vec<Op> = OPS.iter().copied().filter(|o| !o.is_carried()).collect();
                let op = self.rng.pick(&left_out);
                self.code(op, &[]);
            }
            3 => {
                self.code(Op::Call, &[]);
                for _ in 0..self.rng.below(4) {
                    self.code(Op::LoadConstant, &[]);
                }
            }
            4 => match self.rng.below(4) {
                0 => self.code(Op::BuildList, &[9]),
                1 => self.code(Op::Call, &[0, 9]),
                2 => self.code(Op::BuildStructInstance, &[0, 65_535]),
                _ => {
                    self.load(one);
                    self.code(Op::JumpIfFalse, &[0]);
                }
            },
            5 => {
                self.load(text);
                self.load(one);
                let op = self.rng.pick(&[Op::Add, Op::LessThan, Op::LogicalAnd]);
                self.code(op, &[]);
            }
            6 => {
                let number = self.rng.pick(&[9, 256, 65_535]);
                match self.rng.below(5) {
                    0 => self.load(number),
                    1 => self.code(Op::GetUpvalue, &[number]),
                    2 => self.code(Op::Call, &[number, 0]),
                    3 => self.code(Op::BuildStructInstance, &[number, 0]),
                    _ => {
                        self.load(one);
                        self.code(Op::BuildStructInstance, &[0, 1]);
                        let field = self.rng.pick(&[1, 65_535]);
                        self.code(Op::AccessStructField, &[field]);
                    }
                }
            }
            7 => self.code(Op::GetLastResult, &[]),
            8 => {
                self.load(one);
                self.load(zero);
                self.code(Op::Divide, &[]);
            }
            13 => {
                // Two equal lists: the units may run out between the pairs.
                for _ in 0..2 {
                    self.load(one);
                    self.load(text);
                    self.code(Op::BuildList, &[2]);
                }
                self.code(Op::Equal, &[]);
                self.code(Op::Return, &[]);
            }
            _ => {
                let nobody = self.constant(&Constant::FunctionReference(b"nobody".to_vec()));
                self.load(nobody);
                let count = self.rng.pick(&[0, 9]);
                self.code(Op::CallCallable, &[count, 0]);
            }
        }
    }

    /// A function that calls itself with one less until it is at 0, and
    /// leaves values or a list on its way; at 0 it leaves some more. Stack,
    /// frames or cells are then full, or one is missing, or one too many.
    pub(super) fn descent(&mut self, what: &str) {
        self.line(format!("#! A descent to the edge of the {what}"));
        self.line("new");
        let mut shape = Descent::default();
        match what {
            // 205 arguments and 204 times 4 values are 1,021.
            "stack" => {
                shape.times = 204;
                shape.values = 4;
                shape.before = self.rng.below(2);
                shape.at_end = 2 + self.rng.below(3) - shape.before;
            }
            // Main, and one call more than it counts.
            "frames" => shape.times = self.rng.pick(&[253, 254, 255, 255]),
            _ => shape = Descent::to_cells(7 + self.rng.below(3)),
        }
        shape.returning = self.rng.chance(40);
        let times = self.descending(&shape);
        if self.rng.chance(50) {
            self.load(times);
            self.code(Op::Return, &[]);
        }
        for _ in 0..self.rng.between(1, 3) {
            self.load(times);
            self.code(Op::Call, &[1, 1]);
            self.run();
            self.look();
        }
        self.retry();
    }

    /// Emits the function, and what main has before it; gives the constant
    /// that it is called with.
    pub(super) fn descending(&mut self, shape: &Descent) -> u16 {
        let zero = self.number(0.0);
        let one = self.number(1.0);
        let times = self.number(shape.times as f64);
        self.line("begin 66");
        self.code(Op::GetLocal, &[0]);
        self.load(zero);
        self.code(Op::GreaterThan, &[]);
        // Over what is left on the way, and 13 bytes of calling itself.
        let list = if shape.listed { 3 } else { 0 };
        self.code(Op::JumpIfFalse, &[3 * shape.values + list + 13]);
        for _ in 0..shape.values {
            self.load(zero);
        }
        if shape.listed {
            self.code(Op::BuildList, &[shape.values]);
        }
        self.code(Op::GetLocal, &[0]);
        self.load(one);
        self.code(Op::Subtract, &[]);
        self.code(Op::Call, &[1, 1]);
        self.code(Op::Return, &[]);
        for _ in 0..shape.at_end {
            self.load(one);
        }
        if shape.returning {
            self.code(Op::GetLocal, &[0]);
            self.code(Op::Return, &[]);
        }
        self.line("end");
        for _ in 0..shape.before {
            self.load(one);
        }
        for _ in 0..shape.lists_before {
            self.code(Op::BuildList, &[0]);
        }
        times
    }

    /// A list in a list, and so on, to the greatest depth; then one more.
    pub(super) fn deep(&mut self) {
        self.lines(&["#! Depth", "new", "struct 53"]);
        let one = self.number(1.0);
        let empty = self.rng.chance(50);
        if empty {
            self.code(Op::BuildList, &[0]);
        } else {
            self.load(one);
        }
        for _ in usize::from(empty)..MAX_DEPTH {
            self.around();
        }
        self.run_with(PLENTY);
        self.look();
        self.around();
        self.run_with(PLENTY);
        self.look();
        self.retry();
    }

    /// A list, or a struct, of what is on top.
    fn around(&mut self) {
        if self.rng.chance(80) {
            self.code(Op::BuildList, &[1]);
        } else {
            self.code(Op::BuildStructInstance, &[0, 1]);
        }
    }

    /// Lists and structs of all kinds of values on the stack, looked at.
    pub(super) fn built(&mut self) {
        self.lines(&["#! Lists and structs", "new", "struct 41", "struct"]);
        let count = self.rng.between(2, 5);
        for _ in 0..count {
            let constant = some_constant(self.rng);
            self.constant(&constant);
        }
        let bits = scalar(self.rng);
        self.constant(&Constant::Scalar(bits));
        self.constant(&Constant::FunctionReference(b"f".to_vec()));
        for _ in 0..self.rng.between(1, 3) {
            let mut height = 0;
            for _ in 0..self.rng.between(2, 7) {
                let taken = self.rng.below(height.min(3) + 1) as u16;
                match self.rng.below(4) {
                    0 => {
                        self.code(Op::BuildList, &[taken]);
                        height -= usize::from(taken);
                    }
                    1 => {
                        let number = self.rng.below(2) as u16;
                        self.code(Op::BuildStructInstance, &[number, taken]);
                        height -= usize::from(taken);
                    }
                    _ => {
                        let constant = self.rng.below(count + 2) as u16;
                        self.load(constant);
                    }
                }
                height += 1;
            }
            self.run();
            self.look();
        }
        self.retry();
    }

    /// Frames as no run leaves them, some of them in good order all the same.
    pub(super) fn damaged(&mut self) {
        self.line("#! Frames are damaged");
        self.line("new");
        let one = self.number(1.0);
        self.load(one);
        self.code(Op::Call, &[1, 1]);
        self.code(Op::Return, &[]);
        self.line("begin 66");
        self.code(Op::GetLocal, &[0]);
        self.load(one);
        self.code(Op::Add, &[]);
        self.code(Op::Return, &[]);
        self.line("end");
        self.run();
        for _ in 0..self.rng.between(2, 5) {
            // In a pause, too: then the innermost position is to be below its
            // code length.
            if self.rng.chance(50) {
                self.lines(&["frame 0 0 0 0 0", "count frames 1", "start"]);
                let units = self.rng.below(4) as u64;
                self.go_on(units);
            }
            self.damage();
            for _ in 0..self.rng.between(1, 2) {
                let line = self.rng.pick(&[
                    "start",
                    "start 0",
                    "continue 1000",
                    "continue 1",
                    "continue 1000 0",
                    "abandon",
                    "abandon 0",
                    "trace",
                    "trace 0",
                    "trace 2",
                    "save 0",
                ]);
                self.line(line);
            }
            if self.is_under_way() {
                self.mend();
                let line = self.rng.pick(&["trace", "continue 0", "continue 1", "new"]);
                self.line(line);
                self.give_up();
            } else if self.rng.chance(50) {
                // Mended: at the end of main, or at its start again.
                let end = self.machine().program.functions[0].code.len();
                let position = self.rng.pick(&[0, end]);
                self.line(format!("frame 0 0 {position} 0 0"));
                self.line("count frames 1");
                self.run();
                self.look();
            }
        }
        // Whatever the frames are now, a new machine has its own.
        self.line("new");
        self.look();
    }

    fn damage(&mut self) {
        match self.rng.below(8) {
            5.. => self.damage_entered(),
            0 => {
                let count = self
                    .rng
                    .pick(&["0", "257", "4294967296", "281474976710655"]);
                self.line(format!("count frames {count}"));
            }
            1 => {
                let frame = self.rng.pick(&[
                    "0 0 0",
                    "0 8 0",
                    "0 9 0",
                    "0 131070 0",
                    "0 131071 0",
                    "1 0 0",
                    "0 0 1",
                    "4294967296 0 0",
                ]);
                self.line(format!("frame 0 {frame} 0"));
                self.line("count frames 1");
            }
            _ => {
                // Callers at their edges, then the innermost frame.
                let callers = self.rng.between(1, 2);
                for caller in 0..callers {
                    let function = if caller == 0 { 0 } else { self.rng.below(3) };
                    let position = self.rng.pick(&[0, 1, 3, 8, 8, 8, 9, 10]);
                    let base = if caller == 0 { 0 } else { self.rng.below(3) };
                    self.line(format!("frame {caller} {function} {position} {base} 0"));
                }
                let function = self.rng.pick(&[0, 1, 1, 1, 2]);
                let position = self.rng.pick(&[0, 0, 3, 7, 8, 131_070, 131_071]);
                let base =
                    self.rng
                        .pick(&[0usize, 1, 1_023, 1_024, 1_025, 4_294_967_295, 4_294_967_296]);
                self.line(format!("frame {callers} {function} {position} {base} 0"));
                self.line(format!("count frames {}", callers + 1));
            }
        }
    }

    /// Frames in good order but perhaps for the units at which they were
    /// entered: these may fall inwards, or be more than are spent.
    fn damage_entered(&mut self) {
        let spent = self.console.run_record().spent;
        let callees = self.rng.below(3);
        let mut entered = 0u64;
        for index in 0..=callees {
            let position = match (index, index == callees) {
                (0, true) => self.rng.pick(&[0, 3, 8]),
                (0, false) => self.rng.pick(&[3, 8]),
                (_, true) => self.rng.pick(&[0, 3, 6, 7]),
                _ => self.rng.pick(&[3, 6, 7, 8]),
            };
            entered = match self.rng.below(6) {
                0 => entered.saturating_sub(1),
                1 => spent + 1,
                2 => self.rng.pick(&[0, 1, RECORD]),
                _ => self.entered(entered),
            };
            let function = usize::from(index > 0);
            self.line(format!("frame {index} {function} {position} 0 {entered}"));
        }
        self.line(format!("count frames {}", callees + 1));
    }

    /// Names that are there, twice, and not there.
    pub(super) fn named(&mut self) {
        self.lines(&["#! Names", "new"]);
        let mut names = vec![];
        for _ in 0..self.rng.between(2, 6) {
            let name = some_text(self.rng, 2);
            let command = self.rng.pick(&["struct", "begin", "reference", "string"]);
            self.line(format!("{command} {}", hex(&name)));
            names.push(name);
            let line = self.rng.pick(&["offset", "end", "op 37 5", "find"]);
            self.line(line);
        }
        for name in &names {
            self.line(format!("find {}", hex(name)));
            self.line(format!("struct {}", hex(name)));
        }
        self.lines(&["find 3C6D61696E3E", "find 3C6D61696E", "list", "save"]);
        // A reference calls the newest function of its name.
        self.line("end");
        for name in names.iter().take(2) {
            let reference = self.constant(&Constant::FunctionReference(name.clone()));
            self.load(reference);
            self.code(Op::CallCallable, &[0, 7]);
        }
        self.run();
        self.look();
    }

    /// Patches in the code and just outside it.
    pub(super) fn patched(&mut self) {
        self.lines(&["#! Patches", "new", "patch 0 0"]);
        let function = self.rng.chance(50);
        if function {
            self.line("begin 66");
            self.line("patch 0 0");
        }
        let one = self.number(1.0);
        for _ in 0..self.rng.between(1, 3) {
            self.load(one);
            self.code(Op::Jump, &[0]);
        }
        let end = usize::from(self.machine().current_offset());
        for at in [0, 1, end - 2, end - 1, end, end + 1, 65_534, 65_535] {
            if self.rng.chance(60) {
                let value = self.rng.pick(&[0, 1, 3, 255, 256, 0x2500, 65_535]);
                self.line(format!("patch {at} {value}"));
            }
        }
        self.listed();
        if function {
            self.line("end");
            self.line(format!("patch {} 0", end - 2));
            self.code(Op::Call, &[1, 0]);
        }
        self.run();
        self.look();
        self.retry();
    }

    /// Lines that are not understood, among some that are.
    pub(super) fn not_understood(&mut self) {
        self.lines(&["#! Lines that are not understood", "new"]);
        const LINES: [&str; 56] = [
            "jump 5",
            "New",
            "new 1",
            " new ",
            "# nothing",
            "#!nothing",
            "#!  something  more",
            "",
            "   ",
            "run 1",
            "start x",
            "start 1 2",
            "start 0",
            "continue",
            "continue x",
            "continue 1 x",
            "continue 1 2 3",
            "continue -1",
            "continue 18446744073709551616",
            "continue 00000000000000000000001",
            "abandon x",
            "abandon 1 2",
            "abandon 0",
            "trace x",
            "op",
            "op 37",
            "op 256 0",
            "op 37 4294967296",
            "op 37 4294967295",
            "op 38 0",
            "op 255 0",
            "op1 0 65536 0",
            "op1 38 65535 0",
            "op2 0 0 0",
            "op3 0 0 0 0 0 0",
            "op4 0 0 0 0 0 0",
            "patch 0",
            "patch 65536 0",
            "patch 0 65536",
            "scalar",
            "scalar 0 0",
            "scalar 10000000000000000",
            "scalar 00000000000000001",
            "scalar 3ff0000000000000",
            "boolean",
            "boolean 2",
            "string 4",
            "string 4g",
            "string 4 1 4 2",
            "end 41",
            "image 0",
            "frame",
            "frame 0 0",
            "frame 0 0 0 0",
            "count frames",
            "count nobody 0",
        ];
        for _ in 0..self.rng.between(4, 10) {
            let line = self.rng.pick(&LINES);
            self.line(line);
        }
        for line in [
            "stack",
            "stack x",
            "header",
            "element 0",
            "text",
            "text 0 x",
        ] {
            if self.rng.chance(30) {
                self.line(line);
            }
        }
        self.run();
        self.look();
    }
}
