//! Stories of strict machines.

use super::running::PLENTY;
use super::Story;
use crate::generate::{scalar, SCALARS};
use crate::image::Constant;
use crate::op::Op;
use crate::script::in_hex as hex;

const ARITHMETIC: [Op; 4] = [Op::Add, Op::Subtract, Op::Multiply, Op::Divide];

impl Story<'_> {
    pub(super) fn set_strict(&mut self) {
        let line = self.rng.pick(&["strict 0", "strict 1", "strict 1"]);
        self.line(line);
    }

    /// Numbers at the edges of binary64, two of them under one operation each:
    /// on a machine that is strict, then not, and so on. The setting is asked for
    /// in a pause and with frames out of order; a fault leaves it, and so does a
    /// broken image; an image that is loaded does not.
    pub(super) fn strict(&mut self) {
        self.lines(&["#! Strict machines", "strict 1", "new", "strict 1"]);
        let large = self.number(1e200);
        self.load(large);
        self.load(large);
        self.code(Op::Multiply, &[]);
        self.code(Op::Return, &[]);
        self.line("start");
        self.go_on(2);
        // In a pause, to what it is and to what it is not.
        self.lines(&["strict 1", "strict 0", "strict"]);
        self.go_on(9);
        self.lines(&["last", "frame 0"]);
        // The fault has left it strict.
        for _ in 0..self.rng.between(4, 8) {
            let op = self.rng.pick(&ARITHMETIC);
            self.calculated(op);
            if self.rng.chance(25) {
                self.set_strict();
            }
        }
        self.line("strict 1");
        self.infinite_before();
        self.zero_divisors();
        self.strict_and_out_of_order();
        self.strict_and_loaded();
        self.retry();
    }

    /// One operation on two numbers, behind what has run.
    fn calculated(&mut self, op: Op) {
        for _ in 0..2 {
            let bits = match self.rng.below(5) {
                // Finite ones whose results often are not.
                0..=2 => self.rng.pick(&[
                    0x7FEF_FFFF_FFFF_FFFF,
                    0xFFEF_FFFF_FFFF_FFFF,
                    0x7FE0_0000_0000_0000,
                    0x0000_0000_0000_0001,
                    0x3FE0_0000_0000_0000,
                ]),
                3 => self.rng.pick(&SCALARS),
                _ => scalar(self.rng),
            };
            let constant = self.constant(&Constant::Scalar(bits));
            self.load(constant);
        }
        self.code(op, &[]);
        self.code(Op::Return, &[]);
        self.run_with(PLENTY);
        self.line("last");
    }

    /// What was not finite before is no fault of the operation, on either side.
    fn infinite_before(&mut self) {
        for left in [true, false] {
            let infinite = self.rng.pick(&[f64::INFINITY, f64::NEG_INFINITY, f64::NAN]);
            let other = self.rng.pick(&[1.0, -2.5, f64::MAX, infinite, -infinite]);
            let (first, second) = match left {
                true => (infinite, other),
                false => (other, infinite),
            };
            for number in [first, second] {
                let constant = self.number(number);
                self.load(constant);
            }
            let op = self.rng.pick(&ARITHMETIC);
            self.code(op, &[]);
            self.code(Op::Return, &[]);
            self.run_with(PLENTY);
            self.line("last");
        }
    }

    /// A zero divisor comes first, whatever is divided.
    fn zero_divisors(&mut self) {
        let zero = self.rng.pick(&[0.0, -0.0]);
        let zero = self.number(zero);
        let divided = self
            .rng
            .pick(&[1.0, 0.0, f64::MAX, f64::NAN, f64::INFINITY]);
        let divided = self.number(divided);
        self.load(divided);
        self.load(zero);
        self.code(Op::Divide, &[]);
        self.run_with(PLENTY);
    }

    /// 19 comes before 25, and changes nothing.
    fn strict_and_out_of_order(&mut self) {
        self.load(0);
        self.line("start");
        self.lines(&["count frames 0", "strict 0", "strict 1"]);
        self.mend();
        self.give_up();
        self.lines(&["count frames 0", "strict 0", "count frames 1"]);
    }

    /// A broken image leaves the setting, as it leaves all; one that is loaded
    /// does not, nor does a new machine.
    fn strict_and_loaded(&mut self) {
        let image = self.machine().save();
        self.line("strict 1");
        self.line(format!("image {}", hex(&image[..image.len() - 1])));
        let large = self.number(f64::MAX);
        self.load(large);
        self.load(large);
        self.code(Op::Add, &[]);
        self.run_with(PLENTY);
        self.line(format!("image {}", hex(&image)));
        self.run_with(PLENTY);
        self.look();
        if self.rng.chance(50) {
            self.lines(&["strict 1", "new"]);
            let least = self.number(5e-324);
            let one = self.number(1.0);
            self.load(one);
            self.load(least);
            self.code(Op::Divide, &[]);
            self.run_with(PLENTY);
            self.look();
        }
    }
}
