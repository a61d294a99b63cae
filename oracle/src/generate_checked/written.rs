//! Programs as a compiler would write them: the writer knows the height at
//! every position, so that they pass, or miss by one where they are to.

use super::codes::{append_dead, instructions, word_at, CARRIED};
use super::name;
use crate::generate::{function, number, scalar, struct_names, Code, Rng};
use crate::image::{Constant, Function, Program};
use crate::op::Op;

/// What every function of a program may name.
struct World {
    constants: Vec<Constant>,
    structs: usize,
    /// How many arguments each function takes; main none.
    counts: Vec<usize>,
}

const FALSE: usize = 0;
const TRUE: usize = 1;
const ONE: usize = 2;

impl World {
    fn new(rng: &mut Rng) -> World {
        let mut constants = vec![Constant::Boolean(false), Constant::Boolean(true)];
        constants.push(number(1.0));
        for _ in 0..rng.below(5) {
            constants.push(match rng.below(6) {
                0 => Constant::Scalar(scalar(rng)),
                1 => Constant::String(b"x".to_vec()),
                2 => Constant::FunctionReference(b"f1".to_vec()),
                _ => number(rng.below(7) as f64),
            });
        }
        let mut counts = vec![0];
        for _ in 0..rng.below(5) {
            counts.push(match rng.below(20) {
                0 => rng.between(4, 12),
                _ => rng.below(4),
            });
        }
        World {
            constants,
            structs: rng.below(4),
            counts,
        }
    }
}

/// What is known of a value on the stack, so that most programs run on and
/// do not fault by its kind. The check knows nothing of kinds.
#[derive(Clone, Copy, PartialEq)]
enum Kind {
    Number,
    Truth,
    Any,
}

/// A function that is being written.
struct Body<'a> {
    rng: &'a mut Rng,
    world: &'a World,
    function: usize,
    code: Code,
    /// What stands above the base: its length is the height.
    slots: Vec<Kind>,
    /// How much more may be nested into expressions and statements.
    fuel: usize,
    /// The jumps of main that are to land on its end, and the height there.
    to_end: Vec<usize>,
    height_at_end: usize,
}

/// A program that passes, but for its slips: places where a height is not
/// what it should be, or only just is.
pub fn written(rng: &mut Rng, slips: usize) -> Program {
    let world = World::new(rng);
    let mut slips_of = vec![0; world.counts.len()];
    for _ in 0..slips {
        slips_of[rng.below(world.counts.len())] += 1;
    }
    let mut functions = vec![];
    for (number, slips) in slips_of.into_iter().enumerate() {
        let mut body = Body {
            function: number,
            code: Code::default(),
            slots: vec![Kind::Number; world.counts[number]],
            fuel: rng.pick(&[0, 2, 5, 12, 25]),
            to_end: vec![],
            height_at_end: rng.pick(&[0, 0, 0, 1, 3]),
            world: &world,
            rng,
        };
        if number == 0 {
            body.main(slips);
        } else {
            body.callee(slips);
        }
        let code = body.code;
        functions.push(function(rng, &name(number), code));
    }
    call_the_uncalled(rng, &world, &mut functions);
    Program {
        structs: struct_names(world.structs),
        constants: world.constants,
        functions,
    }
}

/// A function that was written with arguments and that no Call names would be
/// taken with none. A Call that no path reaches is enough.
fn call_the_uncalled(rng: &mut Rng, world: &World, functions: &mut [Function]) {
    for called in 1..functions.len() {
        let names_it = |function: &Function| {
            let mut row = instructions(&function.code).into_iter();
            row.any(|(at, op)| op == Op::Call && word_at(&function.code, at + 1) == called)
        };
        if world.counts[called] > 0 && !functions.iter().any(names_it) {
            let caller = rng.below(functions.len());
            let mut code = Code::default();
            code.op2(Op::Call, called, world.counts[called]);
            append_dead(&mut functions[caller], &code.0);
        }
    }
}

impl Body<'_> {
    fn main(&mut self, slips: usize) {
        for _ in 0..self.rng.below(8) {
            self.statement();
        }
        for _ in 0..slips {
            self.slip();
            self.statement();
        }
        // Where something jumps to the end, all paths have to be as high.
        if !self.to_end.is_empty() {
            self.settle(self.height_at_end);
        }
        for from in std::mem::take(&mut self.to_end) {
            self.code.land(from);
        }
    }

    fn callee(&mut self, slips: usize) {
        if self.rng.chance(60) {
            self.stop_of_recursion();
        }
        for _ in 0..self.rng.below(4) {
            self.statement();
        }
        for _ in 0..slips {
            self.slip();
            self.statement();
        }
        match self.rng.below(4) {
            // Two ways that each return and never join.
            0 => {
                let to_else = self.condition();
                let before = self.slots.clone();
                self.returning();
                self.code.land(to_else);
                self.slots = before;
                self.returning();
            }
            // Into an end that is common to both.
            1 => {
                self.choice();
                self.returning();
            }
            _ => self.returning(),
        }
        if slips > 0 && self.rng.chance(25) {
            // Off the end: without its Return, or behind it.
            match self.rng.below(3) {
                0 => drop(self.code.0.pop()),
                1 => self.code.0.clear(),
                _ => {
                    let last = self.code.0.len() - 1;
                    self.code.0[last] = Op::GetLastResult as u8;
                }
            }
        } else if self.rng.chance(25) {
            self.dead_code();
        }
    }

    /// Returns at once where the first argument is below one, so that
    /// functions that call themselves come to an end.
    fn stop_of_recursion(&mut self) {
        if self.slots.is_empty() {
            return;
        }
        self.code.op1(Op::GetLocal, 0).op1(Op::LoadConstant, ONE);
        self.code.op(Op::LessThan);
        let on = self.code.jump(Op::JumpIfFalse);
        let before = self.slots.clone();
        self.leaf();
        self.code.op(Op::Return);
        self.code.land(on);
        self.slots = before;
    }

    fn returning(&mut self) {
        self.number();
        self.code.op(Op::Return);
    }

    // Statements: they may leave the stack higher or lower

    fn statement(&mut self) {
        match self.rng.below(14) {
            0..=2 => self.any(),
            3 => {
                self.truth();
                self.take(1);
                self.code.op1(Op::JumpIfFalse, 0);
            }
            4 | 5 => self.choice(),
            6 => self.over(),
            7 => self.jump_over_dead_code(),
            8 => {
                let height = self.rng.below(self.slots.len() + 2);
                self.settle(height);
            }
            // A Return of main goes on.
            9..=12 if self.function == 0 => {
                self.any();
                self.take(1);
                self.code.op(Op::Return);
            }
            13 if self.function == 0 => self.away_to_the_end(),
            _ => {
                // An early Return of a callee, and of main too.
                let on = self.condition();
                let before = self.slots.clone();
                self.any();
                self.code.op(Op::Return);
                self.take(1);
                if self.function != 0 && self.rng.chance(30) {
                    self.dead_code();
                }
                self.code.land(on);
                self.slots = before;
            }
        }
    }

    /// if .. then .. else, both ways as high where they join.
    fn choice(&mut self) {
        let to_else = self.condition();
        let before = self.slots.clone();
        let joined = before.len() + self.rng.below(3);
        self.block(joined);
        let to_end = self.code.jump(Op::Jump);
        self.code.land(to_else);
        let then = std::mem::replace(&mut self.slots, before);
        self.block(joined);
        self.code.land(to_end);
        for (slot, other) in self.slots.iter_mut().zip(then) {
            if *slot != other {
                *slot = Kind::Any;
            }
        }
    }

    /// if .. then, as high behind it as before it.
    fn over(&mut self) {
        let on = self.condition();
        let before = self.slots.clone();
        self.block(before.len());
        self.code.land(on);
        // What was put back may be of other kinds.
        for (slot, other) in self.slots.iter_mut().zip(before) {
            if *slot != other {
                *slot = Kind::Any;
            }
        }
    }

    fn block(&mut self, height: usize) {
        if self.fuel > 0 {
            self.fuel -= 1;
            for _ in 0..self.rng.below(3) {
                self.statement();
            }
        }
        self.settle(height);
    }

    /// A condition and a jump where it is false, still to land.
    fn condition(&mut self) -> usize {
        self.truth();
        self.take(1);
        self.code.jump(Op::JumpIfFalse)
    }

    /// Out of main, by a jump to its end.
    fn away_to_the_end(&mut self) {
        let on = self.condition();
        let before = self.slots.clone();
        self.settle(self.height_at_end);
        let away = self.code.jump(Op::Jump);
        self.to_end.push(away);
        self.code.land(on);
        self.slots = before;
    }

    fn jump_over_dead_code(&mut self) {
        let from = self.code.jump(Op::Jump);
        self.dead_code();
        self.code.land(from);
    }

    /// Whole instructions with good numbers that no path reaches, so that
    /// their heights are no matter.
    fn dead_code(&mut self) {
        for _ in 0..self.rng.between(1, 4) {
            let op = self.rng.pick(&CARRIED);
            self.code.op(op);
            match op {
                Op::Call if self.world.counts.len() > 1 => {
                    let called = self.rng.between(1, self.world.counts.len() - 1);
                    self.code.word(called).word(self.world.counts[called]);
                }
                Op::BuildStructInstance if self.world.structs > 0 => {
                    let number = self.rng.below(self.world.structs);
                    self.code.word(number).word(self.rng.below(9));
                }
                Op::LoadConstant => {
                    self.code.word(self.rng.below(self.world.constants.len()));
                }
                // Onto the instruction behind it.
                Op::Jump | Op::JumpIfFalse => {
                    self.code.word(0).op(Op::Negate);
                }
                Op::GetLocal | Op::GetUpvalue | Op::AccessStructField | Op::BuildList => {
                    self.code.word(self.rng.pick(&[0, 1, 9, 65_535]));
                }
                _ if op.operands_read() == 0 => {}
                // There is nothing that it could name.
                _ => {
                    self.code.0.pop();
                    self.code.op(Op::Add);
                }
            }
        }
    }

    /// Makes the stack so high.
    fn settle(&mut self, height: usize) {
        while self.slots.len() > height {
            let above = self.slots.len() - height;
            if height > 0 && self.rng.chance(20) {
                // Into a list, with the value below them.
                self.take(above + 1);
                self.code.op1(Op::BuildList, above + 1);
                self.slots.push(Kind::Any);
            } else {
                // Whatever it is, it can be compared.
                self.code.op1(Op::LoadConstant, ONE).op(Op::Equal);
                self.code.op1(Op::JumpIfFalse, 0);
                self.take(1);
            }
        }
        while self.slots.len() < height {
            self.any();
        }
    }

    fn take(&mut self, count: usize) {
        self.slots.truncate(self.slots.len() - count);
    }

    // Expressions: each leaves one value above what was there

    fn any(&mut self) {
        match self.rng.below(8) {
            0..=3 => self.number(),
            4 => self.truth(),
            5 => {
                let count = self.rng.below(4);
                for _ in 0..count {
                    self.any_leaf();
                }
                if self.world.structs > 0 && self.rng.chance(50) {
                    let number = self.rng.below(self.world.structs);
                    self.code.op2(Op::BuildStructInstance, number, count);
                } else {
                    self.code.op1(Op::BuildList, count);
                }
                self.take(count);
                self.slots.push(Kind::Any);
            }
            _ => self.any_leaf(),
        }
    }

    fn any_leaf(&mut self) {
        let height = self.slots.len();
        let kind = match self.rng.below(8) {
            0..=2 if height > 0 => {
                let slot = self.rng.below(height);
                self.code.op1(Op::GetLocal, slot);
                self.slots[slot]
            }
            3 => {
                // In main it is a slot like another; in others it may not be.
                let past = usize::from(self.rng.chance(5));
                self.code
                    .op1(Op::GetUpvalue, self.rng.below(height.max(1)) + past);
                Kind::Any
            }
            4 if self.rng.chance(20) => {
                self.code.op(Op::GetLastResult);
                Kind::Any
            }
            _ => {
                let constant = self.rng.below(self.world.constants.len());
                self.code.op1(Op::LoadConstant, constant);
                match self.world.constants[constant] {
                    Constant::Scalar(_) => Kind::Number,
                    Constant::Boolean(_) => Kind::Truth,
                    _ => Kind::Any,
                }
            }
        };
        self.slots.push(kind);
    }

    fn leaf(&mut self) {
        let numbers: Vec<usize> = (0..self.slots.len())
            .filter(|slot| self.slots[*slot] == Kind::Number)
            .collect();
        if !numbers.is_empty() && self.rng.chance(60) {
            let slot = self.rng.pick(&numbers);
            self.code.op1(Op::GetLocal, slot);
        } else {
            let scalars: Vec<usize> = (0..self.world.constants.len())
                .filter(|n| matches!(self.world.constants[*n], Constant::Scalar(_)))
                .collect();
            let constant = self.rng.pick(&scalars);
            self.code.op1(Op::LoadConstant, constant);
        }
        self.slots.push(Kind::Number);
    }

    fn number(&mut self) {
        if self.fuel == 0 {
            return self.leaf();
        }
        self.fuel -= 1;
        match self.rng.below(10) {
            0 | 1 => self.leaf(),
            2..=4 => {
                self.number();
                self.number();
                let op = self.rng.pick(&[
                    Op::Add,
                    Op::Add,
                    Op::Subtract,
                    Op::Subtract,
                    Op::Multiply,
                    Op::Divide,
                ]);
                self.code.op(op);
                self.take(1);
            }
            5 => {
                self.number();
                self.code.op(Op::Negate);
            }
            6 => {
                let to_else = self.condition();
                self.number();
                let to_end = self.code.jump(Op::Jump);
                self.take(1);
                self.code.land(to_else);
                self.number();
                self.code.land(to_end);
            }
            7 if self.world.structs > 0 => {
                let count = self.rng.between(1, 3);
                for _ in 0..count {
                    self.leaf();
                }
                let number = self.rng.below(self.world.structs);
                self.code.op2(Op::BuildStructInstance, number, count);
                let field = match self.rng.chance(95) {
                    true => self.rng.below(count),
                    false => count,
                };
                self.code.op1(Op::AccessStructField, field);
                self.take(count);
                self.slots.push(Kind::Number);
            }
            _ => self.call(),
        }
    }

    /// Mostly of a later function, so that most programs come to an end.
    fn call(&mut self) {
        let last = self.world.counts.len() - 1;
        let first = match self.rng.chance(30) {
            true => 1,
            false => self.function + 1,
        };
        if first > last {
            return self.leaf();
        }
        let called = self.rng.between(first, last);
        let count = self.world.counts[called];
        let falling = called <= self.function && self.slots.first() == Some(&Kind::Number);
        for argument in 0..count {
            if argument == 0 && falling {
                self.code.op1(Op::GetLocal, 0).op1(Op::LoadConstant, ONE);
                self.code.op(Op::Subtract);
                self.slots.push(Kind::Number);
            } else {
                self.number();
            }
        }
        self.code.op2(Op::Call, called, count);
        self.take(count);
        self.slots.push(Kind::Number);
    }

    fn truth(&mut self) {
        match self.rng.below(8) {
            0 => {
                self.code
                    .op1(Op::LoadConstant, self.rng.pick(&[FALSE, TRUE]));
                self.slots.push(Kind::Truth);
            }
            1 => {
                self.any_leaf();
                self.any_leaf();
                self.code.op(self.rng.pick(&[Op::Equal, Op::NotEqual]));
                self.take(2);
                self.slots.push(Kind::Truth);
            }
            2 if self.fuel > 0 => {
                self.fuel -= 1;
                self.truth();
                self.truth();
                self.code
                    .op(self.rng.pick(&[Op::LogicalAnd, Op::LogicalOr]));
                self.take(1);
            }
            3 if self.fuel > 0 => {
                self.fuel -= 1;
                self.truth();
                self.code.op(Op::LogicalNeg);
            }
            _ => {
                self.number();
                self.number();
                let op = self.rng.pick(&[
                    Op::LessThan,
                    Op::GreaterThan,
                    Op::LessOrEqual,
                    Op::GreatorOrEqual,
                ]);
                self.code.op(op);
                self.take(2);
                self.slots.push(Kind::Truth);
            }
        }
    }

    /// Something at the edge of the height, or one past it.
    fn slip(&mut self) {
        let past = usize::from(self.rng.chance(60));
        match self.rng.below(9) {
            0 => {
                // The uppermost slot, or the one above it.
                let height = self.rng.between(1, 3);
                self.settle(height);
                let slot = self.slots.len() - 1 + past;
                self.code.op1(Op::GetLocal, slot);
                self.slots.push(Kind::Any);
            }
            1 | 2 => {
                // All that there is, or one more.
                let height = self.rng.below(3);
                self.settle(height);
                let count = self.slots.len() + past;
                if self.world.structs > 0 && self.rng.chance(50) {
                    let number = self.rng.below(self.world.structs);
                    self.code.op2(Op::BuildStructInstance, number, count);
                } else {
                    self.code.op1(Op::BuildList, count);
                }
                self.slots = vec![Kind::Any];
            }
            3 => {
                self.settle(1 - past);
                let op = self.rng.pick(&[Op::Negate, Op::LogicalNeg]);
                match self.rng.chance(50) {
                    true => self.code.op(op),
                    false => self.code.op1(Op::AccessStructField, 0),
                };
                self.slots = vec![Kind::Any];
            }
            4 => {
                self.settle(2 - past);
                self.code
                    .op(self.rng.pick(&[Op::Add, Op::Equal, Op::LogicalOr]));
                self.slots = vec![Kind::Any];
            }
            5 if self.world.counts.len() > 1 => {
                // As many arguments as there are values, or one more.
                let called = self.rng.between(1, self.world.counts.len() - 1);
                let count = self.world.counts[called];
                self.settle(count.saturating_sub(past));
                self.code.op2(Op::Call, called, count);
                self.slots = vec![Kind::Number];
            }
            6 => {
                // In a callee this also cuts off what follows.
                self.settle(1 - past);
                self.code.op(Op::Return);
                self.slots.clear();
            }
            7 => {
                self.settle(1 - past);
                self.code.op1(Op::JumpIfFalse, 0);
                self.slots.clear();
            }
            _ => {
                // One way higher than the other where they join.
                let on = self.condition();
                let before = self.slots.clone();
                match self.rng.chance(50) {
                    true => self.any_leaf(),
                    false if !before.is_empty() => self.settle(before.len() - 1),
                    false => self.any_leaf(),
                }
                if past == 0 {
                    self.settle(before.len());
                }
                self.code.land(on);
                if self.rng.chance(50) {
                    self.slots = before;
                }
            }
        }
    }
}

#[cfg(test)]
mod tests {
    use super::*;
    use crate::check::judge;

    /// What is written without slips is a program that passes; so the check
    /// refuses nothing that is in order.
    #[test]
    fn what_is_written_without_slips_passes() {
        for index in 0..3_000 {
            let program = written(&mut Rng::new(5, index), 0);
            assert!(judge(&program).is_ok(), "{index}: {:?}", judge(&program));
        }
    }
}
