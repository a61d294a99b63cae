//! Large programs: heights, codes, jumps and numbers of functions at the edge
//! of what the runner's stores hold.

use super::name;
use crate::generate::{function, number, Code, Rng};
use crate::image::{Constant, Program, MAIN};
use crate::op::Op;

/// One of them.
pub fn large(rng: &mut Rng) -> Program {
    let mut main = Code::default();
    let mut others = vec![];
    match rng.below(7) {
        // As high as code can get; the list is made of all, or of one more.
        0 => {
            let height = rng.pick(&[255, 256, 1_024, 2_000, 2_728]);
            for _ in 0..height {
                main.op1(Op::LoadConstant, 0);
            }
            main.op1(Op::BuildList, height + rng.below(2));
            main.op(Op::Return);
        }
        // Conditions that all jump to one place.
        1 => {
            let mut jumps = vec![];
            for _ in 0..rng.between(100, 1_300) {
                main.op1(Op::LoadConstant, 1);
                jumps.push(main.jump(Op::JumpIfFalse));
            }
            if rng.chance(30) {
                main.op1(Op::LoadConstant, 1);
            }
            jumps.into_iter().for_each(|from| main.land(from));
            if rng.chance(50) {
                main.op1(Op::LoadConstant, 1).op(Op::Return);
            }
        }
        // Conditions in each other, both ways as high or one not.
        2 => {
            let depth = rng.between(50, 500);
            let mut jumps = vec![];
            for _ in 0..depth {
                main.op1(Op::LoadConstant, 1);
                jumps.push(main.jump(Op::JumpIfFalse));
            }
            main.op1(Op::LoadConstant, 0);
            let wrong = rng.below(2 * depth);
            for (level, to_else) in jumps.into_iter().rev().enumerate() {
                let to_end = main.jump(Op::Jump);
                main.land(to_else);
                main.op1(Op::LoadConstant, 0);
                if level == wrong {
                    main.op(Op::GetLastResult);
                }
                main.land(to_end);
            }
            main.op(Op::Return);
        }
        // As many functions as there may be, or one more, each calling the
        // next, and a mistake in one of them.
        3 => {
            let last = rng.pick(&[254, 255, 256]);
            main.op2(Op::Call, 1, 0).op(Op::Return);
            let wrong = rng.below(2 * last);
            for number in 1..=last {
                let mut code = Code::default();
                if number == wrong {
                    code.op(Op::Negate);
                } else if number < last {
                    code.op2(Op::Call, number + 1, 0);
                } else {
                    code.op1(Op::LoadConstant, 0);
                }
                code.op(Op::Return);
                others.push(code);
            }
        }
        // A store full of code, jumped over.
        4 => {
            let length = rng.pick(&[8_191, 8_192, 8_193]);
            let code = match rng.chance(50) {
                true => &mut main,
                false => {
                    others.push(Code::default());
                    &mut others[0]
                }
            };
            code.op1(Op::LoadConstant, 1);
            let from = code.jump(rng.pick(&[Op::JumpIfFalse, Op::Jump]));
            code.op1(Op::LoadConstant, 1);
            code.0.resize(length - 4, Op::Negate as u8);
            if rng.chance(50) {
                code.land(from);
            }
            code.op1(Op::LoadConstant, 1).op(Op::Return);
            if rng.chance(50) {
                code.land(from);
            }
        }
        // Heights around the greatest of 16 bits: of a function that is passed
        // so many values only where no path comes.
        5 => {
            let count = rng.pick(&[65_533, 65_534, 65_535]);
            let from = main.jump(Op::Jump);
            main.op2(Op::Call, 1, count);
            main.land(from);
            let mut code = Code::default();
            let pushes = rng.below(5);
            for _ in 0..pushes {
                code.op(Op::GetLastResult);
            }
            let height = count + pushes + rng.below(2);
            match rng.below(3) {
                0 if height <= 65_535 => code.op1(Op::BuildList, height),
                1 if height <= 65_536 => code.op1(Op::GetLocal, height - 1),
                _ => code.op(Op::Add),
            };
            code.op(Op::Return);
            others.push(code);
        }
        // Arguments as many as there are values.
        _ => {
            let count = rng.between(200, 1_000);
            for _ in 0..count {
                main.op1(Op::LoadConstant, 0);
            }
            main.op2(Op::Call, 1, count + usize::from(rng.chance(30)));
            let mut code = Code::default();
            code.op1(Op::GetLocal, count - 1 + rng.below(3));
            code.op(Op::Return);
            others.push(code);
        }
    }
    let constants = vec![number(1.0), Constant::Boolean(rng.chance(50))];
    let mut functions = vec![function(rng, MAIN, main)];
    for (index, code) in others.into_iter().enumerate() {
        functions.push(function(rng, &name(index + 1), code));
    }
    Program {
        constants,
        structs: vec![],
        functions,
    }
}
