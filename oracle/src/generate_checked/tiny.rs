//! Programs of a few instructions, heights as they fall: the smallest cases.

use super::codes::CARRIED;
use super::name;
use crate::generate::{function, number, struct_names, Code, Rng};
use crate::image::{Constant, Program};
use crate::op::Op;

/// An operand that is to be filled in once the code is laid out, or at once.
#[derive(Clone, Copy)]
enum Operand {
    Is(usize),
    /// The offset to this instruction of the function.
    To(usize),
}

/// One to four functions of a few instructions each. The numbers are good
/// for the most part, and jumps land; nothing is done about heights.
pub fn tiny(rng: &mut Rng) -> Program {
    let functions = rng.between(1, 4);
    let constants = rng.below(3);
    let structs = rng.below(3);
    let counts: Vec<usize> = (0..functions).map(|_| rng.below(3)).collect();
    let careful = rng.chance(80);
    let mut program = Program::new();
    program.functions.clear();
    program.structs = struct_names(structs);
    program.constants = (0..constants)
        .map(|n| match rng.below(3) {
            0 => Constant::Boolean(n == 0),
            _ => number(n as f64),
        })
        .collect();
    for number in 0..functions {
        let length = rng.pick(&[0, 1, 2, 2, 3, 3, 4, 5, 7]);
        let mut row: Vec<(Op, Vec<Operand>)> = (0..length)
            .map(|at| {
                let op = tiny_op(rng);
                let operands = tiny_operands(rng, op, at, length, constants, structs, &counts);
                let mut row = (op, operands);
                if careful {
                    mend(&mut row, constants, structs, functions);
                }
                row
            })
            .collect();
        if number > 0 && length > 0 && rng.chance(85) {
            row.push((Op::Return, vec![]));
        }
        let code = laid_out(&row, rng, careful);
        program.functions.push(function(rng, &name(number), code));
    }
    program
}

fn tiny_op(rng: &mut Rng) -> Op {
    match rng.below(20) {
        0..=5 => Op::LoadConstant,
        6 => Op::GetLocal,
        7 => Op::GetUpvalue,
        8 => Op::GetLastResult,
        9 | 10 => Op::JumpIfFalse,
        11 => Op::Jump,
        12 | 13 => Op::Call,
        14 => Op::Return,
        15 => rng.pick(&[Op::BuildList, Op::BuildStructInstance]),
        16 => rng.pick(&[Op::Negate, Op::LogicalNeg, Op::AccessStructField]),
        17 | 18 => rng.pick(&CARRIED),
        _ => rng.pick(&[Op::Add, Op::Equal, Op::LessThan, Op::LogicalOr]),
    }
}

fn tiny_operands(
    rng: &mut Rng,
    op: Op,
    at: usize,
    length: usize,
    constants: usize,
    structs: usize,
    counts: &[usize],
) -> Vec<Operand> {
    // Rarely a number just past its range.
    let within = |rng: &mut Rng, count: usize| {
        let past = usize::from(rng.chance(4));
        rng.below(count.max(1)) + past
    };
    let operands = match op {
        Op::LoadConstant => vec![within(rng, constants)],
        Op::BuildStructInstance => vec![within(rng, structs), rng.below(3)],
        Op::Call => {
            let called = match counts.len() {
                1 => within(rng, 1),
                functions if rng.chance(97) => rng.between(1, functions - 1),
                functions => within(rng, functions),
            };
            let count = counts.get(called).copied().unwrap_or(0);
            vec![called, count + usize::from(rng.chance(4))]
        }
        Op::Jump | Op::JumpIfFalse => {
            return vec![Operand::To(rng.between(at + 1, length.max(at + 1)))];
        }
        _ => vec![rng.below(3); op.operands_read()],
    };
    operands.into_iter().map(Operand::Is).collect()
}

/// Another instruction for one that has nothing to name.
fn mend(row: &mut (Op, Vec<Operand>), constants: usize, structs: usize, functions: usize) {
    let nothing = match row.0 {
        Op::LoadConstant => constants == 0,
        Op::BuildStructInstance => structs == 0,
        Op::Call => functions == 1,
        _ => false,
    };
    if nothing {
        *row = (Op::BuildList, vec![Operand::Is(0)]);
    }
}

/// The code of a row. A careless one has jumps to any byte.
fn laid_out(row: &[(Op, Vec<Operand>)], rng: &mut Rng, careful: bool) -> Code {
    let mut starts = vec![0];
    for (op, _) in row {
        starts.push(starts[starts.len() - 1] + 1 + 2 * op.operands_read());
    }
    let mut code = Code::default();
    for (index, (op, operands)) in row.iter().enumerate() {
        code.op(*op);
        for operand in operands {
            match operand {
                Operand::Is(number) => code.word(*number),
                Operand::To(_) if !careful && rng.chance(30) => code.word(rng.below(9)),
                Operand::To(other) => {
                    code.word(starts[(*other).min(row.len())] - starts[index + 1])
                }
            };
        }
    }
    code
}
