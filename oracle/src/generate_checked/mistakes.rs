//! Mistakes, by which a program breaks a rule, or only nearly does.

use super::codes::{append_dead, extend, instructions, set_word, word_at, CARRIED};
use crate::generate::{Code, Rng};
use crate::image::{Function, Program, MAIN};
use crate::op::{Op, OPS};

/// One mistake in one function, of any rule.
pub fn mistake(rng: &mut Rng, program: &mut Program) {
    let function = rng.below(program.functions.len());
    match rng.below(7) {
        0 => not_whole(rng, &mut program.functions[function]),
        1 => number_out_of_range(rng, program, function),
        2 => forbidden_call(rng, program, function),
        3 | 4 => other_count(rng, program, function),
        5 => stray_jump(rng, &mut program.functions[function]),
        _ => other_height(rng, &mut program.functions[function]),
    }
}

/// Puts code behind a function's; in main mostly, and in others always, where
/// no path comes.
fn append(rng: &mut Rng, function: &mut Function, code: &[u8]) {
    match function.name == MAIN && rng.chance(30) {
        true => extend(function, code),
        false => append_dead(function, code),
    }
}

fn cut(function: &mut Function, length: usize) {
    function.code.truncate(length);
    function.places.truncate(length);
}

/// An opcode that is unknown or not carried, or a cut-off operand.
fn not_whole(rng: &mut Rng, function: &mut Function) {
    let not_carried: Vec<Op> = OPS.into_iter().filter(|op| !op.is_carried()).collect();
    let opcode = match rng.chance(50) {
        true => rng.pick(&[38, 39, 127, 128, 255]),
        false => rng.pick(&not_carried) as u8,
    };
    let row = instructions(&function.code);
    match rng.below(4) {
        0 if !row.is_empty() => {
            let (at, _) = rng.pick(&row);
            function.code[at] = opcode;
        }
        1 if !row.is_empty() => {
            let shorter = function.code.len() - rng.between(1, 4).min(function.code.len());
            cut(function, shorter);
        }
        2 => {
            let op = rng.pick(&CARRIED);
            let whole = [&[op as u8][..], &vec![0; 2 * op.operands_read()]].concat();
            let length = rng.between(1, whole.len());
            append(rng, function, &whole[..length]);
        }
        _ => append(rng, function, &[opcode, 0, 0, 0, 0, 0, 0]),
    }
}

/// A number that is just past its range, the last of it, or far out.
fn number_out_of_range(rng: &mut Rng, program: &mut Program, function: usize) {
    let range = |op: Op| match op {
        Op::LoadConstant => Some(program.constants.len()),
        Op::BuildStructInstance => Some(program.structs.len()),
        Op::Call => Some(program.functions.len()),
        _ => None,
    };
    let row = instructions(&program.functions[function].code);
    let naming: Vec<(usize, usize)> = row
        .iter()
        .filter_map(|(at, op)| range(*op).map(|count| (*at, count)))
        .collect();
    let edge = |rng: &mut Rng, count: usize| {
        rng.pick(&[count, count, count.saturating_sub(1), count + 256, 65_535])
    };
    if !naming.is_empty() && rng.chance(60) {
        let (at, count) = rng.pick(&naming);
        let number = edge(rng, count);
        set_word(&mut program.functions[function].code, at + 1, number);
    } else {
        let op = rng.pick(&[Op::LoadConstant, Op::BuildStructInstance, Op::Call]);
        let count = range(op).expect("it names something");
        let mut code = Code::default();
        code.op1(op, edge(rng, count));
        if op != Op::LoadConstant {
            code.word(rng.below(3));
        }
        append(rng, &mut program.functions[function], &code.0);
    }
}

/// A CallCallable, or a Call of main.
fn forbidden_call(rng: &mut Rng, program: &mut Program, function: usize) {
    let row = instructions(&program.functions[function].code);
    let wide: Vec<(usize, Op)> = row
        .into_iter()
        .filter(|(_, op)| matches!(op, Op::Call | Op::BuildStructInstance))
        .collect();
    let code = &mut program.functions[function].code;
    if !wide.is_empty() && rng.chance(60) {
        let (at, op) = rng.pick(&wide);
        if op == Op::Call && rng.chance(60) {
            set_word(code, at + 1, 0);
        } else {
            code[at] = Op::CallCallable as u8;
        }
    } else {
        let mut code = Code::default();
        match rng.chance(50) {
            true => code.op2(Op::CallCallable, rng.below(3), rng.below(9)),
            false => code.op2(Op::Call, 0, rng.below(3)),
        };
        append(rng, &mut program.functions[function], &code.0);
    }
}

/// A Call with one argument more or fewer than others, or the only one.
fn other_count(rng: &mut Rng, program: &mut Program, function: usize) {
    let row = instructions(&program.functions[function].code);
    let calls: Vec<usize> = row
        .into_iter()
        .filter(|(_, op)| *op == Op::Call)
        .map(|(at, _)| at)
        .collect();
    if !calls.is_empty() && rng.chance(60) {
        let at = rng.pick(&calls);
        let code = &mut program.functions[function].code;
        let count = word_at(code, at + 3);
        let other = rng.pick(&[count + 1, count.saturating_sub(1), 0, 65_535]);
        set_word(code, at + 3, other);
    } else if program.functions.len() > 1 {
        let called = rng.between(1, program.functions.len() - 1);
        let mut code = Code::default();
        code.op2(Op::Call, called, rng.below(4));
        append(rng, &mut program.functions[function], &code.0);
    }
}

/// A jump into an operand, to the end, past it, or to nowhere far.
fn stray_jump(rng: &mut Rng, function: &mut Function) {
    let row = instructions(&function.code);
    let jumps: Vec<usize> = row
        .into_iter()
        .filter(|(_, op)| matches!(op, Op::Jump | Op::JumpIfFalse))
        .map(|(at, _)| at)
        .collect();
    if !jumps.is_empty() && rng.chance(60) {
        let at = rng.pick(&jumps);
        let offset = word_at(&function.code, at + 1);
        let to_end = function.code.len() - (at + 3);
        let other = rng.pick(&[
            offset + 1,
            offset.saturating_sub(1),
            offset + 3,
            to_end,
            to_end + 1,
            to_end.saturating_sub(1),
            0,
            65_535,
        ]);
        set_word(&mut function.code, at + 1, other);
    } else {
        let mut code = Code::default();
        code.op1(
            rng.pick(&[Op::Jump, Op::JumpIfFalse]),
            rng.pick(&[0, 0, 1, 2, 65_535]),
        );
        append(rng, function, &code.0);
    }
}

/// An instruction made one of the same length, or its operand another: the
/// heights behind it are others. Or the end of the code is lost.
fn other_height(rng: &mut Rng, function: &mut Function) {
    let row = instructions(&function.code);
    if row.is_empty() || rng.chance(10) {
        return cut(function, 0);
    }
    let (at, op) = match rng.chance(30) {
        true => row[row.len() - 1],
        false => rng.pick(&row),
    };
    if rng.chance(15) {
        return cut(function, at);
    }
    let slot_or_count = match op {
        Op::GetLocal | Op::BuildList => Some(at + 1),
        Op::BuildStructInstance => Some(at + 3),
        _ => None,
    };
    match slot_or_count {
        Some(operand) if rng.chance(70) => {
            let number = word_at(&function.code, operand);
            let other = rng.pick(&[number + 1, number + 1, number.saturating_sub(1), 65_535]);
            set_word(&mut function.code, operand, other);
        }
        _ => {
            let as_long: Vec<Op> = CARRIED
                .into_iter()
                .filter(|other| other.operands_read() == op.operands_read())
                .collect();
            // After an earlier mistake it may be one that is not carried, and
            // longer than any that is.
            if !as_long.is_empty() {
                function.code[at] = rng.pick(&as_long) as u8;
            }
        }
    }
}
