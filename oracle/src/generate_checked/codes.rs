//! Code as instructions, to be altered.

use crate::image::{Function, MAIN};
use crate::op::{Op, OPS};

/// The carried opcodes but CallCallable, which no program that passes has.
pub const CARRIED: [Op; 25] = {
    let mut carried = [Op::LoadConstant; 25];
    let mut count = 0;
    let mut number = 0;
    while number < OPS.len() {
        let op = OPS[number];
        if op.is_carried() && !matches!(op, Op::CallCallable) {
            carried[count] = op;
            count += 1;
        }
        number += 1;
    }
    assert!(count == carried.len());
    carried
};

/// Where the instructions of a code begin, as far as it is a row of them.
pub fn instructions(code: &[u8]) -> Vec<(usize, Op)> {
    let mut out = vec![];
    let mut at = 0;
    while let Some(op) = code.get(at).and_then(|byte| Op::from_byte(*byte)) {
        if at + 1 + 2 * op.operands_read() > code.len() {
            break;
        }
        out.push((at, op));
        at += 1 + 2 * op.operands_read();
    }
    out
}

pub fn set_word(code: &mut [u8], at: usize, word: usize) {
    code[at..at + 2].copy_from_slice(&(word as u16).to_le_bytes());
}

pub fn word_at(code: &[u8], at: usize) -> usize {
    usize::from(u16::from_le_bytes([code[at], code[at + 1]]))
}

/// Main's code goes on behind its last instruction, so that a jump to the end
/// has to pass over it.
pub fn append_dead(function: &mut Function, code: &[u8]) {
    if function.name == MAIN {
        extend(function, &[Op::Jump as u8]);
        extend(function, &(code.len() as u16).to_le_bytes());
    }
    extend(function, code);
}

pub fn extend(function: &mut Function, code: &[u8]) {
    function.code.extend_from_slice(code);
    let place = function.places.last().copied().unwrap_or(0);
    function.places.resize(function.code.len(), place);
}
