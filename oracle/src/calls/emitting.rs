//! What a story emits.

use super::Story;
use crate::image::{Constant, Program};
use crate::op::Op;
use crate::script::in_hex as hex;

impl Story<'_> {
    pub(super) fn place(&mut self) -> u32 {
        self.rng.draw() as u32 >> self.rng.below(32)
    }

    /// An instruction, with a place.
    pub(super) fn op(&mut self, op: u8, operands: &[u16]) -> String {
        let place = self.place();
        self.op_at(op, operands, place)
    }

    pub(super) fn op_at(&mut self, op: u8, operands: &[u16], place: u32) -> String {
        let number = match operands.len() {
            0 => String::new(),
            n => n.to_string(),
        };
        let operands: String = operands
            .iter()
            .map(|operand| format!("{operand} "))
            .collect();
        self.line(format!("op{number} {op} {operands}{place}"))
    }

    pub(super) fn code(&mut self, op: Op, operands: &[u16]) {
        self.op(op as u8, operands);
    }

    pub(super) fn load(&mut self, constant: u16) {
        self.code(Op::LoadConstant, &[constant]);
    }

    /// A constant; its number, or 65,535 if there is no room for it.
    pub(super) fn constant(&mut self, constant: &Constant) -> u16 {
        let said = self.line(match constant {
            Constant::Scalar(bits) => format!("scalar {bits:016X}"),
            Constant::Boolean(boolean) => format!("boolean {}", u8::from(*boolean)),
            Constant::String(text) => format!("string {}", hex(text)),
            Constant::FunctionReference(name) => format!("reference {}", hex(name)),
        });
        let number = said.trim_end().strip_prefix("done ");
        number.map_or(u16::MAX, |number| number.parse().expect("a number"))
    }

    pub(super) fn number(&mut self, value: f64) -> u16 {
        self.constant(&Constant::Scalar(value.to_bits()))
    }

    /// Two bytes of code that no instruction could be, at the end of the code.
    pub(super) fn unknown_opcode(&mut self, byte: u8) {
        self.op(byte, &[]);
        self.code(Op::Jump, &[0]);
        let at = self.machine().current_offset() - 3;
        self.line(format!("patch {at} {byte}"));
    }

    /// Code as it stands, instruction by instruction, as far as it can be
    /// emitted: a byte of 38 or more is refused, and patched in.
    pub(super) fn bytes(&mut self, code: &[u8], places: &[u32]) {
        let mut at = 0;
        while at < code.len() {
            let place = places[at];
            let count = Op::from_byte(code[at]).map_or(0, Op::operands_read);
            let operands = code.get(at + 1..at + 1 + 2 * count);
            match operands {
                _ if code[at] >= 38 => self.unknown_opcode(code[at]),
                Some(operands) => {
                    let operands: Vec<u16> = operands
                        .chunks_exact(2)
                        .map(|pair| u16::from_le_bytes([pair[0], pair[1]]))
                        .collect();
                    self.op_at(code[at], &operands, place);
                }
                // Cut short: its bytes as far as they are opcodes themselves.
                None => {
                    for byte in code[at..].iter().take_while(|byte| **byte < 38) {
                        self.op_at(*byte, &[], place);
                    }
                    return;
                }
            }
            at += 1 + 2 * count;
        }
    }

    /// A program, main first or last.
    pub(super) fn program(&mut self, program: &Program) {
        for constant in &program.constants {
            self.constant(constant);
        }
        for name in &program.structs {
            self.line(format!("struct {}", hex(name)));
        }
        let (main, others) = program.functions.split_first().expect("there is a main");
        let first = self.rng.chance(50);
        if first {
            self.bytes(&main.code, &main.places);
        }
        for function in others {
            self.line(format!("begin {}", hex(&function.name)));
            self.bytes(&function.code, &function.places);
        }
        // Where main is empty the newest function may stay the current one.
        if !main.code.is_empty() || self.rng.chance(50) {
            self.line("end");
        }
        if !first {
            self.bytes(&main.code, &main.places);
        }
    }
}
