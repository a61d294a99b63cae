//! What the runner, the lister and the noter print, and the records to compare with.

use crate::image::{Constant, Program};
use crate::limits::{self, Answer, Entry, Machine, Refused, Report, Stores};
use crate::op::Op;
use crate::value::{shown_bits, Value};

/// The longest image that the runner and the lister read.
pub const MAX_IMAGE: usize = 16_384;
/// The units of the runner.
pub const UNITS: u64 = 1_000_000;

/// What the runner did with an image.
pub struct Ran {
    pub report: Report,
    pub machine: Machine,
}

/// Loads an image as the runner and the lister do.
pub fn load(image: &[u8]) -> Result<Machine, Refused> {
    if image.len() > MAX_IMAGE {
        return Err(Refused::Limit);
    }
    Machine::load(image, Stores::RUNNER)
}

pub fn run(image: &[u8]) -> Result<Ran, Refused> {
    run_as(false, image)
}

/// The run of the runner, on a machine that is strict or not.
fn run_as(strict: bool, image: &[u8]) -> Result<Ran, Refused> {
    let mut machine = load(image)?;
    machine.strict = strict;
    let report = machine.run(UNITS);
    Ok(Ran { report, machine })
}

/// The text of the runner, whose machine is not strict.
pub fn runner(image: &[u8]) -> String {
    text_of(run(image))
}

/// What it would be on a strict machine: that of `./chaffwheel run --strict`.
pub fn strict_runner(image: &[u8]) -> String {
    text_of(run_as(true, image))
}

fn text_of(run: Result<Ran, Refused>) -> String {
    match run {
        Ok(ran) => ran_text(&ran),
        Err(refused) => refused_text(refused),
    }
}

/// What loading an image answers: `loaded`, the numbers of constants, structs
/// and functions and the bytes of text; or `refused N`, 20 with its offset.
pub fn loader(image: &[u8]) -> String {
    match load(image) {
        Ok(machine) => {
            let program = &machine.program;
            format!(
                "loaded {} {} {} {}\n",
                program.constants.len(),
                program.structs.len(),
                program.functions.len(),
                limits::text(program)
            )
        }
        Err(Refused::Image(offset)) => format!("refused 20 {offset}\n"),
        Err(refused) => refused_text(refused),
    }
}

/// The record of an image: the lengths of four parts (each u32, low byte
/// first), then the parts: the image, what loading it answers, what the runner
/// prints, what the lister prints.
pub fn record(image: &[u8]) -> Vec<u8> {
    in_parts([
        image,
        loader(image).as_bytes(),
        runner(image).as_bytes(),
        &lister(image),
    ])
}

/// The lengths of the parts (each u32, low byte first), then the parts.
pub fn in_parts<const N: usize>(parts: [&[u8]; N]) -> Vec<u8> {
    let lengths = parts.map(|part| (part.len() as u32).to_le_bytes());
    [lengths.concat(), parts.concat()].concat()
}

pub fn refused_text(refused: Refused) -> String {
    format!("refused {}\n", refused.number())
}

pub fn ran_text(ran: &Ran) -> String {
    let mut out = match &ran.report.answer {
        Answer::Value(value) => format!("value {}\n", value_text(value)),
        Answer::Continue => "continue\n".to_owned(),
        Answer::Fault(number) => format!("fault {number}\n"),
    };
    out += &format!("spent {}\n", ran.report.spent);
    out += &format!("stack {}\n", ran.machine.stack.len());
    out.extend(ran.report.backtrace.iter().map(entry_line));
    out
}

/// A line of a backtrace.
pub fn entry_line(entry: &Entry) -> String {
    let Entry {
        function,
        place,
        entered,
    } = entry;
    format!("at {function} {place} {entered}\n")
}

pub fn value_text(value: &Value) -> String {
    match value {
        Value::Scalar(scalar) => format!("scalar {:016X}", shown_bits(*scalar)),
        Value::Boolean(boolean) => boolean.to_string(),
        Value::String(text) => format!("string {}", text.len()),
        Value::FunctionReference(name) => format!("function {}", name.len()),
        Value::List(elements) => format!("list {}", elements.items().len()),
        Value::StructInstance(number, fields) => {
            format!("struct {number} {}", fields.items().len())
        }
    }
}

/// The text of the lister. It is bytes, as function names are.
pub fn lister(image: &[u8]) -> Vec<u8> {
    load(image)
        .and_then(|machine| listing(&machine.program))
        .unwrap_or_else(|refused| refused_text(refused).into_bytes())
}

/// Whether the listing meets no opcode whose operands 000 counts otherwise, so
/// that 000 lists the same.
pub fn is_listed_by_000(program: &Program) -> bool {
    program.functions.iter().all(|function| {
        let mut offset = 0;
        while let Some(op) = function.code.get(offset).copied().and_then(Op::from_byte) {
            if op.num_operands() != op.operands_read() {
                return false;
            }
            offset += 1 + 2 * op.operands_read();
        }
        true
    })
}

/// The text of the noter: the lister's, with notes.
pub fn noter(image: &[u8]) -> Vec<u8> {
    load(image)
        .and_then(|machine| noted_listing(&machine.program))
        .unwrap_or_else(|refused| refused_text(refused).into_bytes())
}

/// The listing of all functions in order, or 1 or 3 as met first.
pub fn listing(program: &Program) -> Result<Vec<u8>, Refused> {
    listing_with(program, |_, _, _, _| String::new())
}

/// The same with notes behind the operands of each instruction.
pub fn noted_listing(program: &Program) -> Result<Vec<u8>, Refused> {
    listing_with(program, |op, operands, end, place| {
        notes(program, op, operands, end, place)
    })
}

/// What the operands of an instruction that ends at `end` name, and its place,
/// each behind its mark.
fn notes(program: &Program, op: Op, operands: &[u16], end: usize, place: u32) -> String {
    let first = operands.first().map_or(0, |&operand| operand as usize);
    let named = match op {
        Op::LoadConstant => Some(match program.constants.get(first) {
            Some(Constant::Scalar(bits)) => format!("scalar {bits:016X}"),
            Some(Constant::Boolean(boolean)) => boolean.to_string(),
            Some(Constant::String(text)) => format!("string {}", shown_text(text)),
            Some(Constant::FunctionReference(name)) => format!("function {}", shown_text(name)),
            None => "no constant".to_owned(),
        }),
        Op::Call => Some(match program.functions.get(first) {
            Some(function) => shown_text(&function.name),
            None => "no function".to_owned(),
        }),
        Op::BuildStructInstance => Some(match program.structs.get(first) {
            Some(name) => shown_text(name),
            None => "no struct".to_owned(),
        }),
        Op::Jump | Op::JumpIfFalse => Some(format!("to {:04}", end + first)),
        _ => None,
    };
    let named = named.map_or(String::new(), |named| format!("  ; {named}"));
    format!("{named}  ; place {place}")
}

/// A text in a note: 24 bytes at most, those that are no plain letters as dots.
fn shown_text(text: &[u8]) -> String {
    let plain = |&byte: &u8| match byte {
        32..=126 => byte as char,
        _ => '.',
    };
    let shown: String = text.iter().take(24).map(plain).collect();
    shown + if text.len() > 24 { ".." } else { "" }
}

fn listing_with(
    program: &Program,
    notes: impl Fn(Op, &[u16], usize, u32) -> String,
) -> Result<Vec<u8>, Refused> {
    let mut out = vec![];
    for (number, function) in program.functions.iter().enumerate() {
        out.extend_from_slice(format!(".CODE {number} (").as_bytes());
        out.extend_from_slice(&function.name);
        out.extend_from_slice(b")\n");
        let mut offset = 0;
        while offset < function.code.len() {
            let op = Op::from_byte(function.code[offset]).ok_or(Refused::Opcode)?;
            let end = offset + 1 + 2 * op.operands_read();
            let operands = function.code.get(offset + 1..end);
            let operands = operands.ok_or(Refused::CutShort)?;
            let operands: Vec<u16> = operands
                .chunks_exact(2)
                .map(|pair| u16::from_le_bytes([pair[0], pair[1]]))
                .collect();
            let shown: Vec<String> = operands.iter().map(u16::to_string).collect();
            out.extend_from_slice(
                format!(
                    "  {:04} {:<13} {}{}\n",
                    offset,
                    op.to_string(),
                    shown.join(" "),
                    notes(op, &operands, end, function.places[offset])
                )
                .as_bytes(),
            );
            offset = end;
        }
    }
    Ok(out)
}
