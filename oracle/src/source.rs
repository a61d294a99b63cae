//! A rule source of a program: [`crate::asm`] makes the same program of it.
//!
//! Instructions are written by name, with the names of what they name, and jumps
//! with labels. What no instruction of a source says is written as bytes: code
//! that is cut short, is not carried, names nothing, calls main, or has several
//! places in one instruction.

use std::collections::{BTreeSet, HashMap};

use crate::asm::{assemble, is_name};
use crate::image::{image, parse, Constant, Function, Program};
use crate::op::Op;

/// The source of a program.
pub fn source(program: &Program) -> String {
    let structs = names("s", &program.structs);
    let functions: Vec<Vec<u8>> = program.functions.iter().map(|f| f.name.clone()).collect();
    let functions = names("f", &functions);
    let mut out = "# made of an image; asm makes the same image of it\n".to_owned();
    for (number, constant) in program.constants.iter().enumerate() {
        out += &format!("constant c{number} {}\n", constant_text(constant));
    }
    for (name, text) in structs.iter().zip(&program.structs) {
        out += &format!("struct {name}{}\n", told(name, text));
    }
    for (number, function) in program.functions.iter().enumerate() {
        out += &match number {
            0 => "\nmain\n".to_owned(),
            _ => {
                let name = &functions[number];
                format!("\nfunction {name}{}\n", told(name, &function.name))
            }
        };
        out += &code_text(program, &structs, &functions, function);
    }
    out
}

/// A name for each text: the text itself where it can be one and no other has
/// it, else a letter and the number. Of a function 0 the name is not used.
fn names(letter: &str, texts: &[Vec<u8>]) -> Vec<String> {
    let mut count: HashMap<&[u8], usize> = HashMap::new();
    for text in texts {
        *count.entry(text).or_default() += 1;
    }
    let named = |text: &[u8]| -> Option<String> {
        let name = std::str::from_utf8(text).ok()?;
        let rest = name.strip_prefix(letter).unwrap_or("x");
        let numbered = rest.bytes().all(|byte| byte.is_ascii_digit());
        let fits = is_name(name) && !numbered && name != "main" && count[text] == 1;
        fits.then(|| name.to_owned())
    };
    let all = texts.iter().enumerate();
    all.map(|(number, text)| named(text).unwrap_or_else(|| format!("{letter}{number}")))
        .collect()
}

/// The text behind a name, where it is another.
fn told(name: &str, text: &[u8]) -> String {
    if name.as_bytes() == text {
        String::new()
    } else {
        format!(" {}", quoted(text))
    }
}

fn quoted(text: &[u8]) -> String {
    let bytes: String = text
        .iter()
        .map(|byte| match byte {
            b'"' | b'\\' => format!("\\{}", *byte as char),
            b' '..=b'~' => (*byte as char).to_string(),
            _ => format!("\\x{byte:02X}"),
        })
        .collect();
    format!("\"{bytes}\"")
}

fn constant_text(constant: &Constant) -> String {
    match constant {
        Constant::Scalar(bits) => format!("scalar {}", scalar_text(*bits)),
        Constant::Boolean(boolean) => format!("boolean {boolean}"),
        Constant::String(text) => format!("string {}", quoted(text)),
        Constant::FunctionReference(name) => format!("reference {}", quoted(name)),
    }
}

/// Rust prints the shortest decimal that reads back as the same number.
fn scalar_text(bits: u64) -> String {
    let value = f64::from_bits(bits);
    let size = value.abs();
    if size == 0.0 || (1e-6..1e16).contains(&size) {
        format!("{value}")
    } else {
        format!("0x{bits:016X}")
    }
}

/// How many bytes the line at an offset takes, and its instruction if it has one.
fn line_at(program: &Program, function: &Function, offset: usize) -> (usize, Option<Op>) {
    let code = &function.code;
    let place = function.places[offset];
    let Some(op) = Op::from_byte(code[offset]).filter(|op| op.is_carried()) else {
        return (1, None);
    };
    let end = offset + 1 + 2 * op.operands_read();
    let whole = function.places.get(offset..end);
    if !whole.is_some_and(|places| places.iter().all(|other| *other == place)) {
        return (1, None);
    }
    let first = || usize::from(u16::from_le_bytes([code[offset + 1], code[offset + 2]]));
    let meant = match op {
        Op::LoadConstant => first() < program.constants.len(),
        Op::BuildStructInstance => first() < program.structs.len(),
        Op::Call => (1..program.functions.len()).contains(&first()),
        _ => true,
    };
    if meant {
        (end - offset, Some(op))
    } else {
        (1, None)
    }
}

/// Where the jump at an offset goes.
fn target(function: &Function, offset: usize) -> usize {
    let code = &function.code;
    offset + 3 + usize::from(u16::from_le_bytes([code[offset + 1], code[offset + 2]]))
}

fn code_text(
    program: &Program,
    structs: &[String],
    functions: &[String],
    function: &Function,
) -> String {
    let length = function.code.len();
    let mut lines = vec![];
    let mut offset = 0;
    while offset < length {
        let (bytes, op) = line_at(program, function, offset);
        lines.push((offset, bytes, op));
        offset += bytes;
    }
    let starts: BTreeSet<usize> = lines.iter().map(|(start, ..)| *start).collect();
    let lands = |target: usize| target == length || starts.contains(&target);
    let labels: BTreeSet<usize> = lines
        .iter()
        .filter(|(.., op)| matches!(op, Some(Op::Jump | Op::JumpIfFalse)))
        .map(|(start, ..)| target(function, *start))
        .filter(|target| lands(*target))
        .collect();
    let mut out = String::new();
    let mut place = None;
    for (start, bytes, op) in lines {
        if labels.contains(&start) {
            out += &format!("at{start}:\n");
        }
        if place != Some(function.places[start]) {
            place = Some(function.places[start]);
            out += &format!("place {}\n", function.places[start]);
        }
        let code = &function.code[start..start + bytes];
        let Some(op) = op else {
            out += &format!("  bytes {:02X}\n", code[0]);
            continue;
        };
        out += &format!("  {}", op.to_string());
        for (index, pair) in code[1..].chunks_exact(2).enumerate() {
            let number = usize::from(u16::from_le_bytes([pair[0], pair[1]]));
            out += &match (op, index) {
                (Op::LoadConstant, 0) => format!(" c{number}"),
                (Op::BuildStructInstance, 0) => format!(" {}", structs[number]),
                (Op::Call, 0) => format!(" {}", functions[number]),
                (Op::Jump | Op::JumpIfFalse, 0) if labels.contains(&target(function, start)) => {
                    format!(" at{}", target(function, start))
                }
                _ => format!(" {number}"),
            };
        }
        out += "\n";
    }
    if labels.contains(&length) {
        out += &format!("at{length}:\n");
    }
    out
}

/// Whether an image comes back, byte for byte, from a source that is made of it.
/// None: it is no image.
pub fn comes_back(bytes: &[u8]) -> Option<bool> {
    let program = parse(bytes).ok()?;
    let again = assemble(source(&program).as_bytes());
    Some(again.is_ok_and(|program| image(&program) == bytes))
}
