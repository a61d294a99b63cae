//! What several tests use.
#![allow(dead_code)]

use oracle::image::{image, Constant, Function, Program, MAIN};
use oracle::limits::{Answer, Machine, Report, Stores};

/// Bytes from hex digits; spaces do not count.
pub fn hex(text: &str) -> Vec<u8> {
    let digits: Vec<u32> = text.chars().filter_map(|c| c.to_digit(16)).collect();
    digits
        .chunks(2)
        .map(|pair| (pair[0] * 16 + pair[1]) as u8)
        .collect()
}

pub fn number(value: f64) -> Constant {
    Constant::Scalar(value.to_bits())
}

/// A program of code in hex, main first, the others named f1, f2 and so on.
/// The place of each byte is its own offset, so that places name bytes.
pub fn program(constants: &[Constant], codes: &[&str]) -> Program {
    let functions = codes.iter().enumerate().map(|(index, code)| {
        let code = hex(code);
        Function {
            name: match index {
                0 => MAIN.to_vec(),
                _ => format!("f{index}").into_bytes(),
            },
            places: (0..code.len() as u32).collect(),
            code,
        }
    });
    Program {
        constants: constants.to_vec(),
        structs: vec![b"A".to_vec(), b"B".to_vec()],
        functions: functions.collect(),
    }
}

/// The program by way of its image, in the runner's stores.
pub fn machine(program: &Program) -> Machine {
    Machine::load(&image(program), Stores::RUNNER).expect("the program fits")
}

pub fn fault(report: &Report) -> Option<u32> {
    match report.answer {
        Answer::Fault(number) => Some(number),
        _ => None,
    }
}

/// Runs code with the constants 1, 0, true, "x", a reference to f1 and one
/// to nobody; gives the fault and the bytes of the backtrace.
pub fn fault_of(codes: &[&str]) -> (Option<u32>, Vec<(usize, u32)>) {
    let constants = [
        number(1.0),
        number(0.0),
        Constant::Boolean(true),
        Constant::String(b"x".to_vec()),
        Constant::FunctionReference(b"f1".to_vec()),
        Constant::FunctionReference(b"nobody".to_vec()),
    ];
    let report = machine(&program(&constants, codes)).run(1_000);
    (fault(&report), places(&report))
}

/// Function and place of a backtrace.
pub fn places(report: &Report) -> Vec<(usize, u32)> {
    let entries = report.backtrace.iter();
    entries.map(|entry| (entry.function, entry.place)).collect()
}

/// The same, and when each frame was entered.
pub fn entries(report: &Report) -> Vec<(usize, u32, u64)> {
    let entries = report.backtrace.iter();
    entries
        .map(|entry| (entry.function, entry.place, entry.entered))
        .collect()
}
