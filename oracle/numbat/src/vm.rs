//! `vm.rs` as published; behind it what a judge needs beside it.
//!
//! Two things are done to it from outside, without a change to its text.
//!
//! It casts any byte of code to an opcode, which is undefined from 38 on. Each
//! step begins with a call of `debug`, before the byte is read. `debug` prints
//! where the machine stands; the macro it prints with is another one here and
//! calls [`Vm::before_step`], which looks at the byte and stops the run by a
//! panic if it must not be cast. So no such cast is ever made.
//!
//! It prints its listing to standard error. With the same macro the listing
//! goes into a text ([`Vm::listing`]).

use std::cell::{Cell, RefCell};

// What it names of other crates.
use crate::crates::compact_str::ConstNew as _;
use crate::crates::{compact_str, indexmap, jiff, num_traits, strfmt};

macro_rules! eprint {
    // The first words of `debug`.
    ("FRAME = {}, IP = {}, ", $vm:ident.bytecode[$frame:ident.function_idx].0, $($ip:tt)*) => {
        $vm.before_step($frame)
    };
    // The notes of the listing: made, as that may panic, and dropped.
    ("     (value: {})", $($words:tt)*) => { drop(format!("{}", $($words)*)) };
    ("   ({}, num_args={})", $($words:tt)*) => { drop(format!("{}{}", $($words)*)) };
    ($($words:tt)+) => { print(&format!($($words)+)) };
    () => {};
}

macro_rules! eprintln {
    // The last words of `debug`.
    ("Stack: [{}]", $($words:tt)*) => {};
    // The code comes behind this heading; what stands before it is dropped.
    (".IDENTIFIERS") => { drop(PRINTED.take()) };
    ($($words:tt)*) => {{
        eprint!($($words)*);
        print("\n");
    }};
}

include!("../published/vm.rs");

thread_local! {
    static PRINTED: RefCell<String> = const { RefCell::new(String::new()) };
    static GUARD: Cell<Guard> = const { Cell::new(Guard { steps_left: 0, all_opcodes: false }) };
}

/// What a run is let do.
#[derive(Clone, Copy)]
struct Guard {
    steps_left: u64,
    all_opcodes: bool,
}

fn print(words: &str) {
    PRINTED.with_borrow_mut(|printed| printed.push_str(words));
}

/// Why a guarded run was stopped before its next step; the payload of a panic.
#[derive(Clone, Copy, Debug, PartialEq, Eq)]
pub enum Outside {
    /// The byte is no opcode, and casting it is undefined.
    UndefinedCast(u8),
    /// The opcode runs over quantities, dates, prefixes, foreign functions or
    /// markup, for which there are only stand-ins here.
    NotCarried(Op),
    /// It has taken as many steps as it may, or would copy very much.
    Bound(&'static str),
}

/// The most values that one value on the stack may own, so that copying it,
/// again and again, does not take all memory: the machine copies structs.
const MOST_OWNED: usize = 10_000;

/// A call frame, for others to see.
#[derive(Clone, Copy, Debug, PartialEq, Eq)]
pub struct Frame {
    pub function: usize,
    pub position: usize,
    pub base: usize,
}

fn op_of(byte: u8) -> Option<Op> {
    // Return is the last of the opcodes, whose numbers have no gaps.
    (byte <= Op::Return as u8).then(|| unsafe { std::mem::transmute::<u8, Op>(byte) })
}

fn is_carried(op: Op) -> bool {
    !matches!(
        op,
        Op::ApplyPrefix
            | Op::SetUnitConstant
            | Op::Factorial
            | Op::Power
            | Op::ConvertTo
            | Op::AddToDateTime
            | Op::SubFromDateTime
            | Op::DiffDateTime
            | Op::FFICallFunction
            | Op::FFICallProcedure
            | Op::PrintString
            | Op::JoinString
    )
}

/// How many values are copied with a value, as far as `most`. A list is shared.
fn owned(value: &Value, most: usize) -> usize {
    let Value::StructInstance(_, fields) = value else {
        return 1;
    };
    let mut count = 1;
    for field in fields {
        if count > most {
            break;
        }
        count += owned(field, most - count + 1);
    }
    count
}

/// Setting a machine up, beyond what the published functions do for others.
impl Vm {
    /// `add_op` to `add_op3`, by the number of operands.
    pub fn emit(&mut self, op: u8, operands: &[u16], place: u32) {
        let op = op_of(op).expect("a known opcode");
        let span = Span(place);
        match *operands {
            [] => self.add_op(op, span),
            [a] => self.add_op1(op, a, span),
            [a, b] => self.add_op2(op, a, b, span),
            [a, b, c] => self.add_op3(op, a, b, c, span),
            _ => panic!("no opcode has so many operands"),
        }
    }

    /// Any bytes at all, behind the code of the current function.
    pub fn append(&mut self, code: &[u8], places: &[u32]) {
        let (bytecode, spans) = self.current_chunk_mut();
        bytecode.extend_from_slice(code);
        spans.extend(places.iter().copied().map(Span));
    }

    pub fn add_struct(&mut self, name: &str) -> usize {
        self.add_struct_info(&StructInfo {
            name: name.into(),
            fields: IndexMap::new(),
        })
    }

    pub fn begin(&mut self, name: &str) {
        self.begin_function(name);
    }

    pub fn end(&mut self) {
        self.end_function();
    }

    /// A struct of a known number.
    pub fn instance(&self, number: usize, fields: Vec<Value>) -> Value {
        let (_, info) = self.struct_infos.get_index(number).expect("known");
        Value::StructInstance(info.clone(), fields)
    }

    /// The state of a machine that was stopped, or whose host changed it.
    pub fn put(&mut self, stack: Vec<Value>, frames: &[Frame], last_result: Option<Value>) {
        self.stack = stack;
        self.frames = frames
            .iter()
            .map(|frame| CallFrame {
                function_idx: frame.function,
                ip: frame.position,
                fp: frame.base,
            })
            .collect();
        self.last_result = last_result;
    }
}

/// Running under guard.
impl Vm {
    /// `run`, for at most so many steps and with the carried opcodes. It panics
    /// as `run` does, and with [`Outside`] where the guard stops it.
    pub fn run_guarded(&mut self, steps: u64) -> Result<InterpreterResult> {
        self.run_under(Guard {
            steps_left: steps,
            all_opcodes: false,
        })
    }

    /// The same with all opcodes: what they do then is what the stand-ins do.
    pub fn run_all_opcodes(&mut self, steps: u64) -> Result<InterpreterResult> {
        self.run_under(Guard {
            steps_left: steps,
            all_opcodes: true,
        })
    }

    fn run_under(&mut self, guard: Guard) -> Result<InterpreterResult> {
        GUARD.set(guard);
        // So that `debug` does not return at once.
        self.debug = true;
        self.run(&mut ExecutionContext {
            print_fn: &mut |_: &Markup| {},
            unit_name_to_constant_idx: &HashMap::new(),
            prefix_transformer: &Transformer::new(),
            typechecker: &TypeChecker::default(),
        })
    }

    fn before_step(&self, frame: &CallFrame) {
        let mut guard = GUARD.get();
        if let Some(outside) = self.outside(frame, guard) {
            std::panic::panic_any(outside);
        }
        guard.steps_left -= 1;
        GUARD.set(guard);
    }

    fn outside(&self, frame: &CallFrame, guard: Guard) -> Option<Outside> {
        if guard.steps_left == 0 {
            return Some(Outside::Bound("steps"));
        }
        if let Some(top) = self.stack.last()
            && owned(top, MOST_OWNED) > MOST_OWNED
        {
            return Some(Outside::Bound("copies"));
        }
        let byte = self.bytecode[frame.function_idx].1[frame.ip];
        match op_of(byte) {
            None => Some(Outside::UndefinedCast(byte)),
            Some(op) if !is_carried(op) && !guard.all_opcodes => Some(Outside::NotCarried(op)),
            Some(_) => None,
        }
    }
}

/// The elements of a list, which list.rs tells numbat alone.
pub fn elements(list: &NumbatList<Value>) -> Vec<&Value> {
    list.iter().collect()
}

/// Looking at a machine.
impl Vm {
    pub fn stack(&self) -> &[Value] {
        &self.stack
    }

    pub fn frames(&self) -> Vec<Frame> {
        let seen = |frame: &CallFrame| Frame {
            function: frame.function_idx,
            position: frame.ip,
            base: frame.fp,
        };
        self.frames.iter().map(seen).collect()
    }

    pub fn last_result(&self) -> Option<&Value> {
        self.last_result.as_ref()
    }

    pub fn code(&self, function: usize) -> &[u8] {
        &self.bytecode[function].1
    }

    pub fn function_number(&self, name: &str) -> u16 {
        self.get_function_idx(name)
    }

    /// The code part of `disassemble`, without its notes. None where it would
    /// cast a byte that is no opcode; it panics where `disassemble` does.
    pub fn listing(&self) -> Option<String> {
        if !self.bytecode.iter().all(|(_, code, _)| can_be_listed(code)) {
            return None;
        }
        let mut vm = self.clone();
        vm.set_debug(true);
        vm.disassemble();
        let mut printed = PRINTED.take();
        // A blank line ends it.
        printed.pop();
        Some(printed)
    }
}

/// Whether all bytes that the listing casts are opcodes, as far as it gets.
fn can_be_listed(code: &[u8]) -> bool {
    let mut offset = 0;
    while offset < code.len() {
        match op_of(code[offset]) {
            Some(op) => offset += 1 + 2 * op.num_operands(),
            None => return false,
        }
    }
    true
}
