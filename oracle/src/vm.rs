//! Source document 000 over f64.
//!
//! The carried arms stand here line by line as in 000, with its names, in its
//! order, and with its panics: an `expect`, an `unwrap`, an index out of
//! range or a subtraction below zero ends the run as it does there. What is
//! not 000's is marked "Added".

use crate::image;
use crate::op::Op;
use crate::value::{Elements, Value};

/// 000's constants, of which four kinds are carried. References are `Normal`.
#[derive(Clone, Debug)]
pub enum Constant {
    Scalar(f64),
    Boolean(bool),
    String(Vec<u8>),
    FunctionReference(Vec<u8>),
}

impl Constant {
    fn to_value(&self) -> Value {
        match self {
            Constant::Scalar(n) => Value::Scalar(*n),
            Constant::Boolean(b) => Value::Boolean(*b),
            Constant::String(s) => Value::String(s.as_slice().into()),
            Constant::FunctionReference(inner) => Value::FunctionReference(inner.as_slice().into()),
        }
    }
}

/// Where in the source some code came from. 000 keeps a span; a number is
/// enough here.
pub type Place = u32;

#[derive(Clone, Debug)]
pub struct CallFrame {
    pub function_idx: usize,
    pub ip: usize,
    pub fp: usize,
}

impl CallFrame {
    fn root() -> Self {
        CallFrame {
            function_idx: 0,
            ip: 0,
            fp: 0,
        }
    }
}

#[derive(Clone, Debug, PartialEq)]
pub enum InterpreterResult {
    Value(Value),
    Continue,
}

/// The one error that the carried arms can give. Everything else that goes
/// wrong in them panics.
#[derive(Clone, Debug, PartialEq, Eq)]
pub enum RuntimeErrorKind {
    DivisionByZero,
}

#[derive(Clone, Debug, PartialEq, Eq)]
pub struct RuntimeError {
    pub kind: RuntimeErrorKind,
    pub backtrace: Vec<(Vec<u8>, Place)>,
}

pub type Result<T> = std::result::Result<T, Box<RuntimeError>>;

/// Added: where following 000 further would say nothing, or never end. It is
/// thrown as a panic so that the arms can stay as they are.
#[derive(Clone, Debug, PartialEq, Eq)]
pub enum Outside {
    /// 000 casts a byte of 38 or more to `Op`, which is undefined.
    UndefinedCast(u8),
    /// An opcode that 000 runs and document 01 leaves out.
    NotCarried(Op),
    /// One of [`Bounds`] was passed.
    Bound(&'static str),
}

/// Added: bounds for running unknown programs. 000 has none; a program that
/// passes one here would run on there, perhaps until memory is gone.
#[derive(Clone, Copy, Debug)]
pub struct Bounds {
    /// Instructions, plus pairs of elements compared.
    pub steps: u64,
    /// Nesting of lists and structs; dropping and comparing them recurses.
    pub nesting: usize,
}

impl Default for Bounds {
    fn default() -> Self {
        Bounds {
            steps: 2_000_000,
            nesting: 1_000,
        }
    }
}

/// Added: how lists are compared.
#[derive(Clone, Copy, Debug, Default, PartialEq, Eq)]
pub enum Lists {
    /// Element by element, as document 01 has it.
    #[default]
    ByElements,
    /// As list.rs has it: [`Value::equal_if_shared`].
    IfShared,
}

fn outside(outside: Outside) -> ! {
    std::panic::panic_any(outside)
}

/// Added: stands for the cast of a byte to `Op`.
fn cast(byte: u8) -> Op {
    Op::from_byte(byte).unwrap_or_else(|| outside(Outside::UndefinedCast(byte)))
}

#[derive(Clone)]
pub struct Vm {
    /// Name, code, and a place for each byte of code.
    pub bytecode: Vec<(Vec<u8>, Vec<u8>, Vec<Place>)>,
    pub current_chunk_index: usize,
    pub constants: Vec<Constant>,
    /// Struct names in the order they were added; 000 has an `IndexMap`.
    pub struct_infos: Vec<Vec<u8>>,
    pub last_result: Option<Value>,
    pub frames: Vec<CallFrame>,
    pub stack: Vec<Value>,

    /// Added: see [`Bounds`].
    pub bounds: Bounds,
    /// Added: what the current run has used of `bounds.steps`.
    pub steps: u64,
    /// Added: see [`Lists`].
    pub lists: Lists,
    /// Added: comparisons whose answer depends on `lists`.
    pub depending: u64,
}

impl Default for Vm {
    fn default() -> Self {
        Vm::new()
    }
}

impl Vm {
    pub fn new() -> Self {
        Self {
            bytecode: vec![("<main>".into(), vec![], vec![])],
            current_chunk_index: 0,
            constants: vec![],
            struct_infos: vec![],
            last_result: None,
            frames: vec![CallFrame::root()],
            stack: vec![],
            bounds: Bounds::default(),
            steps: 0,
            lists: Lists::default(),
            depending: 0,
        }
    }

    /// Added: a machine holding a program.
    pub fn from_program(program: &image::Program) -> Self {
        let mut vm = Vm::new();
        vm.bytecode = program
            .functions
            .iter()
            .map(|f| (f.name.clone(), f.code.clone(), f.places.clone()))
            .collect();
        vm.constants = program
            .constants
            .iter()
            .map(|constant| match constant {
                image::Constant::Scalar(bits) => Constant::Scalar(f64::from_bits(*bits)),
                image::Constant::Boolean(b) => Constant::Boolean(*b),
                image::Constant::String(s) => Constant::String(s.clone()),
                image::Constant::FunctionReference(name) => {
                    Constant::FunctionReference(name.clone())
                }
            })
            .collect();
        vm.struct_infos = program.structs.clone();
        vm
    }

    /// Added: the program this machine holds, to save it as an image.
    pub fn program(&self) -> image::Program {
        image::Program {
            constants: self
                .constants
                .iter()
                .map(|constant| match constant {
                    Constant::Scalar(n) => image::Constant::Scalar(n.to_bits()),
                    Constant::Boolean(b) => image::Constant::Boolean(*b),
                    Constant::String(s) => image::Constant::String(s.clone()),
                    Constant::FunctionReference(name) => {
                        image::Constant::FunctionReference(name.clone())
                    }
                })
                .collect(),
            structs: self.struct_infos.clone(),
            functions: self
                .bytecode
                .iter()
                .map(|(name, code, places)| image::Function {
                    name: name.clone(),
                    code: code.clone(),
                    places: places.clone(),
                })
                .collect(),
        }
    }

    fn runtime_error(&self, kind: RuntimeErrorKind) -> RuntimeError {
        RuntimeError {
            kind,
            backtrace: self.backtrace(),
        }
    }

    /// The deepest frame first.
    pub fn backtrace(&self) -> Vec<(Vec<u8>, Place)> {
        self.frames
            .iter()
            .rev()
            .map(|cf| {
                (
                    self.bytecode[cf.function_idx].0.clone(),
                    self.bytecode[cf.function_idx].2[cf.ip.saturating_sub(1)],
                )
            })
            .collect()
    }

    // Emission

    fn current_chunk_mut(&mut self) -> (&mut Vec<u8>, &mut Vec<Place>) {
        let current = &mut self.bytecode[self.current_chunk_index];
        (&mut current.1, &mut current.2)
    }

    fn push_u16(chunk: &mut Vec<u8>, data: u16) {
        let arg_bytes = data.to_le_bytes();
        chunk.push(arg_bytes[0]);
        chunk.push(arg_bytes[1]);
    }

    pub fn add_op(&mut self, op: Op, span: Place) {
        let (bytecode, spans) = self.current_chunk_mut();
        bytecode.push(op as u8);
        spans.push(span);
    }

    pub fn add_op1(&mut self, op: Op, arg: u16, span: Place) {
        let (bytecode, spans) = self.current_chunk_mut();
        bytecode.push(op as u8);
        Self::push_u16(bytecode, arg);
        spans.extend(std::iter::repeat_n(span, 3));
    }

    pub fn add_op2(&mut self, op: Op, arg1: u16, arg2: u16, span: Place) {
        let (bytecode, spans) = self.current_chunk_mut();
        bytecode.push(op as u8);
        Self::push_u16(bytecode, arg1);
        Self::push_u16(bytecode, arg2);
        spans.extend(std::iter::repeat_n(span, 5));
    }

    pub fn add_op3(&mut self, op: Op, arg1: u16, arg2: u16, arg3: u16, span: Place) {
        let (bytecode, spans) = self.current_chunk_mut();
        bytecode.push(op as u8);
        Self::push_u16(bytecode, arg1);
        Self::push_u16(bytecode, arg2);
        Self::push_u16(bytecode, arg3);
        spans.extend(std::iter::repeat_n(span, 7));
    }

    pub fn current_offset(&self) -> u16 {
        self.bytecode[self.current_chunk_index].1.len() as u16
    }

    pub fn patch_u16_value_at(&mut self, offset: u16, arg: u16) {
        let offset = offset as usize;
        let (bytecode, _spans) = self.current_chunk_mut();
        bytecode[offset] = (arg & 0xff) as u8;
        bytecode[offset + 1] = ((arg >> 8) & 0xff) as u8;
    }

    pub fn add_constant(&mut self, constant: Constant) -> u16 {
        self.constants.push(constant);
        assert!(self.constants.len() <= u16::MAX as usize);
        (self.constants.len() - 1) as u16
    }

    pub fn add_struct_info(&mut self, name: &[u8]) -> usize {
        match self.struct_infos.iter().position(|n| n == name) {
            Some(idx) => idx,
            None => {
                self.struct_infos.push(name.to_vec());
                self.struct_infos.len() - 1
            }
        }
    }

    pub fn begin_function(&mut self, name: &[u8]) {
        self.bytecode.push((name.into(), vec![], vec![]));
        self.current_chunk_index = self.bytecode.len() - 1
    }

    pub fn end_function(&mut self) {
        // Continue compilation of "main"/global code
        self.current_chunk_index = 0;
    }

    pub fn get_function_idx(&self, name: &[u8]) -> u16 {
        // We search backwards to allow for functions
        // to be overwritten.
        let rev_position = self
            .bytecode
            .iter()
            .rev()
            .position(|(n, _, _)| n == name)
            .unwrap();
        let position = self.bytecode.len() - 1 - rev_position;
        assert!(position <= u16::MAX as usize);
        position as u16
    }

    /// The `.CODE` part, without the notes after the operands. It is bytes
    /// and not a `String` because function names are bytes here.
    pub fn disassemble(&self) -> Vec<u8> {
        let mut out = vec![];
        for (idx, (function_name, bytecode, _spans)) in self.bytecode.iter().enumerate() {
            out.extend_from_slice(format!(".CODE {idx} (").as_bytes());
            out.extend_from_slice(function_name);
            out.extend_from_slice(b")\n");
            let mut offset = 0;
            while offset < bytecode.len() {
                let this_offset = offset;
                let op = bytecode[offset];
                offset += 1;
                let op = cast(op);

                let mut operands: Vec<u16> = vec![];
                for _ in 0..op.num_operands() {
                    let operand =
                        u16::from_le_bytes(bytecode[offset..(offset + 2)].try_into().unwrap());
                    operands.push(operand);
                    offset += 2;
                }

                let operands_str = operands
                    .iter()
                    .map(u16::to_string)
                    .collect::<Vec<_>>()
                    .join(" ");

                out.extend_from_slice(
                    format!(
                        "  {:04} {:<13} {}\n",
                        this_offset,
                        op.to_string(),
                        operands_str,
                    )
                    .as_bytes(),
                );
            }
        }
        out
    }

    // Execution

    fn current_frame(&self) -> &CallFrame {
        self.frames.last().expect("Call stack is not empty")
    }

    fn current_frame_mut(&mut self) -> &mut CallFrame {
        self.frames.last_mut().expect("Call stack is not empty")
    }

    fn read_byte(&mut self) -> u8 {
        let frame = self.current_frame();
        let byte = self.bytecode[frame.function_idx].1[frame.ip];
        self.current_frame_mut().ip += 1;
        byte
    }

    fn read_u16(&mut self) -> u16 {
        let bytes = [self.read_byte(), self.read_byte()];
        u16::from_le_bytes(bytes)
    }

    fn push_quantity(&mut self, quantity: f64) {
        self.stack.push(Value::Scalar(quantity));
    }

    fn push_bool(&mut self, boolean: bool) {
        self.stack.push(Value::Boolean(boolean));
    }

    fn push(&mut self, value: Value) {
        self.stack.push(value);
    }

    fn pop_quantity(&mut self) -> f64 {
        match self.pop() {
            Value::Scalar(q) => q,
            _ => panic!("Expected quantity to be on the top of the stack"),
        }
    }

    fn pop_bool(&mut self) -> bool {
        match self.pop() {
            Value::Boolean(b) => b,
            _ => panic!("Expected value to be a bool"),
        }
    }

    fn pop(&mut self) -> Value {
        self.stack.pop().expect("stack should not be empty")
    }

    pub fn run(&mut self) -> Result<InterpreterResult> {
        self.steps = 0; // Added

        let old_stack = self.stack.clone();
        let result = self.run_without_cleanup();
        if result.is_err() {
            // Perform cleanup: clear the stack and move IP to the end.
            // This is useful for the REPL.
            self.stack = old_stack;

            // Reset the call stack
            self.frames.clear();
            self.frames.push(CallFrame::root());
            self.frames[0].ip = self.bytecode[0].1.len();
        }
        result
    }

    fn is_at_the_end(&self) -> bool {
        self.current_frame().ip >= self.bytecode[self.current_frame().function_idx].1.len()
    }

    fn run_without_cleanup(&mut self) -> Result<InterpreterResult> {
        let mut result_last_statement = None;
        while !self.is_at_the_end() {
            self.begin_instruction(); // Added

            let op = cast(self.read_byte());

            match op {
                Op::LoadConstant => {
                    let constant_idx = self.read_u16();
                    self.stack
                        .push(self.constants[constant_idx as usize].to_value());
                }
                Op::GetLocal => {
                    let slot_idx = self.read_u16() as usize;
                    let stack_idx = self.current_frame().fp + slot_idx;
                    self.push(self.stack[stack_idx].clone());
                }
                Op::GetUpvalue => {
                    let stack_idx = self.read_u16() as usize;
                    self.push(self.stack[stack_idx].clone());
                }
                Op::GetLastResult => {
                    self.push(self.last_result.as_ref().unwrap().clone());
                }
                op @ (Op::Add | Op::Subtract | Op::Multiply | Op::Divide) => {
                    let rhs = self.pop_quantity();
                    let lhs = self.pop_quantity();
                    let result = match op {
                        Op::Add => lhs + rhs,
                        Op::Subtract => lhs - rhs,
                        Op::Multiply => lhs * rhs,
                        Op::Divide => checked_div(lhs, rhs)
                            .ok_or_else(|| self.runtime_error(RuntimeErrorKind::DivisionByZero))?,
                        _ => unreachable!(),
                    };
                    self.push_quantity(result);
                }
                op @ (Op::LessThan | Op::GreaterThan | Op::LessOrEqual | Op::GreatorOrEqual) => {
                    use std::cmp::Ordering;

                    let rhs = self.pop_quantity();
                    let lhs = self.pop_quantity();

                    let result = match lhs.partial_cmp(&rhs) {
                        // A NaN operand
                        None => false,
                        Some(Ordering::Less) => {
                            matches!(op, Op::LessThan | Op::LessOrEqual)
                        }
                        Some(Ordering::Equal) => {
                            matches!(op, Op::LessOrEqual | Op::GreatorOrEqual)
                        }
                        Some(Ordering::Greater) => {
                            matches!(op, Op::GreaterThan | Op::GreatorOrEqual)
                        }
                    };

                    self.push(Value::Boolean(result));
                }
                op @ (Op::Equal | Op::NotEqual) => {
                    let rhs = self.pop();
                    let lhs = self.pop();

                    self.bound_comparison(&lhs, &rhs); // Added

                    let result = match op {
                        Op::Equal => self.equal(&lhs, &rhs),
                        Op::NotEqual => !self.equal(&lhs, &rhs),
                        _ => unreachable!(),
                    };
                    self.push(Value::Boolean(result));
                }
                op @ (Op::LogicalAnd | Op::LogicalOr) => {
                    let rhs = self.pop_bool();
                    let lhs = self.pop_bool();

                    let result = match op {
                        Op::LogicalAnd => lhs && rhs,
                        Op::LogicalOr => lhs || rhs,
                        _ => unreachable!(),
                    };
                    self.push_bool(result);
                }
                Op::LogicalNeg => {
                    let rhs = self.pop_bool();
                    self.push_bool(!rhs);
                }
                Op::Negate => {
                    let rhs = self.pop_quantity();
                    self.push_quantity(-rhs);
                }
                Op::JumpIfFalse => {
                    let offset = self.read_u16() as usize;
                    if !self.pop_bool() {
                        self.current_frame_mut().ip += offset;
                    }
                }
                Op::Jump => {
                    let offset = self.read_u16() as usize;
                    self.current_frame_mut().ip += offset;
                }
                Op::Call => {
                    let function_idx = self.read_u16() as usize;
                    let num_args = self.read_u16() as usize;
                    self.frames.push(CallFrame {
                        function_idx,
                        ip: 0,
                        fp: self.stack.len() - num_args,
                    })
                }
                Op::CallCallable => {
                    let num_args = self.read_u16() as usize;
                    let _call_args_idx = self.read_u16() as usize;

                    let callable = self.pop();
                    match callable {
                        Value::FunctionReference(ref name) => {
                            let function_idx = self.get_function_idx(name) as usize;

                            self.frames.push(CallFrame {
                                function_idx,
                                ip: 0,
                                fp: self.stack.len() - num_args,
                            })
                        }
                        // The words of 000
                        _ => panic!("Expected value to be a string"),
                    }
                }
                Op::Return => {
                    if self.frames.len() == 1 {
                        let return_value = self.pop();

                        self.last_result = Some(return_value.clone());

                        result_last_statement = Some(return_value);
                    } else {
                        let discarded_frame = self.frames.pop().unwrap();

                        // Remember the return value which is currently on top of the stack
                        let return_value = self.stack.pop().unwrap();

                        // Pop off arguments from previous call
                        while self.stack.len() > discarded_frame.fp {
                            self.stack.pop();
                        }

                        // Push the return value back on top of the stack
                        self.stack.push(return_value);
                    }
                }
                Op::BuildStructInstance => {
                    let info_idx = self.read_u16();
                    self.struct_infos
                        .get(info_idx as usize)
                        .expect("Missing struct metadata");
                    let num_args = self.read_u16();

                    let mut content = Vec::with_capacity(num_args as usize);

                    for _ in 0..num_args {
                        content.push(self.pop());
                    }

                    let content = self.elements(content);
                    self.stack
                        .push(Value::StructInstance(info_idx as usize, content));
                }
                Op::AccessStructField => {
                    let field_idx = self.read_u16();

                    let fields = match self.pop() {
                        Value::StructInstance(_, values) => values,
                        _ => panic!("Expected value to be a struct"),
                    };

                    let value = fields.items()[field_idx as usize].clone();
                    self.stack.push(value);
                }
                Op::BuildList => {
                    let length = self.read_u16();
                    let mut list = std::collections::VecDeque::with_capacity(length as usize);

                    for _ in 0..length {
                        list.push_front(self.pop());
                    }

                    let list = self.elements(list.into());
                    self.stack.push(Value::List(list));
                }
                // Added
                other => outside(Outside::NotCarried(other)),
            }
        }

        if let Some(value) = result_last_statement {
            Ok(InterpreterResult::Value(value))
        } else {
            Ok(InterpreterResult::Continue)
        }
    }

    // Added: the bounds, and the two equalities

    fn begin_instruction(&mut self) {
        self.steps += 1;
        if self.steps > self.bounds.steps {
            outside(Outside::Bound("steps"));
        }
    }

    /// Counts the pairs that `==` is about to visit, because nestings that
    /// hold the same list twice make them double at each level.
    fn bound_comparison(&mut self, lhs: &Value, rhs: &Value) {
        let mut visited = 0;
        let left = self.bounds.steps - self.steps;
        if lhs.compare(rhs, left, &mut visited).is_none() {
            outside(Outside::Bound("steps"));
        }
        self.steps += visited;
    }

    fn equal(&mut self, lhs: &Value, rhs: &Value) -> bool {
        let by_elements = lhs == rhs;
        let if_shared = lhs.equal_if_shared(rhs);
        self.depending += u64::from(by_elements != if_shared);
        match self.lists {
            Lists::ByElements => by_elements,
            Lists::IfShared => if_shared,
        }
    }

    fn elements(&self, items: Vec<Value>) -> std::rc::Rc<Elements> {
        if items.iter().any(|item| item.depth() >= self.bounds.nesting) {
            outside(Outside::Bound("nesting"));
        }
        Elements::new(items)
    }
}

/// `Quantity::checked_div` over f64.
fn checked_div(lhs: f64, rhs: f64) -> Option<f64> {
    if rhs == 0.0 {
        None
    } else {
        Some(lhs / rhs)
    }
}
