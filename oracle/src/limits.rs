//! The machine of document 01: the steps of 000 with lent stores, units,
//! cells and depth, and a number for every way to go wrong. Its run is that of
//! document 02, Wish 4: begun, continued and perhaps abandoned ([`parts`]).
//! [`one_run`] is the run that document 01 has, undivided, to measure by.
//!
//! Cells are counted here and not laid out: a list or struct of n elements
//! takes n + 1, and none come back but after a fault. Nothing is lent here and
//! nobody outside can disturb the records, so 17 and 19 are no matter of this
//! machine: [`crate::console`] judges what a host may do to the frames, and
//! how much it lends for an answer.

mod one_run;
mod parts;

use std::collections::BTreeSet;

use crate::image::{self, Constant, Function, Program};
use crate::op::Op;
use crate::value::{Elements, Value};
pub use parts::{Part, Run};

pub const MAX_DEPTH: usize = 64;
pub const MAX_CODE: usize = 65_535;
pub const MAX_CONSTANTS: usize = 65_535;
pub const MAX_FUNCTIONS: usize = 65_536;
pub const MAX_STRUCTS: usize = 65_536;

/// How much the lent stores hold.
#[derive(Clone, Copy, Debug)]
pub struct Stores {
    pub values: usize,
    pub frames: usize,
    pub cells: usize,
    pub constants: usize,
    pub structs: usize,
    pub functions: usize,
    pub main_code: usize,
    pub other_code: usize,
    pub text: usize,
}

impl Stores {
    /// The stores of the runner and the lister.
    pub const RUNNER: Stores = Stores {
        values: 1_024,
        frames: 256,
        cells: 2_048,
        constants: 256,
        structs: 256,
        functions: 256,
        main_code: 8_192,
        other_code: 8_192,
        text: 16_384,
    };
}

/// A refusal: nothing was done and nothing has changed.
#[derive(Clone, Copy, Debug, PartialEq, Eq)]
pub enum Refused {
    /// 1: an opcode of 38 or more, at emission or in a listing.
    Opcode,
    /// 3: a listing of code that ends inside an instruction.
    CutShort,
    /// 5: a reader is given a value of the wrong kind.
    Kind,
    /// 6: no such place on the stack, or no such element.
    Number,
    /// 7: no last result.
    NoLastResult,
    /// 14: no function of that name.
    NoSuchFunction,
    /// 16: a frame's place lies outside its code.
    Backtrace,
    /// 17: a result or copy store is too short.
    ResultStore,
    /// 18: no run is under way.
    NoRun,
    /// 19: the machine's records are not in good order.
    Order,
    /// 20, with the offset of the first item that breaks a rule.
    Image(usize),
    /// 21: a store would be exceeded.
    Store,
    /// 22: a limit would be exceeded.
    Limit,
    /// 23: a patch not wholly inside the current function's code.
    Patch,
    /// 25: a run is under way.
    UnderWay,
}

impl Refused {
    pub fn number(self) -> u32 {
        match self {
            Refused::Opcode => 1,
            Refused::CutShort => 3,
            Refused::Kind => 5,
            Refused::Number => 6,
            Refused::NoLastResult => 7,
            Refused::NoSuchFunction => 14,
            Refused::Backtrace => 16,
            Refused::ResultStore => 17,
            Refused::NoRun => 18,
            Refused::Order => 19,
            Refused::Image(_) => 20,
            Refused::Store => 21,
            Refused::Limit => 22,
            Refused::Patch => 23,
            Refused::UnderWay => 25,
        }
    }
}

#[derive(Clone, Debug, PartialEq, Eq)]
pub struct Frame {
    pub function: usize,
    pub position: usize,
    pub base: usize,
    /// The units that the run had spent when it was entered, the Call's own
    /// included.
    pub entered: u64,
}

impl Frame {
    /// Main's, entered when nothing was spent.
    pub fn root(position: usize) -> Frame {
        Frame {
            function: 0,
            position,
            base: 0,
            entered: 0,
        }
    }
}

/// What a backtrace tells of a frame.
#[derive(Clone, Copy, Debug, PartialEq, Eq)]
pub struct Entry {
    pub function: usize,
    pub place: u32,
    pub entered: u64,
}

#[derive(Clone, Debug)]
pub enum Answer {
    Value(Value),
    Continue,
    /// The number of the fault.
    Fault(u32),
}

/// The end of a run, over all its parts.
#[derive(Clone, Debug)]
pub struct Report {
    pub answer: Answer,
    pub spent: u64,
    /// How many root Returns the run has completed: what it returned before a
    /// fault has counted. 0 with "continue".
    pub returns: u64,
    /// Innermost frame first; empty unless a fault.
    pub backtrace: Vec<Entry>,
    /// How far the stores were filled on the way.
    pub most: Most,
    /// The functions that CallCallable has called.
    pub by_name: BTreeSet<usize>,
}

/// The most that was taken at once, between two steps of a run.
#[derive(Clone, Copy, Debug, Default, PartialEq, Eq)]
pub struct Most {
    pub values: usize,
    pub frames: usize,
    pub cells: usize,
}

#[derive(Clone)]
pub struct Machine {
    pub stores: Stores,
    pub program: Program,
    /// The function that code is emitted into: main or the newest.
    pub current: usize,
    pub stack: Vec<Value>,
    pub frames: Vec<Frame>,
    pub cells_used: usize,
    pub last_result: Option<Value>,
    /// Whether arithmetic that leaves the finite numbers is a fault (document 02,
    /// Wish 9); not so as it is loaded or made.
    pub strict: bool,
    /// The stack as it was when a run was last begun.
    pub copy: Vec<Value>,
    /// The run under way, if there is one.
    pub under_way: Option<Run>,
}

/// What a step that did not fault has to say.
enum Step {
    /// It went on, having spent so many units on pairs of elements.
    Done(u64),
    /// It was a CallCallable of this function.
    CalledByName(usize),
    /// It was a Return with one frame.
    RootReturn(Value),
}

impl Machine {
    /// A machine with an empty main; refused if the stores cannot even hold
    /// main's name.
    pub fn new(stores: Stores) -> Result<Machine, Refused> {
        Machine::of_program(Program::new(), stores)
    }

    /// Loads an image: 20, then 22, then 21.
    pub fn load(bytes: &[u8], stores: Stores) -> Result<Machine, Refused> {
        let program = image::parse(bytes).map_err(Refused::Image)?;
        Machine::of_program(program, stores)
    }

    fn of_program(program: Program, stores: Stores) -> Result<Machine, Refused> {
        if program.constants.len() > MAX_CONSTANTS
            || program.structs.len() > MAX_STRUCTS
            || program.functions.len() > MAX_FUNCTIONS
            || program.functions.iter().any(|f| f.code.len() > MAX_CODE)
        {
            return Err(Refused::Limit);
        }
        if program.constants.len() > stores.constants
            || program.structs.len() > stores.structs
            || program.functions.len() > stores.functions
            || main_code(&program) > stores.main_code
            || other_code(&program) > stores.other_code
            || text(&program) > stores.text
            // The root frame has to stand somewhere.
            || stores.frames < 1
        {
            return Err(Refused::Store);
        }
        Ok(Machine {
            stores,
            program,
            current: 0,
            stack: vec![],
            frames: vec![Frame::root(0)],
            cells_used: 0,
            last_result: None,
            strict: false,
            copy: vec![],
            under_way: None,
        })
    }

    /// 25 with a run under way, also if the machine has that setting already.
    pub fn set_strict(&mut self, strict: bool) -> Result<(), Refused> {
        self.no_run_under_way()?;
        self.strict = strict;
        Ok(())
    }

    /// The image of the program; nothing of the run's state goes into it.
    pub fn save(&self) -> Vec<u8> {
        image::image(&self.program)
    }

    // Emission. At each entry 25 comes first, then 22, then 21, then the rest.

    /// An instruction of any opcode at all, at the end of the current function.
    pub fn emit(&mut self, op: u8, operands: &[u16], place: u32) -> Result<(), Refused> {
        self.no_run_under_way()?;
        let bytes = instruction(op, operands);
        let length = self.program.functions[self.current].code.len() + bytes.len();
        if length > MAX_CODE {
            return Err(Refused::Limit);
        }
        let fits = if self.current == 0 {
            length <= self.stores.main_code
        } else {
            other_code(&self.program) + bytes.len() <= self.stores.other_code
        };
        if !fits {
            return Err(Refused::Store);
        }
        if Op::from_byte(op).is_none() {
            return Err(Refused::Opcode);
        }
        let function = &mut self.program.functions[self.current];
        function.code.extend(bytes);
        function.places.resize(length, place);
        Ok(())
    }

    pub fn add_op(&mut self, op: Op, place: u32) -> Result<(), Refused> {
        self.emit(op as u8, &[], place)
    }

    pub fn add_op1(&mut self, op: Op, arg: u16, place: u32) -> Result<(), Refused> {
        self.emit(op as u8, &[arg], place)
    }

    pub fn add_op2(&mut self, op: Op, arg1: u16, arg2: u16, place: u32) -> Result<(), Refused> {
        self.emit(op as u8, &[arg1, arg2], place)
    }

    pub fn add_op3(
        &mut self,
        op: Op,
        arg1: u16,
        arg2: u16,
        arg3: u16,
        place: u32,
    ) -> Result<(), Refused> {
        self.emit(op as u8, &[arg1, arg2, arg3], place)
    }

    pub fn current_offset(&self) -> u16 {
        let length = self.program.functions[self.current].code.len();
        u16::try_from(length).expect("no code is longer than 65,535 bytes")
    }

    pub fn patch_u16_value_at(&mut self, offset: u16, arg: u16) -> Result<(), Refused> {
        self.no_run_under_way()?;
        let offset = offset as usize;
        let code = &mut self.program.functions[self.current].code;
        if offset + 2 > code.len() {
            return Err(Refused::Patch);
        }
        code[offset..offset + 2].copy_from_slice(&arg.to_le_bytes());
        Ok(())
    }

    pub fn add_constant(&mut self, constant: Constant) -> Result<u16, Refused> {
        self.no_run_under_way()?;
        let number = self.program.constants.len();
        if number + 1 > MAX_CONSTANTS {
            return Err(Refused::Limit);
        }
        if number + 1 > self.stores.constants
            || text(&self.program) + constant_text(&constant) > self.stores.text
        {
            return Err(Refused::Store);
        }
        self.program.constants.push(constant);
        Ok(number as u16)
    }

    /// A name that is there already keeps its number and takes no room.
    pub fn add_struct_info(&mut self, name: &[u8]) -> Result<usize, Refused> {
        self.no_run_under_way()?;
        if let Some(number) = self.program.structs.iter().position(|n| n == name) {
            return Ok(number);
        }
        let number = self.program.structs.len();
        if number + 1 > MAX_STRUCTS {
            return Err(Refused::Limit);
        }
        if number + 1 > self.stores.structs || text(&self.program) + name.len() > self.stores.text {
            return Err(Refused::Store);
        }
        self.program.structs.push(name.to_vec());
        Ok(number)
    }

    pub fn begin_function(&mut self, name: &[u8]) -> Result<(), Refused> {
        self.no_run_under_way()?;
        let number = self.program.functions.len();
        if number + 1 > MAX_FUNCTIONS {
            return Err(Refused::Limit);
        }
        if number + 1 > self.stores.functions || text(&self.program) + name.len() > self.stores.text
        {
            return Err(Refused::Store);
        }
        self.program.functions.push(Function {
            name: name.to_vec(),
            ..Function::default()
        });
        self.current = number;
        Ok(())
    }

    pub fn end_function(&mut self) -> Result<(), Refused> {
        self.no_run_under_way()?;
        self.current = 0;
        Ok(())
    }

    pub fn get_function_idx(&self, name: &[u8]) -> Result<u16, Refused> {
        self.newest_function(name)
            .map(|number| number as u16)
            .ok_or(Refused::NoSuchFunction)
    }

    fn newest_function(&self, name: &[u8]) -> Option<usize> {
        self.program.functions.iter().rposition(|f| f.name == name)
    }

    // Backtrace

    /// Function and place of each frame and when it was entered, innermost
    /// first.
    pub fn backtrace(&self) -> Result<Vec<Entry>, Refused> {
        self.frames
            .iter()
            .rev()
            .map(|frame| {
                self.program.functions[frame.function]
                    .places
                    .get(frame.position.saturating_sub(1))
                    .map(|place| Entry {
                        function: frame.function,
                        place: *place,
                        entered: frame.entered,
                    })
                    .ok_or(Refused::Backtrace)
            })
            .collect()
    }

    // Running

    fn frame(&mut self) -> &mut Frame {
        self.frames.last_mut().expect("there is always a frame")
    }

    fn is_at_the_end(&mut self) -> bool {
        let frame = self.frame().clone();
        frame.position >= self.program.functions[frame.function].code.len()
    }

    /// After a fault, or abandoned: the stack of the start, the cells up to the
    /// last root Return, one frame at the end of main.
    fn recover(&mut self, stack_at_start: Vec<Value>, cells_to_keep: usize) {
        // The last result is not put back.
        self.stack = stack_at_start;
        self.cells_used = cells_to_keep;
        self.frames = vec![Frame::root(main_code(&self.program))];
    }

    /// A run that is begun has spent nothing, so that all its frames were
    /// entered at 0: the root, and those that an earlier run has left.
    fn unenter(&mut self) {
        for frame in &mut self.frames {
            frame.entered = 0;
        }
    }

    fn taken_since(&self, most: Most) -> Most {
        Most {
            values: most.values.max(self.stack.len()),
            frames: most.frames.max(self.frames.len()),
            cells: most.cells.max(self.cells_used),
        }
    }

    /// One step, its own unit already among the `spent` and `units` left for
    /// comparing.
    /// The checks come in document 01's order: 1, 2, 3, number operands, pops
    /// from the top (4 before 5 at each), 7, field number, 14, argument
    /// count, zero divisor, 26 of a strict machine, comparison units, 12, 11,
    /// frames, stack. A comparison that cannot be paid for, fault 13, has popped nothing: of a
    /// step at fault it alone leaves the stack as it was.
    fn step(&mut self, spent: u64, units: u64) -> Result<Step, u32> {
        let frame = self.frame().clone();
        let code = &self.program.functions[frame.function].code;

        let byte = code[frame.position];
        // For 1, 2 and 3 the position stays after the opcode.
        let after_opcode = frame.position + 1;
        let op = Op::from_byte(byte);
        let operand_count = op.map_or(0, Op::operands_read);
        let operands: Vec<usize> = code[after_opcode..]
            .chunks_exact(2)
            .take(operand_count)
            .map(|pair| usize::from(u16::from_le_bytes([pair[0], pair[1]])))
            .collect();
        self.frame().position = after_opcode;
        let op = op.ok_or(1u32)?;
        if !op.is_carried() {
            return Err(2);
        }
        if operands.len() < operand_count {
            return Err(3);
        }
        self.frame().position = after_opcode + 2 * operand_count;

        match op {
            Op::LoadConstant => {
                let constant = self.program.constants.get(operands[0]).ok_or(6u32)?;
                let value = match constant {
                    Constant::Scalar(bits) => Value::Scalar(f64::from_bits(*bits)),
                    Constant::Boolean(boolean) => Value::Boolean(*boolean),
                    Constant::String(text) => Value::String(text.as_slice().into()),
                    Constant::FunctionReference(name) => {
                        Value::FunctionReference(name.as_slice().into())
                    }
                };
                self.push(value)?;
            }
            Op::GetLocal => {
                let value = self
                    .stack
                    .get(frame.base + operands[0])
                    .ok_or(6u32)?
                    .clone();
                self.push(value)?;
            }
            Op::GetUpvalue => {
                let value = self.stack.get(operands[0]).ok_or(6u32)?.clone();
                self.push(value)?;
            }
            Op::GetLastResult => {
                let value = self.last_result.clone().ok_or(7u32)?;
                self.push(value)?;
            }
            Op::Negate => {
                let operand = self.pop_scalar()?;
                self.push(Value::Scalar(-operand))?;
            }
            Op::Add | Op::Subtract | Op::Multiply | Op::Divide => {
                let right = self.pop_scalar()?;
                let left = self.pop_scalar()?;
                let result = match op {
                    Op::Add => left + right,
                    Op::Subtract => left - right,
                    Op::Multiply => left * right,
                    // Both zeros are equal to zero.
                    _ if right == 0.0 => return Err(8),
                    _ => left / right,
                };
                let left_the_finite = left.is_finite() && right.is_finite() && !result.is_finite();
                if self.strict && left_the_finite {
                    return Err(26);
                }
                self.push(Value::Scalar(result))?;
            }
            Op::LessThan | Op::GreaterThan | Op::LessOrEqual | Op::GreatorOrEqual => {
                let right = self.pop_scalar()?;
                let left = self.pop_scalar()?;
                let result = match op {
                    Op::LessThan => left < right,
                    Op::GreaterThan => left > right,
                    Op::LessOrEqual => left <= right,
                    _ => left >= right,
                };
                self.push(Value::Boolean(result))?;
            }
            Op::Equal | Op::NotEqual => {
                let [.., left, right] = self.stack.as_slice() else {
                    return Err(4);
                };
                let mut pairs = 0;
                let equal = left.compare(right, units, &mut pairs).ok_or(13u32)?;
                self.stack.truncate(self.stack.len() - 2);
                self.push(Value::Boolean(equal == (op == Op::Equal)))?;
                return Ok(Step::Done(pairs));
            }
            Op::LogicalAnd | Op::LogicalOr => {
                let right = self.pop_boolean()?;
                let left = self.pop_boolean()?;
                let result = if op == Op::LogicalAnd {
                    left && right
                } else {
                    left || right
                };
                self.push(Value::Boolean(result))?;
            }
            Op::LogicalNeg => {
                let operand = self.pop_boolean()?;
                self.push(Value::Boolean(!operand))?;
            }
            Op::JumpIfFalse => {
                if !self.pop_boolean()? {
                    self.frame().position += operands[0];
                }
            }
            Op::Jump => self.frame().position += operands[0],
            Op::Call => {
                if operands[0] >= self.program.functions.len() {
                    return Err(6);
                }
                self.call(operands[0], operands[1], spent)?;
            }
            Op::CallCallable => {
                let Value::FunctionReference(name) = self.pop()? else {
                    return Err(5);
                };
                let function = self.newest_function(&name).ok_or(14u32)?;
                self.call(function, operands[0], spent)?;
                return Ok(Step::CalledByName(function));
            }
            Op::BuildStructInstance => {
                if operands[0] >= self.program.structs.len() {
                    return Err(6);
                }
                // Field 0 is the value popped first.
                let fields = self.pop_many(operands[1])?;
                let fields = self.take_cells(fields)?;
                self.push(Value::StructInstance(operands[0], fields))?;
            }
            Op::AccessStructField => {
                let Value::StructInstance(_, fields) = self.pop()? else {
                    return Err(5);
                };
                let field = fields.items().get(operands[0]).ok_or(6u32)?.clone();
                self.push(field)?;
            }
            Op::BuildList => {
                // The value popped first is the last element.
                let mut elements = self.pop_many(operands[0])?;
                elements.reverse();
                let elements = self.take_cells(elements)?;
                self.push(Value::List(elements))?;
            }
            Op::Return => {
                // Popping first keeps the frame in the backtrace of fault 4.
                let value = self.pop()?;
                if self.frames.len() == 1 {
                    self.last_result = Some(value.clone());
                    return Ok(Step::RootReturn(value));
                }
                self.frames.pop();
                // Shortens the stack where it is longer, and only there.
                self.stack.truncate(frame.base);
                self.push(value)?;
            }
            _ => unreachable!("only carried opcodes come this far"),
        }
        Ok(Step::Done(0))
    }

    fn pop(&mut self) -> Result<Value, u32> {
        self.stack.pop().ok_or(4)
    }

    fn pop_scalar(&mut self) -> Result<f64, u32> {
        match self.pop()? {
            Value::Scalar(scalar) => Ok(scalar),
            _ => Err(5),
        }
    }

    fn pop_boolean(&mut self) -> Result<bool, u32> {
        match self.pop()? {
            Value::Boolean(boolean) => Ok(boolean),
            _ => Err(5),
        }
    }

    /// Pops `count` values, the one popped first in front.
    fn pop_many(&mut self, count: usize) -> Result<Vec<Value>, u32> {
        (0..count).map(|_| self.pop()).collect()
    }

    /// A step that has popped finds the room it has made itself, so this
    /// faults only for steps that push without popping.
    fn push(&mut self, value: Value) -> Result<(), u32> {
        if self.stack.len() >= self.stores.values {
            return Err(9);
        }
        self.stack.push(value);
        Ok(())
    }

    fn take_cells(&mut self, items: Vec<Value>) -> Result<std::rc::Rc<Elements>, u32> {
        if items.iter().any(|item| item.depth() >= MAX_DEPTH) {
            return Err(12);
        }
        let wanted = items.len() + 1;
        if wanted > self.stores.cells - self.cells_used {
            return Err(11);
        }
        self.cells_used += wanted;
        Ok(Elements::new(items))
    }

    fn call(&mut self, function: usize, count: usize, entered: u64) -> Result<(), u32> {
        let base = self.stack.len().checked_sub(count).ok_or(4u32)?;
        if self.frames.len() >= self.stores.frames {
            return Err(10);
        }
        self.frames.push(Frame {
            function,
            position: 0,
            base,
            entered,
        });
        Ok(())
    }
}

fn instruction(op: u8, operands: &[u16]) -> Vec<u8> {
    let mut bytes = vec![op];
    for operand in operands {
        bytes.extend_from_slice(&operand.to_le_bytes());
    }
    bytes
}

pub fn main_code(program: &Program) -> usize {
    program.functions[0].code.len()
}

pub fn other_code(program: &Program) -> usize {
    program.functions[1..].iter().map(|f| f.code.len()).sum()
}

fn constant_text(constant: &Constant) -> usize {
    match constant {
        Constant::Scalar(_) | Constant::Boolean(_) => 0,
        Constant::String(text) | Constant::FunctionReference(text) => text.len(),
    }
}

/// All texts lie in the text store, each with its own copy.
pub fn text(program: &Program) -> usize {
    program.constants.iter().map(constant_text).sum::<usize>()
        + program.structs.iter().map(Vec::len).sum::<usize>()
        + program
            .functions
            .iter()
            .map(|f| f.name.len())
            .sum::<usize>()
}
