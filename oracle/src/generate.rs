//! Images to compare on: seeded and repeatable. Case `index` of a seed does
//! not depend on the other cases.

use crate::edges::{LARGEST, ROLES};
use crate::image::{
    self, image, read_number, write_number, Constant, Function, Number, Program, MAIN,
};
use crate::limits::Stores;
use crate::op::{Op, OPS};
use crate::print::{MAX_IMAGE, UNITS};

/// Splitmix64.
pub struct Rng(u64);

impl Rng {
    pub fn new(seed: u64, index: u64) -> Rng {
        let mut rng = Rng(seed);
        let start = rng.draw() ^ index.wrapping_mul(0xD134_2543_DE82_EF95);
        Rng(start)
    }

    pub fn draw(&mut self) -> u64 {
        self.0 = self.0.wrapping_add(0x9E37_79B9_7F4A_7C15);
        let mut z = self.0;
        z = (z ^ (z >> 30)).wrapping_mul(0xBF58_476D_1CE4_E5B9);
        z = (z ^ (z >> 27)).wrapping_mul(0x94D0_49BB_1331_11EB);
        z ^ (z >> 31)
    }

    /// A number below `n`.
    pub fn below(&mut self, n: usize) -> usize {
        (self.draw() % n as u64) as usize
    }

    /// A number from `low` to `high`, both included.
    pub fn between(&mut self, low: usize, high: usize) -> usize {
        low + self.below(high - low + 1)
    }

    /// True in `percent` of a hundred.
    pub fn chance(&mut self, percent: usize) -> bool {
        self.below(100) < percent
    }

    pub fn pick<T: Copy>(&mut self, from: &[T]) -> T {
        from[self.below(from.len())]
    }
}

/// The image of one case.
pub fn case(seed: u64, index: u64) -> Vec<u8> {
    let mut rng = Rng::new(seed, index);
    let rng = &mut rng;
    match rng.below(100) {
        0..=5 => image(&random_bytes(rng)),
        6..=11 => image(&random_instructions(rng)),
        12..=29 => image(&fitting(rng)),
        30..=33 => image(&comparisons(rng)),
        34..=43 => {
            let mut program = fitting(rng);
            spoil_code(rng, &mut program);
            image(&program)
        }
        44..=48 => image(&deep(rng)),
        49..=52 => image(&doubled(rng)),
        53..=57 => image(&recursion(rng)),
        58 => image(&fibonacci(rng)),
        59..=62 => image(&full_stack(rng)),
        63..=64 => image(&full_cells(rng)),
        65..=66 => image(&all_full(rng)),
        67..=68 => image(&full_frames(rng)),
        69..=71 => store_edge(rng),
        72..=77 => image(&numbers(rng)),
        78..=81 => image(&endings(rng)),
        82..=90 => image(&directed(rng)),
        91 => image(&edge_of_units(rng)),
        92..=94 => edge(rng),
        _ => damaged(rng),
    }
}

/// A short program: of an image of at most so many bytes.
pub fn short(rng: &mut Rng, most: usize) -> Program {
    loop {
        let program = match rng.below(8) {
            0 => random_bytes(rng),
            1 => random_instructions(rng),
            2 => comparisons(rng),
            3 => recursion(rng),
            4 => numbers(rng),
            5 => endings(rng),
            6 => directed(rng),
            _ => fitting(rng),
        };
        if image(&program).len() <= most {
            return program;
        }
    }
}

/// A short image that is broken, or may be.
pub fn short_damaged(rng: &mut Rng, most: usize) -> Vec<u8> {
    loop {
        let image = damaged(rng);
        if image.len() <= most {
            return image;
        }
    }
}

// Writing code

#[derive(Default)]
pub(crate) struct Code(pub(crate) Vec<u8>);

impl Code {
    pub(crate) fn op(&mut self, op: Op) -> &mut Self {
        self.0.push(op as u8);
        self
    }

    pub(crate) fn op1(&mut self, op: Op, a: usize) -> &mut Self {
        self.op(op).word(a)
    }

    pub(crate) fn op2(&mut self, op: Op, a: usize, b: usize) -> &mut Self {
        self.op(op).word(a).word(b)
    }

    pub(crate) fn word(&mut self, word: usize) -> &mut Self {
        self.0.extend_from_slice(&(word as u16).to_le_bytes());
        self
    }

    /// An instruction with a forward offset still to come; gives its place.
    pub(crate) fn jump(&mut self, op: Op) -> usize {
        self.op1(op, 0);
        self.0.len()
    }

    /// Lets the jump that ended at `from` land here.
    pub(crate) fn land(&mut self, from: usize) {
        let offset = (self.0.len() - from) as u16;
        self.0[from - 2..from].copy_from_slice(&offset.to_le_bytes());
    }
}

/// Places for code, in one of several styles. Long code gets few runs, so
/// that the image stays within what the runner reads.
fn places(rng: &mut Rng, length: usize) -> Vec<u32> {
    let most = if length > 1_500 { 3 } else { 9 };
    let mut out = vec![];
    match rng.below(most) {
        0 => out.resize(length, 0),
        1 => out.resize(length, rng.draw() as u32),
        2 => {
            out.resize(length / 2, 4_294_967_295);
            out.resize(length, 127);
        }
        3..=5 => out.extend(0..length as u32),
        _ => {
            while out.len() < length {
                let run = rng.between(1, 9);
                let place = rng.draw() as u32 >> rng.below(32);
                let end = length.min(out.len() + run);
                out.resize(end, place);
            }
        }
    }
    out
}

pub(crate) fn function(rng: &mut Rng, name: &[u8], code: Code) -> Function {
    Function {
        name: name.to_vec(),
        places: places(rng, code.0.len()),
        code: code.0,
    }
}

fn program(rng: &mut Rng, constants: Vec<Constant>, main: Code) -> Program {
    Program {
        constants,
        structs: vec![],
        functions: vec![function(rng, MAIN, main)],
    }
}

// Constants

/// Scalars at which arithmetic has something to decide.
pub const SCALARS: [u64; 32] = [
    0x0000_0000_0000_0000, // 0
    0x8000_0000_0000_0000, // -0
    0x3FF0_0000_0000_0000, // 1
    0xBFF0_0000_0000_0000, // -1
    0x3FE0_0000_0000_0000, // 0.5
    0x4000_0000_0000_0000, // 2
    0x4008_0000_0000_0000, // 3
    0x4045_0000_0000_0000, // 42
    0x3FB9_9999_9999_999A, // 0.1
    0x3FC9_9999_9999_999A, // 0.2
    0x3FD3_3333_3333_3333, // 0.3
    0x3FF0_0000_0000_0001, // just above 1
    0x3FEF_FFFF_FFFF_FFFF, // just below 1
    0x3CA0_0000_0000_0000, // half the step above 1
    0x4340_0000_0000_0000, // 2^53
    0x4340_0000_0000_0001, // 2^53 + 2
    0x7FEF_FFFF_FFFF_FFFF, // greatest finite
    0xFFEF_FFFF_FFFF_FFFF, // least finite
    0x7FE0_0000_0000_0000, // 2^1023
    0x0010_0000_0000_0000, // least normal
    0x8010_0000_0000_0000, // its negative
    0x000F_FFFF_FFFF_FFFF, // greatest subnormal
    0x0000_0000_0000_0001, // least subnormal
    0x8000_0000_0000_0001, // its negative
    0x0008_0000_0000_0000, // a subnormal in the middle
    0x7FF0_0000_0000_0000, // infinity
    0xFFF0_0000_0000_0000, // -infinity
    0x7FF8_0000_0000_0000, // a NaN
    0xFFF8_0000_0000_0000, // a NaN with its sign set
    0x7FF0_0000_0000_0001, // a signalling NaN
    0xFFF8_0000_0000_0123, // a NaN with a payload
    0x7FFF_FFFF_FFFF_FFFF, // a NaN, all ones
];

pub fn scalar(rng: &mut Rng) -> u64 {
    match rng.below(4) {
        0 => rng.draw(),
        1 => (rng.below(20) as f64 - 4.0).to_bits(),
        _ => rng.pick(&SCALARS),
    }
}

pub(crate) fn number(value: f64) -> Constant {
    Constant::Scalar(value.to_bits())
}

pub fn some_text(rng: &mut Rng, longest: usize) -> Vec<u8> {
    let length = rng.below(longest + 1);
    let any = rng.chance(30);
    (0..length)
        .map(|_| {
            if any {
                rng.draw() as u8
            } else {
                rng.pick(b"abc")
            }
        })
        .collect()
}

pub fn some_constant(rng: &mut Rng) -> Constant {
    match rng.below(8) {
        0..=3 => Constant::Scalar(scalar(rng)),
        4 | 5 => Constant::Boolean(rng.chance(50)),
        6 => Constant::String(some_text(rng, 5)),
        _ if rng.chance(20) => Constant::FunctionReference(MAIN.to_vec()),
        _ => Constant::FunctionReference(some_text(rng, 2)),
    }
}

pub(crate) fn struct_names(count: usize) -> Vec<Vec<u8>> {
    (0..count).map(|n| format!("S{n}").into_bytes()).collect()
}

// Shapes

/// Code of any bytes at all.
fn random_bytes(rng: &mut Rng) -> Program {
    let mut program = Program::new();
    program.constants = (0..rng.below(6)).map(|_| some_constant(rng)).collect();
    program.structs = struct_names(rng.below(4));
    let below = rng.pick(&[38, 42, 256]);
    program.functions.clear();
    for index in 0..rng.between(1, 4) {
        let mut code = Code::default();
        for _ in 0..rng.below(40) {
            code.0.push(rng.below(below) as u8);
        }
        let name = if index == 0 {
            MAIN.to_vec()
        } else {
            some_text(rng, 2)
        };
        program.functions.push(function(rng, &name, code));
    }
    program
}

/// Whole instructions with small operands; kinds and heights as they fall.
fn random_instructions(rng: &mut Rng) -> Program {
    let mut program = Program::new();
    program.constants = (0..rng.between(1, 8)).map(|_| some_constant(rng)).collect();
    program.structs = struct_names(rng.below(4));
    program.functions.clear();
    let functions = rng.between(1, 4);
    for index in 0..functions {
        let mut code = Code::default();
        for _ in 0..rng.below(30) {
            let op = if rng.chance(45) {
                rng.pick(&[Op::LoadConstant, Op::GetLocal, Op::GetUpvalue])
            } else {
                let op = rng.pick(&OPS);
                if op.is_carried() || rng.chance(5) {
                    op
                } else {
                    Op::LoadConstant
                }
            };
            code.op(op);
            for _ in 0..op.operands_read() {
                let below = if rng.chance(5) { 65_536 } else { 4 };
                let operand = rng.below(below);
                code.word(operand);
            }
        }
        let name = if index == 0 {
            MAIN.to_vec()
        } else {
            some_text(rng, 2)
        };
        program.functions.push(function(rng, &name, code));
    }
    program
}

#[derive(Clone, Copy, PartialEq)]
enum Kind {
    Number,
    Truth,
    Text,
    Reference,
    List,
    Struct,
}

const KINDS: [Kind; 6] = [
    Kind::Number,
    Kind::Truth,
    Kind::Text,
    Kind::Reference,
    Kind::List,
    Kind::Struct,
];

/// Writes expressions the way a compiler would, so that the operands fit and
/// the program runs to its end, or to a division by zero.
struct Writer<'a> {
    rng: &'a mut Rng,
    constants: Vec<Constant>,
    structs: usize,
    /// The values that main leaves at the bottom of the stack.
    globals: Vec<Kind>,
    /// Name, kinds of the arguments and of the result, for function 1 on.
    signatures: Vec<(Vec<u8>, Vec<Kind>, Kind)>,
}

/// Where an expression is written.
struct Scope {
    /// The function's own number; it calls only higher ones, so calls end.
    function: usize,
    locals: Vec<Kind>,
    /// Whether globals and functions may be used yet.
    ready: bool,
    /// The kind of the last result, if there certainly is one.
    last: Option<Kind>,
    fuel: usize,
    code: Code,
}

impl Writer<'_> {
    fn constant(&mut self, kind: Kind) -> usize {
        let matching: Vec<usize> = (0..self.constants.len())
            .filter(|n| {
                kind == match self.constants[*n] {
                    Constant::Scalar(_) => Kind::Number,
                    Constant::Boolean(_) => Kind::Truth,
                    Constant::String(_) => Kind::Text,
                    Constant::FunctionReference(_) => Kind::Reference,
                }
            })
            .collect();
        self.rng.pick(&matching)
    }

    fn any(&mut self, scope: &mut Scope) {
        let kind = self.rng.pick(&KINDS);
        self.expression(kind, scope);
    }

    /// Writes code that pushes one value of the kind and disturbs nothing
    /// below it.
    fn expression(&mut self, kind: Kind, scope: &mut Scope) {
        if scope.fuel == 0 {
            return self.leaf(kind, scope);
        }
        scope.fuel -= 1;
        match self.rng.below(12) {
            0 | 1 => self.leaf(kind, scope),
            2 => self.branch(kind, scope),
            3 | 4 if scope.ready => self.call(kind, scope),
            5 => {
                // A field of a struct built for it.
                let count = self.rng.between(1, 3);
                let wanted = self.rng.below(count);
                // Field 0 is popped first, so it is pushed last.
                for field in (0..count).rev() {
                    if field == wanted {
                        self.expression(kind, scope);
                    } else {
                        self.any(scope);
                    }
                }
                let number = self.rng.below(self.structs);
                scope.code.op2(Op::BuildStructInstance, number, count);
                scope.code.op1(Op::AccessStructField, wanted);
            }
            _ => self.composed(kind, scope),
        }
    }

    fn leaf(&mut self, kind: Kind, scope: &mut Scope) {
        if self.rng.chance(50) {
            let locals: Vec<usize> = (0..scope.locals.len())
                .filter(|n| scope.locals[*n] == kind)
                .collect();
            if !locals.is_empty() {
                let slot = self.rng.pick(&locals);
                scope.code.op1(Op::GetLocal, slot);
                return;
            }
            let globals: Vec<usize> = (0..self.globals.len())
                .filter(|n| self.globals[*n] == kind)
                .collect();
            if scope.ready && !globals.is_empty() {
                let slot = self.rng.pick(&globals);
                scope.code.op1(Op::GetUpvalue, slot);
                return;
            }
            if scope.last == Some(kind) {
                scope.code.op(Op::GetLastResult);
                return;
            }
        }
        match kind {
            Kind::List => {
                scope.code.op1(Op::BuildList, 0);
            }
            Kind::Struct => {
                let number = self.rng.below(self.structs);
                scope.code.op2(Op::BuildStructInstance, number, 0);
            }
            _ => {
                let number = self.constant(kind);
                scope.code.op1(Op::LoadConstant, number);
            }
        }
    }

    fn composed(&mut self, kind: Kind, scope: &mut Scope) {
        match kind {
            Kind::Number => {
                if self.rng.chance(15) {
                    self.expression(Kind::Number, scope);
                    scope.code.op(Op::Negate);
                } else {
                    self.expression(Kind::Number, scope);
                    self.expression(Kind::Number, scope);
                    let op = if self.rng.chance(10) {
                        Op::Divide
                    } else {
                        self.rng.pick(&[Op::Add, Op::Subtract, Op::Multiply])
                    };
                    scope.code.op(op);
                }
            }
            Kind::Truth => match self.rng.below(4) {
                0 => {
                    self.expression(Kind::Number, scope);
                    self.expression(Kind::Number, scope);
                    let op = self.rng.pick(&[
                        Op::LessThan,
                        Op::GreaterThan,
                        Op::LessOrEqual,
                        Op::GreatorOrEqual,
                    ]);
                    scope.code.op(op);
                }
                1 => {
                    let kind = self.rng.pick(&KINDS);
                    self.expression(kind, scope);
                    if self.rng.chance(80) {
                        self.expression(kind, scope);
                    } else {
                        self.any(scope);
                    }
                    let op = self.rng.pick(&[Op::Equal, Op::NotEqual]);
                    scope.code.op(op);
                }
                2 => {
                    self.expression(Kind::Truth, scope);
                    self.expression(Kind::Truth, scope);
                    let op = self.rng.pick(&[Op::LogicalAnd, Op::LogicalOr]);
                    scope.code.op(op);
                }
                _ => {
                    self.expression(Kind::Truth, scope);
                    scope.code.op(Op::LogicalNeg);
                }
            },
            Kind::List | Kind::Struct => {
                let count = self.rng.below(4);
                let same = self.rng.pick(&KINDS);
                for _ in 0..count {
                    if self.rng.chance(70) {
                        self.expression(same, scope);
                    } else {
                        self.any(scope);
                    }
                }
                if kind == Kind::List {
                    scope.code.op1(Op::BuildList, count);
                } else {
                    let number = self.rng.below(self.structs);
                    scope.code.op2(Op::BuildStructInstance, number, count);
                }
            }
            Kind::Text | Kind::Reference => self.leaf(kind, scope),
        }
    }

    fn branch(&mut self, kind: Kind, scope: &mut Scope) {
        self.expression(Kind::Truth, scope);
        let to_else = scope.code.jump(Op::JumpIfFalse);
        self.expression(kind, scope);
        let to_end = scope.code.jump(Op::Jump);
        scope.code.land(to_else);
        self.expression(kind, scope);
        scope.code.land(to_end);
    }

    fn call(&mut self, kind: Kind, scope: &mut Scope) {
        let callable: Vec<usize> = (scope.function + 1..=self.signatures.len())
            .filter(|n| self.signatures[n - 1].2 == kind)
            .collect();
        if callable.is_empty() {
            return self.leaf(kind, scope);
        }
        let number = self.rng.pick(&callable);
        let (name, arguments, _) = self.signatures[number - 1].clone();
        for argument in &arguments {
            self.expression(*argument, scope);
        }
        // A function that is hidden by a newer one of its name is called by
        // number only.
        let newest = self.signatures.iter().rposition(|s| s.0 == name);
        if newest == Some(number - 1) && self.rng.chance(50) {
            let reference = self
                .constants
                .iter()
                .position(|c| *c == Constant::FunctionReference(name.clone()));
            scope
                .code
                .op1(Op::LoadConstant, reference.expect("every name has one"));
            let unused = self.rng.below(65_536);
            scope.code.op2(Op::CallCallable, arguments.len(), unused);
        } else {
            scope.code.op2(Op::Call, number, arguments.len());
        }
    }
}

/// A program whose operands fit.
fn fitting(rng: &mut Rng) -> Program {
    let mut constants = vec![Constant::Boolean(false), Constant::Boolean(true)];
    for _ in 0..rng.between(1, 6) {
        constants.push(Constant::Scalar(scalar(rng)));
    }
    for _ in 0..rng.between(1, 3) {
        constants.push(Constant::String(some_text(rng, 4)));
    }
    let mut signatures: Vec<(Vec<u8>, Vec<Kind>, Kind)> = vec![];
    for _ in 0..rng.below(6) {
        let name = format!("f{}", rng.below(8)).into_bytes();
        let arguments = (0..rng.below(4)).map(|_| rng.pick(&KINDS)).collect();
        signatures.push((name, arguments, rng.pick(&KINDS)));
    }
    constants.push(Constant::FunctionReference(b"nobody".to_vec()));
    for signature in &signatures {
        let reference = Constant::FunctionReference(signature.0.clone());
        if !constants.contains(&reference) {
            constants.push(reference);
        }
    }
    let globals = (0..rng.below(5)).map(|_| rng.pick(&KINDS)).collect();
    let structs = rng.between(1, 4);
    let mut writer = Writer {
        rng,
        constants,
        structs,
        globals,
        signatures,
    };

    let mut scope = Scope {
        function: 0,
        locals: vec![],
        ready: false,
        last: None,
        fuel: 0,
        code: Code::default(),
    };
    for number in 0..writer.globals.len() {
        scope.fuel = 3;
        writer.expression(writer.globals[number], &mut scope);
        scope.locals.push(writer.globals[number]);
    }
    scope.ready = true;
    for _ in 0..writer.rng.between(1, 6) {
        scope.fuel = writer.rng.between(1, 25);
        let kind = writer.rng.pick(&KINDS);
        writer.expression(kind, &mut scope);
        match writer.rng.below(8) {
            // Left where it is, as one more local of main.
            0 => scope.locals.push(kind),
            // Over some bytes that nobody reads.
            1 => {
                let from = scope.code.jump(Op::Jump);
                for _ in 0..writer.rng.below(6) {
                    scope.code.0.push(writer.rng.draw() as u8);
                }
                scope.code.land(from);
                scope.code.op(Op::Return);
                scope.last = Some(kind);
            }
            _ => {
                scope.code.op(Op::Return);
                scope.last = Some(kind);
            }
        }
    }
    let mut codes = vec![scope.code];
    for number in 1..=writer.signatures.len() {
        let (_, arguments, result) = writer.signatures[number - 1].clone();
        let mut scope = Scope {
            function: number,
            locals: arguments,
            ready: true,
            last: None,
            fuel: writer.rng.between(1, 12),
            code: Code::default(),
        };
        writer.expression(result, &mut scope);
        if writer.rng.chance(97) {
            scope.code.op(Op::Return);
        }
        codes.push(scope.code);
    }

    let Writer {
        rng,
        constants,
        structs,
        signatures,
        ..
    } = writer;
    let functions = codes
        .into_iter()
        .enumerate()
        .map(|(number, code)| {
            let name = if number == 0 {
                MAIN
            } else {
                signatures[number - 1].0.as_slice()
            };
            function(rng, name, code)
        })
        .collect();
    Program {
        constants,
        structs: struct_names(structs),
        functions,
    }
}

/// Changes one or two bytes of code.
fn spoil_code(rng: &mut Rng, program: &mut Program) {
    for _ in 0..rng.between(1, 2) {
        let number = rng.below(program.functions.len());
        let code = &mut program.functions[number].code;
        if !code.is_empty() {
            let at = rng.below(code.len());
            code[at] = match rng.below(4) {
                0 => rng.draw() as u8,
                1 => code[at].wrapping_add(1),
                _ => rng.below(38) as u8,
            };
        }
    }
}

/// Something to compare.
#[derive(Clone)]
enum Tree {
    Leaf(usize),
    List(Vec<Tree>),
    Struct(usize, Vec<Tree>),
}

impl Tree {
    fn new(rng: &mut Rng, height: usize) -> Tree {
        if height == 0 || rng.chance(25) {
            return Tree::Leaf(rng.pick(&[0, 0, 1, 1, 2, 3, 4, 5, 6, 7]));
        }
        let parts = (0..rng.below(5)).map(|_| Tree::new(rng, height - 1));
        let parts = parts.collect();
        if rng.chance(60) {
            Tree::List(parts)
        } else {
            Tree::Struct(rng.below(2), parts)
        }
    }

    /// Makes it different at one place, or at none if it falls out so.
    fn change(&mut self, rng: &mut Rng) {
        match self {
            Tree::Leaf(constant) => *constant = rng.below(8),
            Tree::List(parts) | Tree::Struct(_, parts) if !parts.is_empty() && rng.chance(80) => {
                let at = rng.below(parts.len());
                parts[at].change(rng);
            }
            Tree::List(parts) => match rng.below(3) {
                0 => *self = Tree::Struct(0, std::mem::take(parts)),
                1 => parts.push(Tree::Leaf(0)),
                _ => drop(parts.pop()),
            },
            Tree::Struct(number, parts) => match rng.below(3) {
                0 => *number = 1 - *number,
                1 => parts.push(Tree::Leaf(0)),
                _ => *self = Tree::List(std::mem::take(parts)),
            },
        }
    }

    fn write(&self, code: &mut Code) {
        match self {
            Tree::Leaf(constant) => {
                code.op1(Op::LoadConstant, *constant);
            }
            Tree::List(parts) => {
                parts.iter().for_each(|part| part.write(code));
                code.op1(Op::BuildList, parts.len());
            }
            Tree::Struct(number, parts) => {
                parts.iter().for_each(|part| part.write(code));
                code.op2(Op::BuildStructInstance, *number, parts.len());
            }
        }
    }
}

/// Lists and structs compared with others that differ at one place: the
/// units tell how far the comparison went.
fn comparisons(rng: &mut Rng) -> Program {
    let mut main = Code::default();
    for _ in 0..rng.between(1, 3) {
        let left = Tree::new(rng, 3);
        let mut right = left.clone();
        if rng.chance(80) {
            right.change(rng);
        }
        let length = main.0.len();
        left.write(&mut main);
        right.write(&mut main);
        main.op(rng.pick(&[Op::Equal, Op::NotEqual])).op(Op::Return);
        if main.0.len() > 6_000 {
            main.0.truncate(length);
        }
    }
    let constants = vec![
        number(1.0),
        number(2.0),
        number(0.0),
        number(-0.0),
        number(f64::NAN),
        Constant::Boolean(true),
        Constant::String(b"f".to_vec()),
        Constant::FunctionReference(b"f".to_vec()),
    ];
    let mut program = program(rng, constants, main);
    program.structs = struct_names(2);
    program
}

/// Nesting to the limit and one past it, in lists, structs or both.
fn deep(rng: &mut Rng) -> Program {
    let mut code = Code::default();
    let towers = rng.between(1, 2);
    let depth = rng.pick(&[1, 2, 31, 63, 64, 65]);
    let structs = rng.chance(50);
    for tower in 0..towers {
        // An empty list is deep already; a scalar is not.
        let empty = rng.chance(50);
        if empty {
            code.op1(Op::BuildList, 0);
        } else {
            code.op1(Op::LoadConstant, 0);
        }
        let short = if tower == 1 && rng.chance(30) { 1 } else { 0 };
        for level in usize::from(empty)..depth - short.min(depth - 1) {
            if structs && level % 3 == 1 {
                let number = rng.below(2);
                code.op2(
                    Op::BuildStructInstance,
                    if rng.chance(90) { 0 } else { number },
                    1,
                );
            } else {
                code.op1(Op::BuildList, 1);
            }
        }
    }
    if towers == 2 {
        let op = rng.pick(&[Op::Equal, Op::NotEqual, Op::BuildList]);
        if op == Op::BuildList {
            code.op1(op, 2);
        } else {
            code.op(op);
        }
    }
    if rng.chance(80) {
        code.op(Op::Return);
    }
    let first = Constant::Scalar(scalar(rng));
    let mut program = program(rng, vec![first], code);
    program.structs = struct_names(2);
    program
}

/// Lists or structs that hold the one below them twice, and comparisons of
/// them: the pairs double at each level.
fn doubled(rng: &mut Rng) -> Program {
    let mut code = Code::default();
    let depth = rng.pick(&[3, 8, 15, 17, 18, 19, 63, 64]);
    let structs = rng.chance(40);
    code.op1(Op::LoadConstant, 0);
    for level in 0..depth {
        code.op1(Op::GetUpvalue, level).op1(Op::GetUpvalue, level);
        if structs {
            code.op2(Op::BuildStructInstance, level % 2, 2);
        } else {
            code.op1(Op::BuildList, 2);
        }
    }
    for _ in 0..rng.between(1, 3) {
        let level = if rng.chance(40) {
            depth
        } else {
            rng.below(depth + 1)
        };
        let other = if rng.chance(85) {
            level
        } else {
            rng.below(depth + 1)
        };
        code.op1(Op::GetUpvalue, level).op1(Op::GetLocal, other);
        let op = rng.pick(&[Op::Equal, Op::NotEqual]);
        code.op(op).op(Op::Return);
    }
    // A NaN at the bottom is found different at the first leaf.
    let bottom = rng.pick(&[42.0f64.to_bits(), 1.0f64.to_bits(), f64::NAN.to_bits()]);
    let mut program = program(rng, vec![Constant::Scalar(bottom)], code);
    program.structs = struct_names(2);
    program
}

/// A function that calls itself a given number of times, around the number
/// of frames there are, by number or by name.
fn recursion(rng: &mut Rng) -> Program {
    let limit = Stores::RUNNER.frames;
    let times = match rng.below(4) {
        0 => rng.below(20),
        1 => 100_000,
        _ => rng.between(limit - 4, limit + 1),
    };
    // f(n) = if n <= 0 then 0 else f(n - 1) + 1
    let mut f = Code::default();
    f.op1(Op::GetLocal, 0).op1(Op::LoadConstant, 0);
    f.op(Op::LessOrEqual);
    let to_else = f.jump(Op::JumpIfFalse);
    f.op1(Op::LoadConstant, 0).op(Op::Return);
    f.land(to_else);
    f.op1(Op::GetLocal, 0).op1(Op::LoadConstant, 1);
    f.op(Op::Subtract);
    call_itself(rng, &mut f);
    f.op1(Op::LoadConstant, 1).op(Op::Add).op(Op::Return);

    let mut main = Code::default();
    main.op1(Op::LoadConstant, 2)
        .op2(Op::Call, 1, 1)
        .op(Op::Return);
    if rng.chance(20) {
        main.op1(Op::LoadConstant, 1)
            .op2(Op::Call, 1, 1)
            .op(Op::Return);
    }
    recursive_program(rng, times, main, f)
}

fn call_itself(rng: &mut Rng, f: &mut Code) {
    if rng.chance(50) {
        f.op2(Op::Call, 1, 1);
    } else {
        f.op1(Op::LoadConstant, 3).op2(Op::CallCallable, 1, 0);
    }
}

fn recursive_program(rng: &mut Rng, argument: usize, main: Code, f: Code) -> Program {
    let constants = vec![
        number(0.0),
        number(1.0),
        number(argument as f64),
        Constant::FunctionReference(b"f".to_vec()),
    ];
    let mut program = program(rng, constants, main);
    program.functions.push(function(rng, b"f", f));
    program
}

/// Many steps with few frames: some spend more units than there are.
fn fibonacci(rng: &mut Rng) -> Program {
    let n = rng.pick(&[5, 12, 20, 21, 22, 30]);
    // f(n) = if n <= 1 then n else f(n - 1) + f(n - 1 - 1)
    let mut f = Code::default();
    f.op1(Op::GetLocal, 0).op1(Op::LoadConstant, 1);
    f.op(Op::LessOrEqual);
    let to_else = f.jump(Op::JumpIfFalse);
    f.op1(Op::GetLocal, 0).op(Op::Return);
    f.land(to_else);
    f.op1(Op::GetLocal, 0)
        .op1(Op::LoadConstant, 1)
        .op(Op::Subtract);
    call_itself(rng, &mut f);
    f.op1(Op::GetLocal, 0)
        .op1(Op::LoadConstant, 1)
        .op(Op::Subtract);
    f.op1(Op::LoadConstant, 1).op(Op::Subtract);
    call_itself(rng, &mut f);
    f.op(Op::Add).op(Op::Return);
    let mut main = Code::default();
    main.op1(Op::LoadConstant, 2)
        .op2(Op::Call, 1, 1)
        .op(Op::Return);
    recursive_program(rng, n, main, f)
}

/// The stack filled to its last place or nearly, then one more instruction.
fn full_stack(rng: &mut Rng) -> Program {
    let limit = Stores::RUNNER.values;
    let mut main = Code::default();
    // Sometimes there is a last result to push.
    if rng.chance(50) {
        main.op1(Op::LoadConstant, 0).op(Op::Return);
    }
    for _ in 0..limit - rng.below(3) {
        main.op1(Op::LoadConstant, rng.below(2));
    }
    let mut program = Program::new();
    program.constants = vec![
        number(1.0),
        number(2.0),
        Constant::FunctionReference(b"f".to_vec()),
    ];
    program.structs = struct_names(1);
    for _ in 0..rng.between(1, 3) {
        match rng.below(14) {
            0 => main.op1(Op::LoadConstant, rng.pick(&[0, 2])),
            1 => main.op1(Op::LoadConstant, 3),
            2 => main.op1(Op::GetLocal, rng.pick(&[0, 1_023])),
            3 => main.op1(Op::GetLocal, rng.pick(&[1_024, 65_535])),
            4 => main.op1(Op::GetUpvalue, rng.pick(&[1_023, 1_024])),
            5 => main.op(Op::GetLastResult),
            6 => main.op1(Op::BuildList, 0),
            7 => main.op2(Op::BuildStructInstance, rng.below(2), 0),
            8 => main.op1(Op::BuildList, rng.pick(&[1, 1_024, 1_025])),
            9 => main.op2(Op::BuildStructInstance, 0, rng.pick(&[1, 1_023, 1_025])),
            10 => main.op2(Op::Call, 1, rng.pick(&[0, 1, 1_024, 1_025])),
            11 => main.op(Op::Negate),
            12 => main.op(Op::Equal),
            _ => main.op(Op::Add),
        };
    }
    if rng.chance(50) {
        main.op(Op::Return);
    }
    let mut f = Code::default();
    f.op1(Op::GetLocal, 0).op(Op::Return);
    program.functions = vec![function(rng, MAIN, main), function(rng, b"f", f)];
    program
}

/// The cells filled to the last or nearly, then one more list or struct.
fn full_cells(rng: &mut Rng) -> Program {
    let limit = Stores::RUNNER.cells;
    let target = limit - rng.below(4);
    let mut main = Code::default();
    let mut used = 0;
    // What is built is dropped again: the cells stay taken all the same.
    while used < target {
        let count = (target - used - 1).min(rng.pick(&[0, 7, 60, 200]));
        for _ in 0..count {
            main.op1(Op::LoadConstant, 0);
        }
        if rng.chance(50) {
            main.op1(Op::BuildList, count);
        } else {
            main.op2(Op::BuildStructInstance, 0, count);
        }
        used += count + 1;
        if rng.chance(30) {
            main.op(Op::Return);
        } else {
            main.op1(Op::LoadConstant, 0).op(Op::Equal);
            main.op1(Op::JumpIfFalse, 0);
        }
        if main.0.len() > 7_000 {
            break;
        }
    }
    for _ in 0..rng.below(4) {
        main.op1(Op::LoadConstant, 0);
    }
    match rng.below(5) {
        0 => main.op1(Op::BuildList, rng.below(4)),
        1 => main.op2(Op::BuildStructInstance, rng.below(2), rng.below(4)),
        2 => main.op1(Op::BuildList, 0).op1(Op::BuildList, 1),
        3 => main.op1(Op::BuildList, 0),
        _ => main.op2(Op::BuildStructInstance, 0, 0),
    };
    if rng.chance(70) {
        main.op(Op::Return);
    }
    let mut program = program(rng, vec![number(1.0)], main);
    program.structs = struct_names(1);
    program
}

/// Cells and stack both full or nearly, perhaps with a list of the greatest
/// depth at hand, so that the order of 12, 11 and 9 decides.
fn all_full(rng: &mut Rng) -> Program {
    // f leaves a list that takes 128 cells; sixteen of them fill all.
    let mut f = Code::default();
    for _ in 0..127 {
        f.op1(Op::LoadConstant, 0);
    }
    f.op1(Op::BuildList, 127).op(Op::Return);

    let mut main = Code::default();
    let tower = rng.chance(50);
    if tower {
        // Depth 64 in 127 cells; with one empty list that makes 128.
        main.op1(Op::BuildList, 0);
        for _ in 1..64 {
            main.op1(Op::BuildList, 1);
        }
        if rng.chance(80) {
            main.op1(Op::BuildList, 0);
        } else {
            main.op1(Op::LoadConstant, 0);
        }
    } else {
        main.op1(Op::LoadConstant, 0).op1(Op::LoadConstant, 0);
        main.op2(Op::Call, 1, 0).op(Op::Return);
    }
    for _ in 0..rng.between(14, 15) {
        main.op2(Op::Call, 1, 0);
        if rng.chance(20) {
            main.op(Op::Return);
        } else {
            main.op1(Op::LoadConstant, 0).op(Op::Equal);
            main.op1(Op::JumpIfFalse, 0);
        }
    }
    if rng.chance(70) {
        // The tower is at 0 and is put on top once more.
        let room = Stores::RUNNER.values - 2 - rng.below(2);
        for _ in 1..room {
            main.op1(Op::LoadConstant, 0);
        }
    }
    main.op1(Op::GetUpvalue, 0);
    match rng.below(5) {
        0 => main.op1(Op::BuildList, 0),
        1 => main.op2(Op::BuildStructInstance, rng.below(2), 0),
        2 => main.op1(Op::BuildList, 1),
        3 => main.op2(Op::BuildStructInstance, 0, rng.between(1, 2)),
        _ => main.op1(Op::LoadConstant, 0).op1(Op::BuildList, 2),
    };
    let mut program = program(rng, vec![number(1.0)], main);
    program.structs = struct_names(1);
    program.functions.push(function(rng, b"f", f));
    program
}

/// A function that takes one value off the stack and calls itself, so that
/// values and frames run out at about the same time.
fn full_frames(rng: &mut Rng) -> Program {
    let limit = Stores::RUNNER.frames;
    if rng.chance(50) {
        return last_frame(rng);
    }
    let mut main = Code::default();
    for _ in 0..rng.between(limit - 4, limit + 2) {
        main.op1(Op::LoadConstant, 0);
    }
    main.op2(Op::Call, 1, 0);
    let mut f = Code::default();
    f.op1(Op::JumpIfFalse, 0);
    let count = rng.below(3);
    match rng.below(3) {
        0 => f.op2(Op::Call, 1, count),
        1 => f.op1(Op::LoadConstant, 1).op2(Op::CallCallable, count, 9),
        _ => f.op2(Op::Call, rng.pick(&[0, 1, 1, 2]), count),
    };
    let constants = vec![
        Constant::Boolean(true),
        Constant::FunctionReference(b"f".to_vec()),
    ];
    let mut program = program(rng, constants, main);
    program.functions.push(function(rng, b"f", f));
    program
}

/// A function that calls itself as long as it takes true off the stack, and
/// at the first false, with the frames full or nearly, does something else.
fn last_frame(rng: &mut Rng) -> Program {
    let limit = Stores::RUNNER.frames;
    let mut main = Code::default();
    for _ in 0..rng.below(3) {
        main.op1(Op::LoadConstant, 0);
    }
    main.op1(Op::LoadConstant, 1);
    for _ in 0..rng.between(limit - 3, limit - 1) {
        main.op1(Op::LoadConstant, 0);
    }
    main.op2(Op::Call, 1, 0).op(Op::Return);
    let mut f = Code::default();
    let to_other = f.jump(Op::JumpIfFalse);
    f.op2(Op::Call, 1, 0).op(Op::Return);
    f.land(to_other);
    match rng.below(7) {
        0 => f.op2(Op::Call, 9, rng.pick(&[0, 9])),
        1 => f
            .op1(Op::LoadConstant, 3)
            .op2(Op::CallCallable, rng.pick(&[0, 9]), 0),
        2 => f.op2(Op::Call, 1, rng.below(4)),
        3 => f
            .op1(Op::LoadConstant, 2)
            .op2(Op::CallCallable, rng.below(4), 0),
        4 => f.op1(Op::LoadConstant, 0).op2(Op::CallCallable, 0, 0),
        5 => f.op2(Op::Call, 2, 0),
        _ => f.op1(Op::LoadConstant, 2),
    };
    f.op(Op::Return);
    let mut g = Code::default();
    g.op1(Op::LoadConstant, 0).op(Op::Return);
    let constants = vec![
        Constant::Boolean(true),
        Constant::Boolean(false),
        Constant::FunctionReference(b"f".to_vec()),
        Constant::FunctionReference(b"nobody".to_vec()),
    ];
    let mut program = program(rng, constants, main);
    program.functions.push(function(rng, b"f", f));
    program.functions.push(function(rng, b"g", g));
    program
}

/// A size of a store: all of it, one short, or one over.
fn about(rng: &mut Rng, size: usize) -> usize {
    size - 1 + rng.below(3)
}

/// An image whose stores are just large enough, or larger or smaller by one.
fn store_edge(rng: &mut Rng) -> Vec<u8> {
    let stores = Stores::RUNNER;
    let mut program = Program::new();
    program.constants = vec![number(1.0)];
    let mut main = Code::default();
    main.op1(Op::LoadConstant, 0).op(Op::Return);
    match rng.below(9) {
        0 => {
            program.constants = (0..about(rng, stores.constants))
                .map(|n| Constant::Boolean(n % 2 == 0))
                .collect();
            main.op1(Op::LoadConstant, 255).op(Op::Return);
        }
        1 => {
            program.structs = struct_names(about(rng, stores.structs));
            main.op2(Op::BuildStructInstance, 255, 0).op(Op::Return);
        }
        2 => {
            let f = program.functions[0].clone();
            program.functions = vec![
                Function {
                    name: b"f".to_vec(),
                    ..f
                };
                about(rng, stores.functions)
            ];
            main.op2(Op::Call, 255, 0);
        }
        3 => {
            let length = about(rng, stores.main_code);
            while main.0.len() < length {
                main.op(Op::Return);
            }
        }
        4 => {
            // The other codes share one store.
            let split = rng.below(stores.other_code);
            for length in [split, about(rng, stores.other_code) - split] {
                program.functions.push(Function {
                    name: b"f".to_vec(),
                    code: vec![Op::Return as u8; length],
                    places: vec![7; length],
                });
            }
            main.op2(Op::Call, 2, 0);
        }
        5 => {
            // As many functions as an image can hold.
            let empty = Function::default();
            let rest = MAX_IMAGE - 60;
            program.functions.extend(vec![empty; rest / 2]);
        }
        // The longest image there may be, one byte less, and one more.
        6 => {
            // With as much text as it can have, which is less than its store.
            program.constants.clear();
            return of_length(program, about(rng, MAX_IMAGE));
        }
        _ => {
            main.op1(Op::LoadConstant, 1).op(Op::Return);
            program.functions[0] = function(rng, MAIN, main);
            return of_length(program, about(rng, MAX_IMAGE));
        }
    }
    program.functions[0] = function(rng, MAIN, main);
    image(&program)
}

/// The image of a program with a text added that makes it so long.
fn of_length(mut program: Program, length: usize) -> Vec<u8> {
    program.constants.push(Constant::String(vec![]));
    // The text's length takes two bytes then, and took one.
    let text = length - image(&program).len() - 1;
    let last = program.constants.last_mut().expect("it was pushed");
    *last = Constant::String(vec![b'x'; text]);
    image(&program)
}

/// One operation on two scalars, and the result shown.
fn numbers(rng: &mut Rng) -> Program {
    let constants: Vec<Constant> = (0..rng.between(2, 5))
        .map(|_| Constant::Scalar(scalar(rng)))
        .collect();
    let count = constants.len();
    let mut main = Code::default();
    for _ in 0..rng.between(1, 4) {
        main.op1(Op::LoadConstant, rng.below(count));
        for _ in 0..rng.between(1, 3) {
            main.op1(Op::LoadConstant, rng.below(count));
            if rng.chance(20) {
                main.op(Op::Negate);
            }
            main.op(rng.pick(&[Op::Add, Op::Subtract, Op::Multiply, Op::Divide]));
        }
        if rng.chance(30) {
            main.op1(Op::LoadConstant, rng.below(count));
            main.op(rng.pick(&[
                Op::LessThan,
                Op::GreaterThan,
                Op::LessOrEqual,
                Op::GreatorOrEqual,
                Op::Equal,
                Op::NotEqual,
            ]));
        }
        main.op(Op::Return);
    }
    program(rng, constants, main)
}

/// Ends of every sort: past the end, in a callee, with values left over, and
/// with a base above a stack that has become shorter.
fn endings(rng: &mut Rng) -> Program {
    let mut main = Code::default();
    let mut f = Code::default();
    let mut g = Code::default();
    match rng.below(8) {
        0 => {
            main.op1(Op::Jump, rng.pick(&[0, 1, 5, 65_535]));
            for _ in 0..rng.below(8) {
                main.op1(Op::LoadConstant, 0);
            }
        }
        1 => {
            main.op1(Op::LoadConstant, rng.below(2));
            main.op1(Op::JumpIfFalse, rng.pick(&[0, 3, 6, 65_535]));
            main.op1(Op::LoadConstant, 2).op1(Op::LoadConstant, 3);
        }
        // A callee without code, and one whose code ends without Return.
        2 => {
            main.op2(Op::Call, 1, 0)
                .op1(Op::LoadConstant, 0)
                .op(Op::Return);
        }
        3 => {
            main.op1(Op::LoadConstant, 2)
                .op2(Op::Call, 1, 1)
                .op(Op::Return);
            f.op1(Op::GetLocal, 0).op2(Op::Call, 2, rng.below(3));
            g.op1(Op::LoadConstant, 3);
        }
        4 => {
            main.op1(Op::LoadConstant, 2)
                .op(Op::Return)
                .op2(Op::Call, 1, 0);
            f.op1(Op::Jump, 60_000).op(Op::Return);
        }
        // The callee takes its caller's values away, then returns one.
        5 => {
            for _ in 0..rng.between(2, 5) {
                main.op1(Op::LoadConstant, 1);
            }
            main.op2(Op::Call, 1, 0);
            main.op(Op::Return);
            for _ in 0..rng.below(5) {
                f.op1(Op::JumpIfFalse, 0);
            }
            if rng.chance(50) {
                f.op1(Op::LoadConstant, 3);
            }
            if rng.chance(30) {
                f.op1(Op::GetLocal, 0);
            }
            f.op(Op::Return);
        }
        // Main called by main: its first Return ends the inner call, and is
        // no root Return there.
        6 => {
            main.op1(Op::LoadConstant, 2).op(Op::Return);
            if rng.chance(70) {
                main.op1(Op::LoadConstant, 4);
                main.op2(Op::CallCallable, 0, rng.below(9));
            } else {
                main.op2(Op::Call, 0, 0);
            }
            main.op1(Op::LoadConstant, 3).op(Op::Add).op(Op::Return);
        }
        _ => {
            main.op1(Op::LoadConstant, 2).op1(Op::LoadConstant, 3);
            main.op2(Op::Call, 1, rng.below(4));
            main.op(Op::Return);
            for _ in 0..rng.below(3) {
                f.op1(Op::GetLocal, rng.below(3));
            }
            f.op(rng.pick(&[Op::Return, Op::Add, Op::Negate, Op::Equal]));
            f.op(Op::Return);
        }
    }
    let constants = vec![
        Constant::Boolean(false),
        Constant::Boolean(true),
        number(1.0),
        number(2.0),
        Constant::FunctionReference(MAIN.to_vec()),
    ];
    let mut program = program(rng, constants, main);
    program.functions.push(function(rng, b"f", f));
    program.functions.push(function(rng, b"g", g));
    program
}

/// A step at which one fault is due, or several at once so that the order of
/// the checks decides; in main or in a callee, after a root Return or not.
fn directed(rng: &mut Rng) -> Program {
    let mut bad = Code::default();
    let what = rng.below(36);
    match what {
        0 => bad.0.push(rng.between(38, 255) as u8),
        1 => {
            let left_out: Vec<Op> = OPS.iter().copied().filter(|op| !op.is_carried()).collect();
            bad.op(rng.pick(&left_out));
        }
        2 | 30 | 31 => {
            // Cut inside its operands.
            let long: Vec<Op> = OPS
                .iter()
                .copied()
                .filter(|op| op.is_carried() && op.operands_read() > 0)
                .collect();
            let op = rng.pick(&long);
            bad.op(op);
            for _ in 0..rng.below(2 * op.operands_read()) {
                bad.0.push(rng.below(3) as u8);
            }
        }
        3 => {
            // Too few values, for everything that pops.
            bad.op(rng.pick(&[
                Op::Negate,
                Op::Add,
                Op::Divide,
                Op::LessThan,
                Op::Equal,
                Op::NotEqual,
                Op::LogicalOr,
                Op::LogicalNeg,
                Op::Return,
            ]));
        }
        4 => {
            bad.op1(
                rng.pick(&[Op::JumpIfFalse, Op::AccessStructField, Op::BuildList]),
                9,
            );
        }
        5 => {
            bad.op2(
                rng.pick(&[Op::CallCallable, Op::BuildStructInstance, Op::Call]),
                1,
                9,
            );
        }
        // A wrong kind on top with nothing below: the top is looked at first.
        6 => {
            bad.op1(Op::LoadConstant, 2)
                .op(rng.pick(&[Op::Add, Op::Divide, Op::LessThan]));
        }
        7 => {
            bad.op1(Op::LoadConstant, 0)
                .op(rng.pick(&[Op::LogicalAnd, Op::LogicalOr]));
        }
        // A right operand that would do, and nothing or the wrong kind below.
        8 => {
            bad.op1(Op::LoadConstant, 0)
                .op(rng.pick(&[Op::Add, Op::Divide, Op::Equal]));
        }
        9 => {
            bad.op1(Op::LoadConstant, 3)
                .op1(Op::LoadConstant, 1)
                .op(Op::Divide);
        }
        10 => {
            bad.op1(Op::LoadConstant, 0)
                .op1(Op::LoadConstant, 1)
                .op(Op::Divide);
        }
        11 => {
            bad.op1(Op::LoadConstant, 0)
                .op1(Op::LoadConstant, 5)
                .op(Op::Divide);
        }
        12 => {
            bad.op1(Op::LoadConstant, 3).op(Op::Negate);
        }
        13 => {
            bad.op1(Op::LoadConstant, 0).op(Op::LogicalNeg);
        }
        14 => {
            bad.op1(Op::LoadConstant, 0).op1(Op::JumpIfFalse, 3);
        }
        15 => {
            bad.op1(Op::LoadConstant, 3)
                .op2(Op::CallCallable, rng.pick(&[0, 9]), 0);
        }
        16 => {
            bad.op1(Op::BuildList, 0).op1(Op::AccessStructField, 0);
        }
        // Numbers out of range.
        17 => {
            bad.op1(Op::LoadConstant, rng.pick(&[7, 8, 256, 65_535]));
        }
        18 => {
            bad.op1(
                rng.pick(&[Op::GetLocal, Op::GetUpvalue]),
                rng.pick(&[3, 9, 65_535]),
            );
        }
        19 => {
            bad.op2(Op::Call, rng.pick(&[3, 256, 65_535]), rng.pick(&[0, 9]));
        }
        20 => {
            bad.op2(
                Op::BuildStructInstance,
                rng.pick(&[2, 3, 65_535]),
                rng.pick(&[0, 9]),
            );
        }
        21 => {
            let count = rng.below(3);
            for _ in 0..count {
                bad.op1(Op::LoadConstant, 0);
            }
            bad.op2(Op::BuildStructInstance, 1, count);
            bad.op1(Op::AccessStructField, rng.pick(&[count, count + 1, 65_535]));
        }
        22 | 32 => {
            bad.op(Op::GetLastResult);
        }
        // No function of that name, with and without enough arguments.
        23 | 33..=34 => {
            bad.op1(Op::LoadConstant, 4)
                .op2(Op::CallCallable, rng.pick(&[0, 9]), 0);
        }
        // A known name, with and without enough arguments.
        24 => {
            bad.op1(Op::LoadConstant, 6)
                .op2(Op::CallCallable, rng.pick(&[0, 1, 2, 9]), 0);
        }
        25 => {
            bad.op2(Op::Call, 2, rng.pick(&[0, 1, 2, 9]));
        }
        // Fields come out in the order they are popped, elements in the
        // order they were pushed.
        26 => {
            for constant in [0, 2, 3] {
                bad.op1(Op::LoadConstant, constant);
            }
            bad.op2(Op::BuildStructInstance, 0, 3);
            bad.op1(Op::AccessStructField, rng.below(4));
        }
        27 => {
            // The same elements in two structs or in a list and a struct.
            for _ in 0..2 {
                bad.op1(Op::LoadConstant, 0).op1(Op::LoadConstant, 2);
                match rng.below(3) {
                    0 => bad.op1(Op::BuildList, 2),
                    1 => bad.op2(Op::BuildStructInstance, 0, 2),
                    _ => bad.op2(Op::BuildStructInstance, 1, 2),
                };
            }
            bad.op(rng.pick(&[Op::Equal, Op::NotEqual]));
        }
        28 => {
            // Lists that differ in count, or early, or late.
            for _ in 0..2 {
                let count = rng.between(2, 3);
                for _ in 0..count {
                    bad.op1(Op::LoadConstant, rng.pick(&[0, 0, 0, 2]));
                }
                bad.op1(Op::BuildList, count);
            }
            bad.op(rng.pick(&[Op::Equal, Op::NotEqual]));
        }
        _ => {
            // Texts and references of the same bytes are different kinds.
            bad.op1(Op::LoadConstant, rng.pick(&[2, 4]));
            bad.op1(Op::LoadConstant, rng.pick(&[2, 4, 3]));
            bad.op(rng.pick(&[Op::Equal, Op::NotEqual]));
        }
    }

    let mut main = Code::default();
    let mut f = Code::default();
    if rng.chance(40) {
        main.op1(Op::LoadConstant, 0).op(Op::Return);
    }
    // Behind a cut instruction nothing may stand, or it would be whole.
    let tail = if matches!(what, 2 | 30 | 31) {
        0
    } else {
        rng.below(3)
    };
    if rng.chance(50) {
        main.0.extend_from_slice(&bad.0);
    } else {
        if rng.chance(50) {
            main.op1(Op::LoadConstant, 3);
        }
        main.op2(Op::Call, 1, 0);
        f.0.extend_from_slice(&bad.0);
        if tail > 0 {
            f.op(Op::Return);
        }
    }
    if tail > 0 {
        main.op(Op::Return);
    }
    let mut g = Code::default();
    g.op1(Op::LoadConstant, 0).op(Op::Return);
    let constants = vec![
        number(1.0),
        number(0.0),
        Constant::String(b"x".to_vec()),
        Constant::Boolean(true),
        Constant::FunctionReference(b"x".to_vec()),
        number(-0.0),
        Constant::FunctionReference(b"g".to_vec()),
    ];
    let mut program = program(rng, constants, main);
    program.structs = struct_names(2);
    program.functions.push(function(rng, b"f", f));
    program.functions.push(function(rng, b"g", g));
    program
}

/// A program that spends exactly as many units as there are, or one more,
/// in an instruction or inside a comparison.
fn edge_of_units(rng: &mut Rng) -> Program {
    const DEPTH: usize = 17;
    let target = UNITS + rng.below(3) as u64 - 1;
    // Comparing the nesting of a depth with itself visits this many pairs.
    let pairs = |depth: usize| (1u64 << (depth + 1)) - 2;
    let mut main = Code::default();
    main.op1(Op::LoadConstant, 0);
    let mut spent = 1;
    for level in 0..DEPTH {
        main.op1(Op::GetUpvalue, level).op1(Op::GetUpvalue, level);
        main.op1(Op::BuildList, 2);
        spent += 3;
    }
    // The comparison that reaches the target comes last, or a row of jumps.
    let last = if rng.chance(50) { 3 + pairs(5) } else { 0 };
    for depth in (0..=DEPTH).rev() {
        while spent + 4 + pairs(depth) + last <= target {
            main.op1(Op::GetUpvalue, depth).op1(Op::GetUpvalue, depth);
            main.op(Op::Equal).op1(Op::JumpIfFalse, 0);
            spent += 4 + pairs(depth);
        }
    }
    while spent + last < target {
        main.op1(Op::Jump, 0);
        spent += 1;
    }
    if last > 0 {
        main.op1(Op::GetUpvalue, 5)
            .op1(Op::GetLocal, 5)
            .op(Op::Equal);
        spent += last;
    }
    debug_assert_eq!(spent, target);
    program(rng, vec![number(1.0)], main)
}

// Damage

/// A small program with a little of everything that an image can hold.
fn sundry(rng: &mut Rng) -> Program {
    match rng.below(4) {
        0 => fitting(rng),
        1 => random_instructions(rng),
        2 => endings(rng),
        _ => {
            let mut program = random_bytes(rng);
            for _ in 0..rng.below(3) {
                program.constants.push(Constant::String(vec![b'y'; 130]));
            }
            program
        }
    }
}

/// No bytes at all, or one number of an image made none or very large.
fn edge(rng: &mut Rng) -> Vec<u8> {
    if rng.chance(10) {
        return vec![];
    }
    let mut bytes = image(&sundry(rng));
    let role = rng.pick(&ROLES);
    let numbers = image::numbers(&bytes);
    let of_role: Vec<Number> = numbers.into_iter().filter(|n| n.role == role).collect();
    if !of_role.is_empty() {
        let offset = rng.pick(&of_role).offset;
        let (_, groups) = read_number(&bytes[offset..]).expect("it is a number");
        let mut large = vec![];
        write_number(&mut large, rng.pick(&LARGEST));
        bytes.splice(offset..offset + groups, large);
    }
    bytes
}

/// An image that is broken, or may be.
fn damaged(rng: &mut Rng) -> Vec<u8> {
    let mut program = sundry(rng);
    match rng.below(9) {
        0 => {
            let mut bytes = image(&program);
            for _ in 0..rng.between(1, 3) {
                let at = rng.below(bytes.len());
                bytes[at] ^= 1 << rng.below(8);
            }
            bytes
        }
        1 => {
            let mut bytes = image(&program);
            bytes.truncate(rng.below(bytes.len() + 1));
            bytes
        }
        2 => {
            let mut bytes = image(&program);
            for _ in 0..rng.between(1, 3) {
                bytes.push(rng.below(3) as u8);
            }
            bytes
        }
        3 => {
            // One byte taken out or put in.
            let mut bytes = image(&program);
            let at = rng.below(bytes.len());
            if rng.chance(50) {
                bytes.remove(at);
            } else {
                bytes.insert(at, rng.draw() as u8);
            }
            bytes
        }
        4 => {
            // A byte below 128 made a padded number, where it is a number.
            let mut bytes = image(&program);
            let at = rng.below(bytes.len());
            if bytes[at] < 0x80 {
                bytes[at] |= 0x80;
                for _ in 0..rng.below(5) {
                    bytes.insert(at + 1, 0x80);
                }
                bytes.insert(at + 1, 0);
            }
            bytes
        }
        5 => {
            // A count replaced by a number at the edge of 32 bits.
            let mut bytes = image(&program);
            let at = if rng.chance(30) {
                0
            } else {
                rng.below(bytes.len())
            };
            let edge: &[u8] = match rng.below(5) {
                0 => &[0xFF, 0xFF, 0xFF, 0xFF, 0x0F],
                1 => &[0xFF, 0xFF, 0xFF, 0xFF, 0x1F],
                2 => &[0x80, 0x80, 0x80, 0x80, 0x10],
                3 => &[0xFF, 0xFF, 0xFF, 0xFF, 0xFF, 0x01],
                _ => &[0x80, 0x00],
            };
            bytes.splice(at..at + 1, edge.iter().copied());
            bytes
        }
        6 => {
            // Names that must not be.
            match rng.below(3) {
                0 => program.functions[0].name = some_text(rng, 7),
                1 => {
                    program.structs = struct_names(3);
                    program.structs[2] = program.structs[rng.below(2)].clone();
                }
                _ => program.functions.clear(),
            }
            image(&program)
        }
        7 => broken_runs(rng, &program),
        _ => {
            // Bytes that were never an image.
            (0..rng.below(40))
                .map(|_| {
                    if rng.chance(50) {
                        rng.below(4) as u8
                    } else {
                        rng.draw() as u8
                    }
                })
                .collect()
        }
    }
}

/// The program with the runs of its last function written wrongly: empty,
/// too long, repeated place, or not enough of them.
fn broken_runs(rng: &mut Rng, program: &Program) -> Vec<u8> {
    let mut program = program.clone();
    let last = program.functions.last_mut().expect("there is a main");
    last.code = vec![Op::Return as u8; rng.between(2, 9)];
    last.places = vec![3; last.code.len()];
    let length = last.code.len();
    let mut bytes = image(&program);
    // The last two bytes are the one run: its length and its place.
    bytes.truncate(bytes.len() - 2);
    let length = length as u8;
    let runs: &[u8] = match rng.below(7) {
        0 => &[1, 3, length - 1, 3],
        1 => &[0, 3, length, 3],
        2 => &[length + 1, 3],
        3 => &[1, 3, length, 4],
        4 => &[length - 1, 3],
        5 => &[1, 3, length - 1],
        _ => &[1, 4, length - 1, 3, 0, 5],
    };
    bytes.extend_from_slice(runs);
    bytes
}
