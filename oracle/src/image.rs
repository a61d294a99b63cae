//! The rule image: a program as bytes.

use std::collections::HashSet;

#[derive(Clone, Debug, PartialEq, Eq)]
pub enum Constant {
    /// The 64 bits as they stand in the image; a NaN keeps its own.
    Scalar(u64),
    Boolean(bool),
    String(Vec<u8>),
    FunctionReference(Vec<u8>),
}

#[derive(Clone, Debug, PartialEq, Eq, Default)]
pub struct Function {
    pub name: Vec<u8>,
    pub code: Vec<u8>,
    /// One place for each byte of code.
    pub places: Vec<u32>,
}

#[derive(Clone, Debug, PartialEq, Eq)]
pub struct Program {
    pub constants: Vec<Constant>,
    pub structs: Vec<Vec<u8>>,
    pub functions: Vec<Function>,
}

pub const MAIN: &[u8] = b"<main>";

impl Program {
    /// No constants, no structs, and an empty main.
    pub fn new() -> Program {
        Program {
            constants: vec![],
            structs: vec![],
            functions: vec![Function {
                name: MAIN.to_vec(),
                ..Function::default()
            }],
        }
    }
}

impl Default for Program {
    fn default() -> Self {
        Program::new()
    }
}

/// Reads an image. The error is the offset of the first item that breaks a
/// rule. An item is one number, byte, scalar, code, or text with its length,
/// and its offset is where it begins; one that is missing altogether would
/// begin at the end of the input.
pub fn parse(bytes: &[u8]) -> Result<Program, usize> {
    Reader::new(bytes).program()
}

/// What a number of an image says.
#[derive(Clone, Copy, Debug, PartialEq, Eq)]
pub enum Role {
    Constants,
    Kind,
    Text,
    Structs,
    Functions,
    Code,
    Run,
    Place,
}

/// A number of an image, and where it begins.
#[derive(Clone, Copy, Debug, PartialEq, Eq)]
pub struct Number {
    pub role: Role,
    pub offset: usize,
    pub value: u32,
}

/// The numbers of an image, as far as it is read.
pub fn numbers(bytes: &[u8]) -> Vec<Number> {
    let mut reader = Reader::new(bytes);
    let _ = reader.program();
    reader.numbers
}

struct Reader<'a> {
    bytes: &'a [u8],
    position: usize,
    numbers: Vec<Number>,
}

impl<'a> Reader<'a> {
    fn new(bytes: &'a [u8]) -> Reader<'a> {
        Reader {
            bytes,
            position: 0,
            numbers: vec![],
        }
    }

    fn program(&mut self) -> Result<Program, usize> {
        let constant_count = self.number(Role::Constants)?;
        let mut constants = vec![];
        for _ in 0..constant_count {
            constants.push(self.constant()?);
        }

        let struct_count = self.number(Role::Structs)?;
        let mut structs = vec![];
        let mut names = HashSet::new();
        for _ in 0..struct_count {
            let start = self.position;
            let name = self.text()?;
            if !names.insert(name.clone()) {
                return Err(start);
            }
            structs.push(name);
        }

        let start = self.position;
        let function_count = self.number(Role::Functions)?;
        if function_count == 0 {
            return Err(start);
        }
        let mut functions = vec![];
        for number in 0..function_count {
            let start = self.position;
            let name = self.text()?;
            if number == 0 && name != MAIN {
                return Err(start);
            }
            let code_length = self.number(Role::Code)? as usize;
            let code = self.take(code_length)?.to_vec();
            let places = self.runs(code_length)?;
            functions.push(Function { name, code, places });
        }

        if self.position < self.bytes.len() {
            return Err(self.position);
        }
        Ok(Program {
            constants,
            structs,
            functions,
        })
    }

    /// The next `count` bytes, as (part of) one item.
    fn take(&mut self, count: usize) -> Result<&'a [u8], usize> {
        let rest = &self.bytes[self.position..];
        if rest.len() < count {
            return Err(self.position);
        }
        self.position += count;
        Ok(&rest[..count])
    }

    /// A number in its shortest form, below 2^32.
    fn number(&mut self, role: Role) -> Result<u32, usize> {
        let offset = self.position;
        let (value, groups) = read_number(&self.bytes[offset..]).ok_or(offset)?;
        self.position += groups;
        self.numbers.push(Number {
            role,
            offset,
            value,
        });
        Ok(value)
    }

    /// A text is one item with its length, so a text cut short is named
    /// where its length begins.
    fn text(&mut self) -> Result<Vec<u8>, usize> {
        let start = self.position;
        let length = self.number(Role::Text)? as usize;
        Ok(self.take(length).map_err(|_| start)?.to_vec())
    }

    fn constant(&mut self) -> Result<Constant, usize> {
        let start = self.position;
        match self.number(Role::Kind)? {
            0 => {
                let scalar = self.take(8)?;
                Ok(Constant::Scalar(u64::from_le_bytes(
                    scalar.try_into().expect("eight bytes were taken"),
                )))
            }
            1 => {
                let start = self.position;
                match self.take(1)?[0] {
                    0 => Ok(Constant::Boolean(false)),
                    1 => Ok(Constant::Boolean(true)),
                    _ => Err(start),
                }
            }
            2 => Ok(Constant::String(self.text()?)),
            3 => Ok(Constant::FunctionReference(self.text()?)),
            _ => Err(start),
        }
    }

    /// Runs of (bytes, place) until they add up to the code length.
    fn runs(&mut self, code_length: usize) -> Result<Vec<u32>, usize> {
        let mut places: Vec<u32> = vec![];
        while places.len() < code_length {
            let start = self.position;
            let count = self.number(Role::Run)? as usize;
            if count == 0 || count > code_length - places.len() {
                return Err(start);
            }
            let start = self.position;
            let place = self.number(Role::Place)?;
            if places.last() == Some(&place) {
                return Err(start);
            }
            places.extend(std::iter::repeat_n(place, count));
        }
        Ok(places)
    }
}

/// The number at the front of the bytes and how many groups it has; none if
/// it is cut short, padded, or 2^32 or more.
pub fn read_number(bytes: &[u8]) -> Option<(u32, usize)> {
    let mut number: u64 = 0;
    for (index, byte) in bytes.iter().take(5).enumerate() {
        number |= u64::from(byte & 0x7F) << (7 * index);
        if byte & 0x80 == 0 {
            // A last group of zero says nothing, unless it is the only one.
            let padded = index > 0 && *byte == 0;
            return match u32::try_from(number) {
                Ok(number) if !padded => Some((number, index + 1)),
                _ => None,
            };
        }
    }
    None
}

/// Writes a number in its shortest form.
pub fn write_number(out: &mut Vec<u8>, mut number: u32) {
    while number >= 0x80 {
        out.push((number & 0x7F) as u8 | 0x80);
        number >>= 7;
    }
    out.push(number as u8);
}

fn write_count(out: &mut Vec<u8>, count: usize) {
    write_number(out, u32::try_from(count).expect("counts are below 2^32"));
}

fn write_text(out: &mut Vec<u8>, text: &[u8]) {
    write_count(out, text.len());
    out.extend_from_slice(text);
}

/// Writes the image of a program.
pub fn image(program: &Program) -> Vec<u8> {
    let mut out = vec![];
    write_count(&mut out, program.constants.len());
    for constant in &program.constants {
        match constant {
            Constant::Scalar(bits) => {
                write_number(&mut out, 0);
                out.extend_from_slice(&bits.to_le_bytes());
            }
            Constant::Boolean(boolean) => {
                write_number(&mut out, 1);
                out.push(u8::from(*boolean));
            }
            Constant::String(text) => {
                write_number(&mut out, 2);
                write_text(&mut out, text);
            }
            Constant::FunctionReference(name) => {
                write_number(&mut out, 3);
                write_text(&mut out, name);
            }
        }
    }
    write_count(&mut out, program.structs.len());
    for name in &program.structs {
        write_text(&mut out, name);
    }
    write_count(&mut out, program.functions.len());
    for function in &program.functions {
        write_text(&mut out, &function.name);
        write_count(&mut out, function.code.len());
        out.extend_from_slice(&function.code);
        // One run for each stretch of bytes with the same place.
        for run in function.places.chunk_by(|a, b| a == b) {
            write_count(&mut out, run.len());
            write_number(&mut out, run[0]);
        }
    }
    out
}
