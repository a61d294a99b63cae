//! A rule source: a program as commented text, made into a [`Program`].
//!
//! One statement stands on a line; `#` begins a comment, except inside quotes.
//! `examples/README.md` tells the format to those who write rules:
//!
//! ```text
//! constant NAME scalar 42.5           decimal, rounded once to binary64
//! constant NAME scalar 0x4045000000000000   the 64 bits themselves
//! constant NAME boolean true
//! constant NAME string "text"
//! constant NAME reference FUNCTION    or a quoted text: any name
//! struct NAME                         or NAME "text", text being its name in the image
//! main                                what follows is code of main
//! function NAME                       or NAME "text"; what follows is its code
//!   LoadConstant NAME                 an instruction, named as in the listing
//!   JumpIfFalse LABEL
//! LABEL:
//!   bytes 1B 05                       code bytes in hex, for what has no name
//! place 0                             the place of the code bytes that follow
//! place line                          back to line numbers
//! ```
//!
//! The place of a code byte is the number of its line, so a backtrace points
//! into the source. Constants and structs are numbered from 0 in the order of
//! their lines, functions from 1; main is function 0 wherever it stands.
//!
//! What cannot be meant is refused, though a machine would load it: a source
//! without main, a number of no constant, struct or function, a Call of main.
//! `bytes` still says it. All that is wrong is told at once.

use std::collections::HashMap;
use std::fmt;

use crate::image::{Constant, Function, Program};
use crate::limits::{MAX_CODE, MAX_CONSTANTS, MAX_FUNCTIONS, MAX_STRUCTS};
use crate::near::near;
use crate::op::{Op, OPS};

/// What is wrong in a source, where, and what to do about it.
#[derive(Clone, Debug, PartialEq, Eq)]
pub struct Error {
    /// Counted from 1.
    pub line: usize,
    pub words: String,
}

impl fmt::Display for Error {
    fn fmt(&self, f: &mut fmt::Formatter) -> fmt::Result {
        write!(f, "line {}: {}", self.line, self.words)
    }
}

type Words<T> = Result<T, String>;

/// What an operand may be besides a number.
#[derive(Clone, Copy)]
enum Operand {
    Constant,
    Struct,
    Function,
    Label,
    /// A slot, count or field: numbers alone.
    Number,
}

impl Operand {
    /// The operands of a carried instruction, as many as the machine reads.
    fn all_of(op: Op) -> &'static [Operand] {
        use Operand::{Constant, Function, Label, Number, Struct};
        match op {
            Op::LoadConstant => &[Constant],
            Op::Jump | Op::JumpIfFalse => &[Label],
            Op::Call => &[Function, Number],
            Op::BuildStructInstance => &[Struct, Number],
            Op::CallCallable => &[Number, Number],
            Op::GetLocal | Op::GetUpvalue | Op::AccessStructField | Op::BuildList => &[Number],
            _ => &[],
        }
    }
}

/// An operand that names something, to be judged when all lines are read.
struct Use {
    line: usize,
    function: usize,
    /// Of its instruction, and of itself.
    start: usize,
    offset: usize,
    operand: Operand,
    /// None: its number stands in the code already.
    name: Option<String>,
}

#[derive(Default)]
struct Reader {
    program: Program,
    constants: HashMap<String, usize>,
    structs: HashMap<String, usize>,
    functions: HashMap<String, usize>,
    /// The offset of each label, by function and name.
    labels: HashMap<(usize, String), usize>,
    /// References by a function's name: line, constant, name.
    references: Vec<(usize, usize, String)>,
    uses: Vec<Use>,
    /// The function that code is read into; none before the first.
    current: Option<usize>,
    /// Code stood outside every function, or main was spelt wrong: that was told.
    stray: bool,
    main_line: Option<usize>,
    /// None: the line's number.
    place: Option<u32>,
}

/// Reads a source into the program that it says, or tells all that is wrong, by
/// line.
pub fn assemble(source: &[u8]) -> Result<Program, Vec<Error>> {
    // Some editors put a byte order mark before a text.
    let source = source.strip_prefix(b"\xEF\xBB\xBF").unwrap_or(source);
    let mut reader = Reader::default();
    reader.functions.insert("main".to_owned(), 0);
    let mut errors = vec![];
    let mut last = 0;
    for (index, bytes) in source.split(|byte| *byte == b'\n').enumerate() {
        let line = index + 1;
        last = line;
        let said = std::str::from_utf8(bytes)
            .map_err(|_| "this is no UTF-8 text; write such bytes of a text as \\xHH".to_owned())
            .and_then(tokens)
            .and_then(|tokens| {
                reader
                    .statement(line, &tokens)
                    .inspect_err(|_| reader.go_on(&tokens))
            });
        errors.extend(said.err().map(|words| Error { line, words }));
    }
    errors.extend(reader.finish(last));
    errors.sort_by_key(|error| error.line);
    if errors.is_empty() {
        Ok(reader.program)
    } else {
        Err(errors)
    }
}

/// What a line may begin with, besides an instruction and a label.
const STATEMENTS: [&str; 6] = ["constant", "struct", "main", "function", "place", "bytes"];

#[derive(Debug, PartialEq, Eq)]
enum Token {
    Word(String),
    Text(Vec<u8>),
}

/// The words and quoted texts of a line, up to its comment.
fn tokens(line: &str) -> Words<Vec<Token>> {
    let mut tokens = vec![];
    let mut rest = line.trim_start();
    while !rest.is_empty() && !rest.starts_with('#') {
        if let Some(quoted) = rest.strip_prefix('"') {
            let (text, after) = text(quoted)?;
            if !(after.is_empty() || after.starts_with([' ', '\t', '\r', '#'])) {
                return Err(
                    "something touches a closing quote; put a space there, or write a quote \
                     inside a text as \\\""
                        .to_owned(),
                );
            }
            tokens.push(Token::Text(text));
            rest = after.trim_start();
        } else {
            let end = rest
                .find(|c: char| c.is_whitespace() || c == '"' || c == '#')
                .unwrap_or(rest.len());
            tokens.push(Token::Word(rest[..end].to_owned()));
            rest = rest[end..].trim_start();
        }
    }
    Ok(tokens)
}

/// The bytes of a text behind its opening quote, and what follows it.
fn text(quoted: &str) -> Words<(Vec<u8>, &str)> {
    let mut bytes = vec![];
    let mut rest = quoted;
    loop {
        let Some(at) = rest.find(['"', '\\']) else {
            return Err("a text has no closing quote; end it with \" on its own line".to_owned());
        };
        bytes.extend_from_slice(&rest.as_bytes()[..at]);
        let escape = &rest.as_bytes()[at..];
        match escape {
            [b'"', ..] => return Ok((bytes, &rest[at + 1..])),
            [b'\\', c @ (b'"' | b'\\'), ..] => {
                bytes.push(*c);
                rest = &rest[at + 2..];
            }
            [b'\\', b'x', high, low, ..] if is_hex(*high) && is_hex(*low) => {
                bytes.push(hex_byte(&rest[at + 2..at + 4]));
                rest = &rest[at + 4..];
            }
            _ => {
                return Err(
                    "\\ in a text is followed by \", by \\ or by x and two hex digits (\\x0A)"
                        .to_owned(),
                )
            }
        }
    }
}

fn is_hex(byte: u8) -> bool {
    byte.is_ascii_hexdigit()
}

fn hex_byte(digits: &str) -> u8 {
    u8::from_str_radix(digits, 16).expect("two hex digits were seen")
}

/// Whether a word can name something: a letter, then letters, digits, `_`, `-`.
pub(crate) fn is_name(word: &str) -> bool {
    word.starts_with(|c: char| c.is_ascii_alphabetic())
        && word
            .chars()
            .all(|c| c.is_ascii_alphanumeric() || c == '_' || c == '-')
}

fn name_of(word: &str) -> Words<String> {
    if is_name(word) {
        Ok(word.to_owned())
    } else {
        Err(format!(
            "`{word}` is no name; a name is a letter, then letters, digits, _ and -"
        ))
    }
}

fn define(names: &mut HashMap<String, usize>, kind: &str, word: &str, number: usize) -> Words<()> {
    if names.contains_key(word) {
        return Err(format!(
            "another {kind} has the name {word}; give this one a name of its own"
        ));
    }
    names.insert(name_of(word)?, number);
    Ok(())
}

/// The number of what a wrong line was to define.
const UNKNOWN: usize = usize::MAX;

fn within(count: usize, limit: usize, what: &str) -> Words<()> {
    if count <= limit {
        Ok(())
    } else {
        Err(format!(
            "{what} than {limit}, the machine's limit; take some out"
        ))
    }
}

fn decimal<T: std::str::FromStr>(word: &str) -> Option<T> {
    let digits = word.bytes().all(|byte| byte.is_ascii_digit());
    word.parse().ok().filter(|_| digits)
}

/// A scalar's bits: `0x` and 16 hex digits as they are, or a decimal number
/// rounded once, to nearest, ties to even.
fn scalar(word: &str) -> Words<u64> {
    if let Some(digits) = word.strip_prefix("0x") {
        return if digits.len() == 16 && digits.bytes().all(is_hex) {
            Ok(u64::from_str_radix(digits, 16).expect("16 hex digits were seen"))
        } else {
            Err(format!(
                "`{word}` is no scalar; after 0x write all 16 hex digits of its 64 bits"
            ))
        };
    }
    // Rust reads the words inf and nan too; here a number has a digit first.
    let unsigned = word.strip_prefix('-').unwrap_or(word);
    let value: Option<f64> = match unsigned.bytes().next() {
        Some(b'0'..=b'9') => word.parse().ok(),
        _ => None,
    };
    match value {
        Some(value) if value.is_finite() => Ok(value.to_bits()),
        Some(_) => Err(format!(
            "{word} is too large for a binary64 number; infinity is written 0x7FF0000000000000"
        )),
        None => Err(format!(
            "`{word}` is no scalar; write a decimal number as 42, -0.5 or 1e-3, or 0x and 16 hex \
             digits"
        )),
    }
}

impl Reader {
    /// Behind a wrong line: what it was to define counts as defined, so that what
    /// names it is not wrong as well.
    fn go_on(&mut self, tokens: &[Token]) {
        use Token::Word;
        let [Word(kind), rest @ ..] = tokens else {
            return;
        };
        let name = match rest {
            [Word(name), ..] => name.clone(),
            _ => String::new(),
        };
        match kind.as_str() {
            "constant" => {
                self.constants.entry(name).or_insert(UNKNOWN);
            }
            "struct" => {
                self.structs.entry(name).or_insert(UNKNOWN);
            }
            "function" => {
                self.stray |= name == "main";
                self.functions.entry(name).or_insert(UNKNOWN);
                self.current.get_or_insert(0);
            }
            "main" => {
                self.stray = true;
                self.current.get_or_insert(0);
            }
            "place" => {}
            _ if self.current.is_none() => {
                self.current = Some(0);
                self.stray = true;
            }
            _ => {}
        }
    }

    fn statement(&mut self, line: usize, tokens: &[Token]) -> Words<()> {
        use Token::{Text, Word};
        let Some(first) = tokens.first() else {
            return Ok(());
        };
        let Word(first) = first else {
            return Err(
                "a line begins with a word, not with a text; see examples/README.md".to_owned(),
            );
        };
        match (first.as_str(), &tokens[1..]) {
            ("constant", [Word(name), Word(kind), value]) => self.constant(line, name, kind, value),
            ("constant", _) => Err(
                "a constant has a name, a kind and a value, as in: constant rate scalar 1.85"
                    .to_owned(),
            ),
            ("struct", [Word(name)]) => self.struct_name(name, name.as_bytes()),
            ("struct", [Word(name), Text(text)]) => self.struct_name(name, text),
            ("struct", _) => Err(
                "a struct has a name, and may have a quoted text after it that stands for it in \
                 the image"
                    .to_owned(),
            ),
            ("main", []) => self.main(line),
            ("main", _) => Err("nothing follows main; its code begins on the next line".to_owned()),
            ("function", [Word(name)]) => self.function(name, name.as_bytes()),
            ("function", [Word(name), Text(text)]) => self.function(name, text),
            ("function", _) => Err(
                "a function has a name, and may have a quoted text after it that stands for it \
                 in the image"
                    .to_owned(),
            ),
            ("place", [Word(word)]) => self.place(word),
            ("place", _) => Err("place is followed by a number, or by the word line".to_owned()),
            ("bytes", bytes) => self.bytes(line, bytes),
            (word, rest) => match word.strip_suffix(':') {
                Some(label) => self.label(label, rest.is_empty()),
                None => self.instruction(line, word, rest),
            },
        }
    }

    fn constant(&mut self, line: usize, name: &str, kind: &str, value: &Token) -> Words<()> {
        use Token::{Text, Word};
        let number = self.program.constants.len();
        let constant = match (kind, value) {
            ("scalar", Word(word)) => Constant::Scalar(scalar(word)?),
            ("boolean", Word(word)) if word == "true" => Constant::Boolean(true),
            ("boolean", Word(word)) if word == "false" => Constant::Boolean(false),
            ("string", Text(text)) => Constant::String(text.clone()),
            ("reference", Text(text)) => Constant::FunctionReference(text.clone()),
            ("reference", Word(function)) => {
                self.references.push((line, number, name_of(function)?));
                Constant::FunctionReference(vec![])
            }
            ("scalar", _) => return Err("a scalar stands without quotes".to_owned()),
            ("boolean", _) => return Err("a boolean is true or false".to_owned()),
            ("string", _) => {
                return Err(
                    "a string stands in quotes, as in: constant no string \"no\"".to_owned(),
                )
            }
            _ => {
                let kinds = ["scalar", "boolean", "string", "reference"];
                return Err(match near(kind, kinds.into_iter()) {
                    Some(near) => format!("`{kind}` is no kind of constant; did you mean {near}?"),
                    None => format!(
                        "`{kind}` is no kind of constant; take scalar, boolean, string or reference"
                    ),
                });
            }
        };
        within(number + 1, MAX_CONSTANTS, "these are more constants")?;
        define(&mut self.constants, "constant", name, number)?;
        self.program.constants.push(constant);
        Ok(())
    }

    fn struct_name(&mut self, name: &str, text: &[u8]) -> Words<()> {
        let number = self.program.structs.len();
        within(number + 1, MAX_STRUCTS, "these are more structs")?;
        define(&mut self.structs, "struct", name, number)?;
        if self.program.structs.iter().any(|other| other == text) {
            return Err(
                "another struct has this text already; in an image all struct names differ, so \
                 give this one another text"
                    .to_owned(),
            );
        }
        self.program.structs.push(text.to_vec());
        Ok(())
    }

    fn main(&mut self, line: usize) -> Words<()> {
        if let Some(before) = self.main_line {
            return Err(format!(
                "main began on line {before} already; put all of its code there"
            ));
        }
        self.main_line = Some(line);
        self.current = Some(0);
        Ok(())
    }

    fn function(&mut self, name: &str, text: &[u8]) -> Words<()> {
        let number = self.program.functions.len();
        within(number + 1, MAX_FUNCTIONS, "these are more functions")?;
        define(&mut self.functions, "function", name, number)?;
        self.program.functions.push(Function {
            name: text.to_vec(),
            ..Function::default()
        });
        self.current = Some(number);
        Ok(())
    }

    fn place(&mut self, word: &str) -> Words<()> {
        self.place = match decimal(word) {
            _ if word == "line" => None,
            Some(place) => Some(place),
            None => {
                return Err(format!(
                    "`{word}` is no place; write a number below 4294967296, or the word line"
                ))
            }
        };
        Ok(())
    }

    fn code_of(&self) -> Words<usize> {
        self.current.ok_or_else(|| {
            "code stands outside every function; put a line `main` or `function NAME` before it"
                .to_owned()
        })
    }

    fn emit(&mut self, line: usize, bytes: &[u8]) -> Words<()> {
        let function = self.code_of()?;
        let place = match self.place {
            Some(place) => place,
            None => u32::try_from(line)
                .map_err(|_| "line numbers this large are no places; divide the source")?,
        };
        let function = &mut self.program.functions[function];
        let length = function.code.len() + bytes.len();
        within(length, MAX_CODE, "this function's code now has more bytes")?;
        function.code.extend_from_slice(bytes);
        function.places.resize(length, place);
        Ok(())
    }

    fn bytes(&mut self, line: usize, words: &[Token]) -> Words<()> {
        let bytes: Option<Vec<u8>> = words
            .iter()
            .map(|token| match token {
                Token::Word(word) if word.len() == 2 && word.bytes().all(is_hex) => {
                    Some(hex_byte(word))
                }
                _ => None,
            })
            .collect();
        match bytes {
            Some(bytes) if !bytes.is_empty() => self.emit(line, &bytes),
            _ => {
                Err("bytes is followed by code bytes, two hex digits each: bytes 1B 05".to_owned())
            }
        }
    }

    fn label(&mut self, word: &str, alone: bool) -> Words<()> {
        if !alone {
            return Err(format!(
                "something follows the label {word}:; put it on a line of its own"
            ));
        }
        let function = self.code_of()?;
        let offset = self.program.functions[function].code.len();
        match self.labels.insert((function, name_of(word)?), offset) {
            None => Ok(()),
            Some(_) => Err(format!(
                "this function has a label {word} already; give this one another name"
            )),
        }
    }

    fn instruction(&mut self, line: usize, name: &str, words: &[Token]) -> Words<()> {
        let Some(op) = OPS.into_iter().find(|op| op.to_string() == name) else {
            let carried = OPS.into_iter().filter(|op| op.is_carried());
            let words = carried.map(Op::to_string).chain(STATEMENTS);
            return Err(match near(name, words) {
                Some(near) => format!("`{name}` is not understood; did you mean {near}?"),
                None => format!(
                    "`{name}` is no statement and no instruction; instructions are named as in \
                     the listing (docs/RULES.md, Opcodes)"
                ),
            });
        };
        if !op.is_carried() {
            return Err(format!(
                "{name} is known and not carried: the machine faults 2 there; write another \
                 instruction, or `bytes {:02X}` if the fault is what you want",
                op as u8
            ));
        }
        let operands = Operand::all_of(op);
        if words.len() != operands.len() {
            return Err(format!(
                "{name} has {}, and {} given here",
                match operands.len() {
                    0 => "no operand".to_owned(),
                    1 => format!("one operand ({})", described(operands)),
                    _ => format!("two operands ({})", described(operands)),
                },
                match words.len() {
                    0 => "none is".to_owned(),
                    1 => "one is".to_owned(),
                    count => format!("{count} are"),
                }
            ));
        }
        let function = self.code_of()?;
        let start = self.program.functions[function].code.len();
        let mut bytes = vec![op as u8];
        let mut uses = vec![];
        for (operand, token) in operands.iter().zip(words) {
            let Token::Word(word) = token else {
                return Err(format!(
                    "an operand of {name} stands in quotes; give the text a name by a line \
                     `constant NAME string ..` and use that"
                ));
            };
            let number = match decimal::<u16>(word) {
                Some(number) => {
                    uses.push((start + bytes.len(), *operand, None));
                    number
                }
                None if is_name(word) && !matches!(operand, Operand::Number) => {
                    uses.push((start + bytes.len(), *operand, Some(word.clone())));
                    0
                }
                None => {
                    return Err(format!(
                        "`{word}` cannot be an operand here; {name} takes {}, and a number is at \
                         most 65535",
                        described(operands)
                    ))
                }
            };
            bytes.extend_from_slice(&number.to_le_bytes());
        }
        self.emit(line, &bytes)?;
        self.uses
            .extend(uses.into_iter().map(|(offset, operand, name)| Use {
                line,
                function,
                start,
                offset,
                operand,
                name,
            }));
        Ok(())
    }

    /// Puts numbers for names, now that every name is known, and tells what is
    /// wrong with those that were used.
    fn finish(&mut self, last: usize) -> Vec<Error> {
        let mut errors = vec![];
        for used in std::mem::take(&mut self.uses) {
            let line = used.line;
            match self.number(&used) {
                Ok(None) => {}
                Ok(Some(number)) => {
                    let code = &mut self.program.functions[used.function].code;
                    code[used.offset..used.offset + 2].copy_from_slice(&number.to_le_bytes());
                    errors.extend(self.meant(&used, number).map(|words| Error { line, words }));
                }
                Err(words) => errors.push(Error { line, words }),
            }
        }
        for (line, number, name) in &self.references {
            match self.functions.get(name) {
                Some(&UNKNOWN) => {}
                Some(function) => {
                    let name = self.program.functions[*function].name.clone();
                    self.program.constants[*number] = Constant::FunctionReference(name);
                }
                None => errors.push(Error {
                    line: *line,
                    words: match near(name, self.functions.keys().map(String::as_str)) {
                        Some(near) => {
                            format!("no function is named {name}; did you mean {near}?")
                        }
                        None => format!(
                            "no function is named {name}; add a line `function {name}`, or put \
                             the name in quotes to refer to a function that is not here"
                        ),
                    },
                }),
            }
        }
        if self.main_line.is_none() && !self.stray {
            errors.push(Error {
                line: last,
                words: "there is no main; add a line `main`, and below it the code of the rule"
                    .to_owned(),
            });
        }
        errors
    }

    /// What is wrong with a number that can be loaded, and cannot be meant.
    fn meant(&self, used: &Use, number: u16) -> Option<String> {
        let (kind, count) = match used.operand {
            Operand::Constant => ("constant", self.program.constants.len()),
            Operand::Struct => ("struct", self.program.structs.len()),
            Operand::Function => ("function", self.program.functions.len()),
            Operand::Label | Operand::Number => return None,
        };
        let code = &self.program.functions[used.function].code[used.start..];
        let read = Op::from_byte(code[0]).map_or(0, Op::operands_read);
        let bytes = code[..1 + 2 * read].iter();
        let bytes: String = bytes.map(|byte| format!(" {byte:02X}")).collect();
        if count == 0 {
            return Some(format!(
                "there is no {kind} {number}: none is given; add a line `{kind} NAME ..`, or \
                 write `bytes{bytes}` if fault 6 is what you want"
            ));
        }
        if usize::from(number) >= count {
            return Some(format!(
                "there is no {kind} {number}, they go from 0 to {}; correct the number, or write \
                 `bytes{bytes}` if fault 6 is what you want",
                count - 1
            ));
        }
        if matches!(used.operand, Operand::Function) && number == 0 {
            return Some(format!(
                "a Call of main passes no check (rule 3); put what is to be repeated into a \
                 function of its own, or write `bytes{bytes}` if this is what you want"
            ));
        }
        None
    }

    /// The number of an operand; none if a wrong line was to define it.
    fn number(&self, used: &Use) -> Words<Option<u16>> {
        let Some(name) = &used.name else {
            let code = &self.program.functions[used.function].code[used.offset..];
            return Ok(Some(u16::from_le_bytes([code[0], code[1]])));
        };
        let (kind, names) = match used.operand {
            Operand::Constant => ("constant", &self.constants),
            Operand::Struct => ("struct", &self.structs),
            Operand::Function => ("function", &self.functions),
            Operand::Label => return self.jump(used, name).map(Some),
            Operand::Number => unreachable!("a number has no name to look for"),
        };
        let number =
            *names
                .get(name)
                .ok_or_else(|| match near(name, names.keys().map(String::as_str)) {
                    Some(near) => format!("no {kind} is named {name}; did you mean {near}?"),
                    None => format!(
                    "no {kind} is named {name}; add a line `{kind} {name} ..` or correct the name"
                ),
                })?;
        if number == UNKNOWN {
            return Ok(None);
        }
        Ok(Some(
            u16::try_from(number).expect("no limit is above 65,536"),
        ))
    }

    /// A jump adds its operand to the position after it, so it only goes on.
    fn jump(&self, used: &Use, name: &str) -> Words<u16> {
        let label = (used.function, name.to_owned());
        let target = *self.labels.get(&label).ok_or_else(|| {
            let here = self.labels.keys();
            let here = here.filter(|(function, _)| *function == used.function);
            match near(name, here.map(|(_, label)| label.as_str())) {
                Some(near) => format!("this function has no label {name}; did you mean {near}?"),
                None => format!(
                    "this function has no label {name}; add a line `{name}:` where the jump is \
                     to go"
                ),
            }
        })?;
        let after = used.offset + 2;
        let distance = target.checked_sub(after).ok_or_else(|| {
            format!(
                "the label {name} stands before this jump, and jumps only go forward; put the \
                 label below, or repeat by a Call"
            )
        })?;
        Ok(u16::try_from(distance).expect("code is at most 65,535 bytes"))
    }
}

/// What the operands of an instruction are, in words.
fn described(operands: &[Operand]) -> String {
    let one = |operand: &Operand| match operand {
        Operand::Constant => "a constant's name or number",
        Operand::Struct => "a struct's name or number",
        Operand::Function => "a function's name or number",
        Operand::Label => "a label, or how many bytes to pass over",
        Operand::Number => "a number",
    };
    match operands {
        [] => "no operand".to_owned(),
        operands => operands.iter().map(one).collect::<Vec<_>>().join(", then "),
    }
}
