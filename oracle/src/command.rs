//! What a line of a script asks.

use crate::image::Constant;
use crate::limits::Frame;
use crate::run_record::RunWord;
use crate::script::{bytes, decimal, hex, numbers, word, words_from};

/// A line. A room that a line does not tell is the whole store.
#[derive(Clone, Debug, PartialEq)]
pub enum Command {
    New,
    Image(Vec<u8>),
    /// Whether the machine is to be strict.
    Strict(bool),
    /// The room of the copy store.
    Start(usize),
    /// The units, and the room of the backtrace store.
    Continue(u64, usize),
    /// The room of the backtrace store.
    Abandon(usize),
    Trace(usize),
    Op(u8, Vec<u16>, u32),
    Patch(u16, u16),
    Constant(Constant),
    Struct(Vec<u8>),
    /// Of a function.
    Begin(Vec<u8>),
    End,
    Offset,
    Find(Vec<u8>),
    Save(usize),
    List(usize),
    ShowFrame(usize),
    PutFrame(usize, Frame),
    CountFrames(usize),
    /// A word of the run under way.
    PutRun(RunWord, u64),
    Last,
    Stack(usize),
    Header(usize),
    Element(usize, usize),
    Text(usize, usize),
    /// What is echoed.
    Echo(Vec<u8>),
    /// A blank line, or a comment.
    Nothing,
    NotUnderstood,
    /// It speaks of the words in stores, which are not laid out here.
    OfWords,
}

const WHOLE: usize = usize::MAX;
const ANY: u64 = u64::MAX;
/// The most that a number of a frame, or a count, may be.
pub const RECORD: u64 = 0xFFFF_FFFF_FFFF;

impl Command {
    pub fn read(line: &[u8]) -> Command {
        understood(line).unwrap_or(Command::NotUnderstood)
    }
}

fn understood(line: &[u8]) -> Option<Command> {
    let rest = words_from(line, 1);
    let alone = |command| rest.is_empty().then_some(command);
    let index = || numbers(line, 1, [ANY]).map(|[i]| i as usize);
    match word(line, 0) {
        b"" => Some(Command::Nothing),
        b"#!" => Some(Command::Echo(rest.to_vec())),
        [b'#', ..] => Some(Command::Nothing),
        b"new" => alone(Command::New),
        b"image" => bytes(rest).map(Command::Image),
        b"strict" => numbers(line, 1, [1]).map(|[strict]| Command::Strict(strict == 1)),
        b"start" => room(line, 1).map(Command::Start),
        b"continue" => continuing(line),
        b"abandon" => room(line, 1).map(Command::Abandon),
        b"trace" => room(line, 1).map(Command::Trace),
        b"op" => numbers(line, 1, [0xFF, PLACE]).map(|[op, place]| code(op, &[], place)),
        b"op1" => numbers(line, 1, [0xFF, WORD, PLACE]).map(|[op, a, place]| code(op, &[a], place)),
        b"op2" => numbers(line, 1, [0xFF, WORD, WORD, PLACE])
            .map(|[op, a, b, place]| code(op, &[a, b], place)),
        b"op3" => numbers(line, 1, [0xFF, WORD, WORD, WORD, PLACE])
            .map(|[op, a, b, c, place]| code(op, &[a, b, c], place)),
        b"patch" => numbers(line, 1, [WORD, WORD])
            .map(|[at, value]| Command::Patch(at as u16, value as u16)),
        b"scalar" => hex(rest).map(|bits| Command::Constant(Constant::Scalar(bits))),
        b"boolean" => numbers(line, 1, [1]).map(|[b]| Command::Constant(Constant::Boolean(b == 1))),
        b"string" => bytes(rest).map(|text| Command::Constant(Constant::String(text))),
        b"reference" => {
            bytes(rest).map(|name| Command::Constant(Constant::FunctionReference(name)))
        }
        b"struct" => bytes(rest).map(Command::Struct),
        b"begin" => bytes(rest).map(Command::Begin),
        b"end" => alone(Command::End),
        b"offset" => Some(Command::Offset),
        b"find" => bytes(rest).map(Command::Find),
        b"save" => room(line, 1).map(Command::Save),
        b"list" => room(line, 1).map(Command::List),
        b"frame" => frame(line),
        b"count" => count(line),
        b"last" => alone(Command::Last),
        b"stack" => index().map(Command::Stack),
        b"header" => index().map(Command::Header),
        b"element" => {
            numbers(line, 1, [ANY, ANY]).map(|[i, j]| Command::Element(i as usize, j as usize))
        }
        b"text" => {
            let [i] = numbers(word(line, 1), 0, [ANY])?;
            room(line, 2).map(|room| Command::Text(i as usize, room))
        }
        b"poke" | b"result" | b"sum" => Some(Command::OfWords),
        _ => None,
    }
}

/// The most that an operand may be.
const WORD: u64 = 0xFFFF;
/// The most that a place may be.
const PLACE: u64 = 0xFFFF_FFFF;

fn code(op: u64, operands: &[u64], place: u64) -> Command {
    let operands = operands.iter().map(|operand| *operand as u16).collect();
    Command::Op(op as u8, operands, place as u32)
}

/// The room that word `k` tells, if there is one; nothing may follow it.
fn room(line: &[u8], k: usize) -> Option<usize> {
    if words_from(line, k).is_empty() {
        return Some(WHOLE);
    }
    numbers(line, k, [ANY]).map(|[room]| room as usize)
}

fn continuing(line: &[u8]) -> Option<Command> {
    let units = decimal(word(line, 1))?;
    room(line, 2).map(|room| Command::Continue(units, room))
}

/// `frame I` shows a frame, `frame I FUNCTION POSITION BASE ENTERED` puts one.
fn frame(line: &[u8]) -> Option<Command> {
    if let Some([i]) = numbers(line, 1, [RECORD]) {
        return Some(Command::ShowFrame(i as usize));
    }
    numbers(line, 1, [RECORD; 5]).map(|[i, function, position, base, entered]| {
        let frame = Frame {
            function: function as usize,
            position: position as usize,
            base: base as usize,
            entered,
        };
        Command::PutFrame(i as usize, frame)
    })
}

fn count(line: &[u8]) -> Option<Command> {
    let [n] = numbers(line, 2, [RECORD])?;
    let of_run = |word| Some(Command::PutRun(word, n));
    match word(line, 1) {
        b"frames" => Some(Command::CountFrames(n as usize)),
        b"on" => of_run(RunWord::On),
        b"given" => of_run(RunWord::Given),
        b"spent" => of_run(RunWord::Spent),
        b"returns" => of_run(RunWord::Returns),
        b"mark" => of_run(RunWord::Mark),
        b"saved" => of_run(RunWord::Saved),
        b"stack" | b"cells" | b"constants" | b"structs" | b"functions" | b"text" | b"current" => {
            Some(Command::OfWords)
        }
        _ => None,
    }
}

#[cfg(test)]
mod tests {
    use super::*;

    fn read(line: &str) -> Command {
        Command::read(line.as_bytes())
    }

    #[test]
    fn every_command_is_read() {
        let constant = Command::Constant;
        let frame = Frame {
            function: 1,
            position: 2,
            base: 3,
            entered: 4,
        };
        for (line, command) in [
            ("new", Command::New),
            (" new ", Command::New),
            ("image 01 0", Command::NotUnderstood),
            ("image 01 00", Command::Image(vec![1, 0])),
            ("strict 0", Command::Strict(false)),
            ("strict 1", Command::Strict(true)),
            ("start", Command::Start(WHOLE)),
            ("start 1024", Command::Start(1_024)),
            ("continue 7", Command::Continue(7, WHOLE)),
            ("continue 7 256", Command::Continue(7, 256)),
            ("abandon", Command::Abandon(WHOLE)),
            ("abandon 256", Command::Abandon(256)),
            ("trace", Command::Trace(WHOLE)),
            ("trace 2", Command::Trace(2)),
            ("op 37 4294967295", Command::Op(37, vec![], 4_294_967_295)),
            ("op1 255 65535 0", Command::Op(255, vec![65_535], 0)),
            ("op2 0 1 2 3", Command::Op(0, vec![1, 2], 3)),
            ("op3 0 1 2 3 4", Command::Op(0, vec![1, 2, 3], 4)),
            ("patch 1 2", Command::Patch(1, 2)),
            ("scalar 3F", constant(Constant::Scalar(0x3F))),
            ("boolean 1", constant(Constant::Boolean(true))),
            ("string", constant(Constant::String(vec![]))),
            (
                "reference 66",
                constant(Constant::FunctionReference(b"f".to_vec())),
            ),
            ("struct 66", Command::Struct(b"f".to_vec())),
            ("begin 66", Command::Begin(b"f".to_vec())),
            ("end", Command::End),
            ("offset", Command::Offset),
            ("find 66", Command::Find(b"f".to_vec())),
            ("save", Command::Save(WHOLE)),
            ("save 0", Command::Save(0)),
            ("list 9", Command::List(9)),
            ("frame 5", Command::ShowFrame(5)),
            ("frame 0 1 2 3 4", Command::PutFrame(0, frame)),
            ("count frames 2", Command::CountFrames(2)),
            ("count on 1", Command::PutRun(RunWord::On, 1)),
            ("count given 2", Command::PutRun(RunWord::Given, 2)),
            ("count spent 3", Command::PutRun(RunWord::Spent, 3)),
            ("count returns 4", Command::PutRun(RunWord::Returns, 4)),
            ("count mark 5", Command::PutRun(RunWord::Mark, 5)),
            ("count saved 6", Command::PutRun(RunWord::Saved, 6)),
            ("last", Command::Last),
            ("stack 0", Command::Stack(0)),
            ("header 1", Command::Header(1)),
            ("element 1 2", Command::Element(1, 2)),
            ("text 1", Command::Text(1, WHOLE)),
            ("text 1 2", Command::Text(1, 2)),
            ("#! so it  is", Command::Echo(b"so it  is".to_vec())),
            ("#!so", Command::Nothing),
            ("# so", Command::Nothing),
            ("  ", Command::Nothing),
        ] {
            assert_eq!(read(line), command, "{line}");
        }
    }

    #[test]
    fn what_speaks_of_words_is_told_apart_from_what_is_not_understood() {
        for line in [
            "sum",
            "poke text 0 1",
            "result 0 1",
            "count stack 1",
            "count current 0",
        ] {
            assert_eq!(read(line), Command::OfWords, "{line}");
        }
        for line in [
            "New",
            "new 1",
            "strict",
            "strict 2",
            "strict 1 1",
            "run 1",
            "start x",
            "start 1 2",
            "continue",
            "continue x",
            "continue 1 x",
            "continue 1 2 3",
            "continue 18446744073709551616",
            "abandon x",
            "abandon 1 2",
            "trace x",
            "op 256 0",
            "op 1 4294967296",
            "op1 0 65536 0",
            "op2 0 0 0",
            "patch 65536 0",
            "scalar",
            "scalar 0 0",
            "boolean 2",
            "string 4",
            "end 41",
            "frame",
            "frame 1 2",
            "frame 0 0 0 0",
            "frame 0 0 0 281474976710656 0",
            "frame 0 0 0 0 281474976710656",
            "frame 0 0 0 0 0 0",
            "count frames",
            "count nobody 1",
            "stack",
            "element 0",
            "text",
            "text 0 0 0",
            "jump 5",
        ] {
            assert_eq!(read(line), Command::NotUnderstood, "{line}");
        }
    }
}
