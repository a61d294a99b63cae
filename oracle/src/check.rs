//! The check of a rule image before it is installed (document 02, Wish 2).
//!
//! The wish's sentence is six rules, numbered in its order. Each is a function
//! here that looks at every function of the program and names the lowest that
//! breaks it; the check is these one after the other, so that what is named is
//! the first broken rule and the lowest function that breaks it.
//!
//! Rules 1 to 5 judge all code, rule 6 only what paths reach. Its paths are
//! followed one by one, in no clever order: this is a second writing, to
//! compare the proved one with, and shares no idea with it but the document.

use crate::image::{parse, Program};
use crate::limits::Refused;
use crate::op::Op;
use crate::print::{self, MAX_IMAGE};

/// What is known of a program that has passed.
#[derive(Clone, Debug, PartialEq, Eq)]
pub struct Passed {
    /// For each function, the height above its frame's base at each position
    /// of its code and at its end; none where no path comes.
    pub heights: Vec<Vec<Option<usize>>>,
    /// For each function, the greatest of these.
    pub greatest_heights: Vec<usize>,
}

/// Refusal 40: the first broken rule and the lowest function that breaks it.
#[derive(Clone, Copy, Debug, PartialEq, Eq)]
pub struct Broken {
    /// From 1 to 6.
    pub rule: u32,
    pub function: usize,
}

/// Why an image is not passed.
#[derive(Clone, Copy, Debug, PartialEq, Eq)]
pub enum Refusal {
    /// It is not even loaded, or there are more functions than places for
    /// their heights (17, right behind 20).
    Loading(Refused),
    Rule(Broken),
}

/// The places for heights that the program has.
const HEIGHTS: usize = 256;

/// Checks an image as the runner would load it, with places for 256 heights.
pub fn check(image: &[u8]) -> Result<Passed, Refusal> {
    let has_places = |program: &Program| program.functions.len() <= HEIGHTS;
    if image.len() <= MAX_IMAGE && parse(image).is_ok_and(|program| !has_places(&program)) {
        return Err(Refusal::Loading(Refused::ResultStore));
    }
    let machine = print::load(image).map_err(Refusal::Loading)?;
    judge(&machine.program).map_err(Refusal::Rule)
}

/// What the check prints.
pub fn text(image: &[u8]) -> String {
    match check(image) {
        Ok(passed) => {
            let heights = passed.greatest_heights.iter().enumerate();
            let lines = heights.map(|(function, height)| format!("height {function} {height}\n"));
            format!("passed\n{}", lines.collect::<String>())
        }
        Err(Refusal::Loading(Refused::Image(offset))) => format!("refused 20 at {offset}\n"),
        Err(Refusal::Loading(refused)) => print::refused_text(refused),
        Err(Refusal::Rule(Broken { rule, function })) => {
            format!("refused 40 rule {rule} function {function}\n")
        }
    }
}

/// The record of an image, in the manner of [`print::record`]: the lengths of
/// two parts (each u32, low byte first), then the parts: the image, and what
/// the check prints.
pub fn record(image: &[u8]) -> Vec<u8> {
    print::in_parts([image, text(image).as_bytes()])
}

/// Judges a program by the six rules.
pub fn judge(program: &Program) -> Result<Passed, Broken> {
    let codes = rule_1_whole_carried_instructions(program)?;
    rule_2_numbers_in_range(program, &codes)?;
    rule_3_no_callable_and_no_call_of_main(&codes)?;
    let counts = rule_4_one_argument_count(&codes)?;
    rule_5_jumps_land(&codes)?;
    rule_6_heights(&codes, &counts)
}

/// An instruction, where it begins, and where the one behind it does.
struct Instruction {
    at: usize,
    next: usize,
    op: Op,
    /// As many as the opcode has; no carried one has more than two.
    operands: Vec<usize>,
}

/// A function's code, taken apart.
struct Code {
    number: usize,
    instructions: Vec<Instruction>,
    end: usize,
}

impl Code {
    fn is_main(&self) -> bool {
        self.number == 0
    }

    /// The instruction that begins there, if one does.
    fn instruction_at(&self, position: usize) -> Option<&Instruction> {
        let found = self.instructions.binary_search_by_key(&position, |i| i.at);
        found.ok().map(|index| &self.instructions[index])
    }

    fn breaks(&self, rule: u32) -> Broken {
        Broken {
            rule,
            function: self.number,
        }
    }
}

/// Rule 1: each function's code is a row of whole carried instructions.
fn rule_1_whole_carried_instructions(program: &Program) -> Result<Vec<Code>, Broken> {
    let functions = program.functions.iter().enumerate();
    functions
        .map(|(number, function)| match instructions(&function.code) {
            Some(instructions) => Ok(Code {
                number,
                instructions,
                end: function.code.len(),
            }),
            None => Err(Broken {
                rule: 1,
                function: number,
            }),
        })
        .collect()
}

/// None at an opcode that is unknown or not carried, and where the code ends
/// inside an instruction. The operands are those that the machine reads.
fn instructions(code: &[u8]) -> Option<Vec<Instruction>> {
    let mut out = vec![];
    let mut at = 0;
    while at < code.len() {
        let op = Op::from_byte(code[at]).filter(|op| op.is_carried())?;
        let next = at + 1 + 2 * op.operands_read();
        let operands = code.get(at + 1..next)?.chunks_exact(2);
        let operands = operands.map(|pair| usize::from(u16::from_le_bytes([pair[0], pair[1]])));
        out.push(Instruction {
            at,
            next,
            op,
            operands: operands.collect(),
        });
        at = next;
    }
    Some(out)
}

/// Rule 2: constant, struct and function numbers are in range. Slots and
/// fields are no such numbers: a slot is rule 6's, a field is known only to
/// the run.
fn rule_2_numbers_in_range(program: &Program, codes: &[Code]) -> Result<(), Broken> {
    let in_range = |instruction: &Instruction| {
        let numbered = match instruction.op {
            Op::LoadConstant => program.constants.len(),
            Op::BuildStructInstance => program.structs.len(),
            Op::Call => program.functions.len(),
            _ => return true,
        };
        instruction.operands[0] < numbered
    };
    every_instruction(2, codes, in_range)
}

/// Rule 3: no CallCallable, and no Call of function 0.
fn rule_3_no_callable_and_no_call_of_main(codes: &[Code]) -> Result<(), Broken> {
    every_instruction(3, codes, |instruction| match instruction.op {
        Op::CallCallable => false,
        Op::Call => instruction.operands[0] != 0,
        _ => true,
    })
}

/// The lowest function with an instruction that is not allowed breaks the rule.
fn every_instruction(
    rule: u32,
    codes: &[Code],
    allowed: impl Fn(&Instruction) -> bool,
) -> Result<(), Broken> {
    let breaking = codes
        .iter()
        .find(|code| !code.instructions.iter().all(&allowed));
    breaking.map_or(Ok(()), |code| Err(code.breaks(rule)))
}

/// Rule 4: every Call of one function passes the same count, wherever it
/// stands. It is the called function that breaks it. Tells the count of each;
/// a function that no Call names is taken with none.
fn rule_4_one_argument_count(codes: &[Code]) -> Result<Vec<usize>, Broken> {
    let mut passed: Vec<Vec<usize>> = vec![vec![]; codes.len()];
    for instruction in codes.iter().flat_map(|code| &code.instructions) {
        if instruction.op == Op::Call {
            passed[instruction.operands[0]].push(instruction.operands[1]);
        }
    }
    let counts = codes.iter().zip(&passed).map(|(called, counts)| {
        let count = counts.first().copied().unwrap_or(0);
        match counts.iter().all(|other| *other == count) {
            true => Ok(count),
            false => Err(called.breaks(4)),
        }
    });
    counts.collect()
}

/// Rule 5: jumps land on an instruction, or in main also on its end.
fn rule_5_jumps_land(codes: &[Code]) -> Result<(), Broken> {
    for code in codes {
        let lands = |target: usize| {
            code.instruction_at(target).is_some() || code.is_main() && target == code.end
        };
        let mut targets = code.instructions.iter().filter_map(jump_target);
        if !targets.all(lands) {
            return Err(code.breaks(5));
        }
    }
    Ok(())
}

/// The offset is unsigned and counts from behind the instruction.
fn jump_target(instruction: &Instruction) -> Option<usize> {
    match instruction.op {
        Op::Jump | Op::JumpIfFalse => Some(instruction.next + instruction.operands[0]),
        _ => None,
    }
}

/// Rule 6: every reached position has one known height, and what stands there
/// keeps to it.
fn rule_6_heights(codes: &[Code], counts: &[usize]) -> Result<Passed, Broken> {
    let heights = codes
        .iter()
        .zip(counts)
        .map(|(code, count)| heights(code, *count).ok_or(code.breaks(6)));
    let heights: Vec<Vec<Option<usize>>> = heights.collect::<Result<_, _>>()?;
    let greatest = |known: &Vec<Option<usize>>| known.iter().flatten().copied().max();
    Ok(Passed {
        greatest_heights: heights
            .iter()
            .map(|known| greatest(known).expect("the start is reached"))
            .collect(),
        heights,
    })
}

/// Follows every path from the start of a function that begins at the height.
/// None as soon as one goes wrong: a second height at a position, too few
/// values for an instruction, or the end of a function other than main.
fn heights(code: &Code, start: usize) -> Option<Vec<Option<usize>>> {
    let mut known = vec![None; code.end + 1];
    let mut to_visit = vec![(0, start)];
    while let Some((position, height)) = to_visit.pop() {
        match known[position] {
            None => known[position] = Some(height),
            Some(before) if before == height => continue,
            Some(_) => return None,
        }
        // By rule 5 a position without an instruction is the end.
        let Some(instruction) = code.instruction_at(position) else {
            if code.is_main() {
                continue;
            }
            return None;
        };
        if height < values_wanted(instruction) {
            return None;
        }
        let after = height - values_taken(instruction) + values_left(instruction);
        for way in ways_on(instruction, code.is_main()) {
            to_visit.push((way, after));
        }
    }
    Some(known)
}

/// How many values above its base a frame must hold for the instruction: as
/// many as it takes off, or up to the slot that it reads. GetUpvalue counts
/// from the bottom of the stack, of which a height above a base says nothing.
fn values_wanted(instruction: &Instruction) -> usize {
    match instruction.op {
        Op::GetLocal => instruction.operands[0] + 1,
        _ => values_taken(instruction),
    }
}

/// How many values it pops, or passes to the function that it calls.
fn values_taken(instruction: &Instruction) -> usize {
    match instruction.op {
        Op::LoadConstant | Op::GetLocal | Op::GetUpvalue | Op::GetLastResult | Op::Jump => 0,
        Op::Negate | Op::LogicalNeg | Op::JumpIfFalse | Op::AccessStructField | Op::Return => 1,
        Op::Add | Op::Subtract | Op::Multiply | Op::Divide => 2,
        Op::LessThan | Op::GreaterThan | Op::LessOrEqual | Op::GreatorOrEqual => 2,
        Op::Equal | Op::NotEqual | Op::LogicalAnd | Op::LogicalOr => 2,
        Op::BuildList => instruction.operands[0],
        Op::BuildStructInstance | Op::Call => instruction.operands[1],
        _ => unreachable!("rules 1 and 3 let no other opcode through"),
    }
}

/// How many values it leaves in their stead. A Call leaves what the called
/// function returns. A Return in main leaves nothing and goes on; in another
/// function it leaves the frame, and there is no way on to count for.
fn values_left(instruction: &Instruction) -> usize {
    match instruction.op {
        Op::Jump | Op::JumpIfFalse | Op::Return => 0,
        _ => 1,
    }
}

/// The positions that may come next.
fn ways_on(instruction: &Instruction, in_main: bool) -> Vec<usize> {
    match instruction.op {
        Op::Return if !in_main => vec![],
        Op::Jump => jump_target(instruction).into_iter().collect(),
        _ => {
            let jump = jump_target(instruction).into_iter();
            jump.chain([instruction.next]).collect()
        }
    }
}
