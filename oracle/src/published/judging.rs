//! Comparing, and counting what was compared.

use std::collections::BTreeMap;

use numbat_published::vm::Vm as Published;

use super::run;
use super::states::{same_last, State};
use super::values::bytes;
use crate::image::Program;
use crate::limits::{Answer, Entry, Refused, Report};
use crate::plain::{self, quietly, Ending};
use crate::print::{is_listed_by_000, listing};
use crate::vm::Vm;

/// A published run and a plain one ended alike, in the words of a panic too.
fn same_ending(published: &Ending, plain: &Ending) -> bool {
    match (published, plain) {
        (Ending::Value(left), Ending::Value(right)) => left.same(right),
        (Ending::Continue, Ending::Continue) => true,
        (Ending::Error(left), Ending::Error(right)) => left == right,
        (Ending::Panicked(left), Ending::Panicked(right)) => {
            // A field is taken out there, and looked up here.
            let field = left.starts_with("swap_remove") && right.starts_with(OUT_OF_BOUNDS);
            left == right || field
        }
        (Ending::UndefinedCast(left), Ending::UndefinedCast(right)) => left == right,
        (Ending::NotCarried(left), Ending::NotCarried(right)) => left == right,
        _ => false,
    }
}

const OUT_OF_BOUNDS: &str = "index out of bounds";

/// The words with which the Rust panics where document 01 has a fault.
fn panics_with(fault: u32) -> &'static [&'static str] {
    const UNWRAP: &str = "called `Option::unwrap()` on a `None` value";
    const TOO_FEW: &str = "attempt to subtract with overflow";
    const NO_STRUCT: &str = "Missing struct metadata";
    match fault {
        // The struct is looked up between the operands (difference 7).
        3 => &[OUT_OF_BOUNDS, NO_STRUCT],
        4 => &["stack should not be empty", UNWRAP, TOO_FEW],
        5 => &["Expected "],
        // A Call counts its arguments before its function (difference 6).
        6 => &[OUT_OF_BOUNDS, NO_STRUCT, "swap_remove", TOO_FEW],
        7 | 14 => &[UNWRAP],
        _ => &[],
    }
}

/// A run that the Rust does not finish is one that document 01 has a fault for.
fn is_fault(fault: u32, ending: &Ending) -> bool {
    match ending {
        Ending::UndefinedCast(_) => fault == 1,
        Ending::NotCarried(_) => fault == 2,
        Ending::Panicked(words) => panics_with(fault).iter().any(|w| words.starts_with(w)),
        _ => false,
    }
}

/// What document 01's machine made of the same run.
pub(super) struct Ruled<'a> {
    pub(super) report: &'a Report,
    pub(super) after: State,
    pub(super) program: &'a Program,
}

impl Ruled<'_> {
    /// 9 to 13 are limits, of which the Rust has none, and so is 26 of a strict
    /// machine.
    fn is_past_a_limit(&self) -> bool {
        matches!(self.report.answer, Answer::Fault(9..=13 | 26))
    }

    fn agrees(&self, ending: &Ending, after: &State) -> bool {
        match (&self.report.answer, ending) {
            (Answer::Value(left), Ending::Value(right)) => {
                left.same(right) && self.after.same(after)
            }
            (Answer::Continue, Ending::Continue) => self.after.same(after),
            (Answer::Fault(8), Ending::Error(error)) => {
                self.after.same(after) && self.backtrace_is(&error.backtrace)
            }
            // Stack and frames are left as they stood (difference 4).
            (Answer::Fault(fault), ending) => {
                is_fault(*fault, ending) && same_last(&self.after.last_result, &after.last_result)
            }
            _ => false,
        }
    }

    /// The Rust names functions, document 01 numbers them; the Rust does not
    /// tell when they were entered.
    fn backtrace_is(&self, theirs: &[(Vec<u8>, u32)]) -> bool {
        let named = |entry: &Entry| {
            let name = &self.program.functions[entry.function].name;
            (name.clone(), entry.place)
        };
        let ours = self.report.backtrace.iter();
        ours.map(named).eq(theirs.iter().cloned())
    }
}

/// What was compared, and how often.
#[derive(Default)]
pub struct Count {
    pub compared: BTreeMap<&'static str, u64>,
    pub differences: Vec<String>,
}

impl Count {
    pub(super) fn add(&mut self, what: &'static str) {
        *self.compared.entry(what).or_default() += 1;
    }

    pub(super) fn agrees(&mut self, at: &str, words: &str, agrees: bool) {
        if !agrees {
            self.differences.push(format!("{at}: {words}"));
        }
    }

    /// A run of the published machine and of the plain one, and what document
    /// 01's machine made of it, if it could hold the program.
    pub(super) fn run(
        &mut self,
        at: &str,
        published: &mut Published,
        plain: &mut Vm,
        ruled: Option<&Ruled>,
    ) {
        let expected = plain::run(plain);
        if matches!(expected, Ending::Bound(_)) {
            return self.add("runs not made: too many steps, or too deep");
        }
        let ending = run(published, plain.bounds.steps);
        if let Ending::Bound("copies") = ending {
            return self.add("runs not finished: too much to copy");
        }
        self.add(words_of(&ending));
        let mut after = State::of_published(published);
        if matches!(ending, Ending::UndefinedCast(_) | Ending::NotCarried(_)) {
            // The guard stops before the byte is read, the plain machine behind it.
            after.frames.last_mut().expect("a frame").position += 1;
        }
        let same = same_ending(&ending, &expected) && after.same(&State::of_plain(plain));
        self.agrees(at, &format!("{ending:?}, not {expected:?}"), same);
        match ruled {
            _ if plain.depending > 0 => {
                self.add("runs that compared a shared list with a NaN (difference 2)");
            }
            None => {}
            Some(ruled) if ruled.is_past_a_limit() => {
                self.add("runs that pass a limit of document 01");
            }
            Some(ruled) => {
                self.add("runs compared with document 01's machine");
                let agrees = ruled.agrees(&ending, &after);
                self.agrees(
                    at,
                    &format!("{ending:?}, {:?}", ruled.report.answer),
                    agrees,
                );
            }
        }
    }

    /// The listing, where the published one does not cast what it must not.
    pub(super) fn listing(&mut self, at: &str, published: &Published, program: &Program) {
        if !is_listed_by_000(program) {
            self.add("listings with an opcode whose operands 000 counts otherwise (difference 3)");
            return;
        }
        let ours = listing(program);
        let agrees = match quietly(|| published.listing()) {
            Ok(Some(theirs)) => {
                self.add("listings");
                ours == Ok(bytes(&theirs))
            }
            // Its notes index constants and functions without asking.
            Err(_) => matches!(ours, Ok(_) | Err(Refused::CutShort)),
            Ok(None) => matches!(ours, Err(Refused::Opcode | Refused::CutShort)),
        };
        self.agrees(at, "the listing differs", agrees);
    }
}

fn words_of(ending: &Ending) -> &'static str {
    match ending {
        Ending::Value(_) => "runs that ended in a value",
        Ending::Continue => "runs that ended in continue",
        Ending::Error(_) => "runs that ended in an error",
        Ending::Panicked(_) => "runs that panicked",
        Ending::UndefinedCast(_) => "runs stopped before an undefined cast",
        Ending::NotCarried(_) => "runs stopped before an opcode that is not carried",
        Ending::Bound(_) => "runs stopped after too many steps",
    }
}

#[cfg(test)]
mod tests {
    use super::*;
    use crate::image::Constant;
    use crate::published::{machine, plain_of};

    /// Main with constants 1 and 0, and what runs of it are told to differ in.
    fn differences(published: &[u8], plain: &[u8]) -> usize {
        let program = |code: &[u8]| {
            let mut program = Program::new();
            program.constants = [1.0f64, 0.0]
                .map(|n| Constant::Scalar(n.to_bits()))
                .to_vec();
            program.functions[0].code = code.to_vec();
            program.functions[0].places = (0..code.len() as u32).collect();
            program
        };
        let mut counted = Count::default();
        let mut published = machine(&program(published));
        counted.run("", &mut published, &mut plain_of(&program(plain)), None);
        counted.differences.len()
    }

    #[test]
    fn a_difference_in_answer_state_place_or_panic_is_told() {
        let one = [0, 0, 0];
        let zero = [0, 1, 0];
        assert_eq!(
            differences(&[&one[..], &[37]].concat(), &[&one[..], &[37]].concat()),
            0
        );
        assert_eq!(
            differences(&[&one[..], &[37]].concat(), &[&zero[..], &[37]].concat()),
            1
        );
        // The stack, and the position.
        assert_eq!(differences(&one, &zero), 1);
        assert_eq!(differences(&[27, 0, 0], &[27, 1, 0]), 1);
        // An error, another place of it, and a panic of other words.
        let divided = [&one[..], &zero[..], &[11]].concat();
        assert_eq!(differences(&divided, &divided), 0);
        assert_eq!(
            differences(&divided, &[&[27, 0, 0], &divided[..]].concat()),
            1
        );
        assert_eq!(differences(&[22], &[&one[..], &[22]].concat()), 1);
        // Bytes that are not cast.
        assert_eq!(differences(&[38], &[38]), 0);
        assert_eq!(differences(&[38], &[39]), 1);
        assert_eq!(differences(&[1], &[2]), 1);
    }
}
