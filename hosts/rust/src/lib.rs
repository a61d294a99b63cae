//! Chaffwheel for a host in Rust: a rule that was loaded, over stores that a [`Machine`] owns.
//!
//! Only loading, running and the last result are here; `include/chaffwheel.h` has the other functions, and each is called the same way. The machine
//! is proved to keep its written rules; this crate is not proved.

#[rustfmt::skip]
extern "C" {
    fn chaffwheel_load(
        image: *const u8, _: usize, vm: *mut u64, _: usize, constants: *mut u64, _: usize, structs: *mut u64, _: usize,
        functions: *mut u64, _: usize, text: *mut u8, _: usize, main: *mut u8, _: usize, main_places: *mut u32, _: usize,
        other: *mut u8, _: usize, other_places: *mut u32, _: usize, frames: *mut Frame, _: usize, answer: *mut u64, _: usize) -> u32;
    fn chaffwheel_set_strict(
        strict: bool, vm: *mut u64, _: usize, constants: *const u64, _: usize, structs: *const u64, _: usize,
        functions: *const u64, _: usize, text: *const u8, _: usize, main: *const u8, _: usize, main_places: *const u32, _: usize,
        other: *const u8, _: usize, other_places: *const u32, _: usize, stack: *const u64, _: usize, cells: *const u64, _: usize,
        frames: *const Frame, _: usize, copy: *const u64, _: usize) -> u32;
    fn chaffwheel_begin(
        vm: *mut u64, _: usize, constants: *const u64, _: usize, structs: *const u64, _: usize,
        functions: *const u64, _: usize, text: *const u8, _: usize, main: *const u8, _: usize, main_places: *const u32, _: usize,
        other: *const u8, _: usize, other_places: *const u32, _: usize, stack: *const u64, _: usize, cells: *const u64, _: usize,
        frames: *mut Frame, _: usize, copy: *mut u64, _: usize, answer: *mut u64, _: usize) -> u32;
    fn chaffwheel_continue(
        units: u64, vm: *mut u64, _: usize, constants: *const u64, _: usize, structs: *const u64, _: usize,
        functions: *const u64, _: usize, text: *const u8, _: usize, main: *const u8, _: usize, main_places: *const u32, _: usize,
        other: *const u8, _: usize, other_places: *const u32, _: usize, stack: *mut u64, _: usize, cells: *mut u64, _: usize,
        frames: *mut Frame, _: usize, copy: *const u64, _: usize, trace: *mut u64, _: usize, answer: *mut u64, _: usize) -> u32;
    fn chaffwheel_abandon(
        vm: *mut u64, _: usize, constants: *const u64, _: usize, structs: *const u64, _: usize,
        functions: *const u64, _: usize, text: *const u8, _: usize, main: *const u8, _: usize, main_places: *const u32, _: usize,
        other: *const u8, _: usize, other_places: *const u32, _: usize, stack: *mut u64, _: usize, cells: *const u64, _: usize,
        frames: *mut Frame, _: usize, copy: *const u64, _: usize, trace: *mut u64, _: usize, answer: *mut u64, _: usize) -> u32;
}

#[repr(C)]
#[derive(Clone, Copy, Default)]
struct Frame {
    function: u64,
    position: u64,
    base: u64,
    entered: u64,
}

/// A call that was not begun; nothing has changed. docs/NUMBERS.md has its number.
#[derive(Clone, Copy, Debug, PartialEq, Eq)]
pub struct Refused(pub u32);

/// A value: what is no number and no boolean is its two words, which the readers of chaffwheel.h take.
#[derive(Clone, Copy, Debug, PartialEq)]
pub enum Value {
    Scalar(f64),
    Boolean(bool),
    Words(u64, u64),
}

impl Value {
    fn of(kind: u64, payload: u64) -> Value {
        match kind {
            0 => Value::Scalar(f64::from_bits(payload)),
            1 => Value::Boolean(payload == 1),
            _ => Value::Words(kind, payload),
        }
    }
}

#[derive(Clone, Copy, Debug, PartialEq)]
pub enum Answer {
    Value(Value),
    Continue,
    Fault(u64),
    /// Out of units, and under way: the others end the run.
    Paused,
}

/// What a part of a run answered; `spent` and `returns` are the whole run's, so far. Whether it has counted is told by `returns` alone (docs/RETRY.md).
#[derive(Clone, Copy, Debug, PartialEq)]
pub struct Outcome {
    pub answer: Answer,
    pub spent: u64,
    pub returns: u64,
    /// How many entries the backtrace has: 0 but after a fault.
    entries: usize,
}

/// An entry of a backtrace; `entered` is how many units the run had spent when the frame was entered.
#[derive(Clone, Copy, Debug, PartialEq, Eq)]
pub struct Entry {
    pub function: u64,
    pub place: u64,
    pub entered: u64,
}

impl Outcome {
    fn of([outcome, spent, returns, first, second]: [u64; 5]) -> Outcome {
        let answer = match outcome {
            1 => Answer::Value(Value::of(first, second)),
            2 => Answer::Continue,
            3 => Answer::Fault(first),
            _ => Answer::Paused,
        };
        let entries = match answer {
            Answer::Fault(_) => second as usize,
            _ => 0,
        };
        Outcome {
            answer,
            spent,
            returns,
            entries,
        }
    }
}

/// The stores have the runner's sizes. Constants, structs, functions, the stack, its copy and the cells have two words to a place.
pub struct Machine {
    vm: [u64; 17],
    constants: [u64; 512],
    structs: [u64; 512],
    functions: [u64; 512],
    text: [u8; 16384],
    main: [u8; 8192],
    main_places: [u32; 8192],
    other: [u8; 8192],
    other_places: [u32; 8192],
    stack: [u64; 2048],
    cells: [u64; 4096],
    frames: [Frame; 256],
    copy: [u64; 2048],
    trace: [u64; 768],
}

fn done(number: u32) -> Result<(), Refused> {
    match number {
        0 => Ok(()),
        number => Err(Refused(number)),
    }
}

impl Machine {
    /// Loads a rule.
    pub fn load(image: &[u8]) -> Result<Box<Machine>, Refused> {
        let mut m = Box::new(Machine {
            vm: [0; 17],
            constants: [0; 512],
            structs: [0; 512],
            functions: [0; 512],
            text: [0; 16384],
            main: [0; 8192],
            main_places: [0; 8192],
            other: [0; 8192],
            other_places: [0; 8192],
            stack: [0; 2048],
            cells: [0; 4096],
            frames: [Frame::default(); 256],
            copy: [0; 2048],
            trace: [0; 768],
        });
        let mut answer = [0; 5];
        // Each store is lent whole, with its own count, and none twice.
        #[rustfmt::skip]
        done(unsafe { chaffwheel_load(
            image.as_ptr(), image.len(), m.vm.as_mut_ptr(), 17, m.constants.as_mut_ptr(), 512, m.structs.as_mut_ptr(), 512,
            m.functions.as_mut_ptr(), 512, m.text.as_mut_ptr(), 16384, m.main.as_mut_ptr(), 8192, m.main_places.as_mut_ptr(), 8192,
            m.other.as_mut_ptr(), 8192, m.other_places.as_mut_ptr(), 8192, m.frames.as_mut_ptr(), 256, answer.as_mut_ptr(), 5) })?;
        Ok(m)
    }

    /// On a strict machine finite numbers that give infinity or NaN are fault 26. A machine is not strict as it is loaded.
    pub fn set_strict(&mut self, strict: bool) -> Result<(), Refused> {
        #[rustfmt::skip]
        done(unsafe { chaffwheel_set_strict(
            strict, self.vm.as_mut_ptr(), 17, self.constants.as_ptr(), 512, self.structs.as_ptr(), 512,
            self.functions.as_ptr(), 512, self.text.as_ptr(), 16384, self.main.as_ptr(), 8192, self.main_places.as_ptr(), 8192,
            self.other.as_ptr(), 8192, self.other_places.as_ptr(), 8192, self.stack.as_ptr(), 2048, self.cells.as_ptr(), 4096,
            self.frames.as_ptr(), 256, self.copy.as_ptr(), 2048) })?;
        Ok(())
    }

    /// Begins a run; it takes no units.
    pub fn begin(&mut self) -> Result<Outcome, Refused> {
        let mut answer = [0; 5];
        #[rustfmt::skip]
        done(unsafe { chaffwheel_begin(
            self.vm.as_mut_ptr(), 17, self.constants.as_ptr(), 512, self.structs.as_ptr(), 512,
            self.functions.as_ptr(), 512, self.text.as_ptr(), 16384, self.main.as_ptr(), 8192, self.main_places.as_ptr(), 8192,
            self.other.as_ptr(), 8192, self.other_places.as_ptr(), 8192, self.stack.as_ptr(), 2048, self.cells.as_ptr(), 4096,
            self.frames.as_mut_ptr(), 256, self.copy.as_mut_ptr(), 2048, answer.as_mut_ptr(), 5) })?;
        Ok(Outcome::of(answer))
    }

    /// Gives the run under way so many units more.
    pub fn continue_run(&mut self, units: u64) -> Result<Outcome, Refused> {
        let mut answer = [0; 5];
        #[rustfmt::skip]
        done(unsafe { chaffwheel_continue(
            units, self.vm.as_mut_ptr(), 17, self.constants.as_ptr(), 512, self.structs.as_ptr(), 512,
            self.functions.as_ptr(), 512, self.text.as_ptr(), 16384, self.main.as_ptr(), 8192, self.main_places.as_ptr(), 8192,
            self.other.as_ptr(), 8192, self.other_places.as_ptr(), 8192, self.stack.as_mut_ptr(), 2048, self.cells.as_mut_ptr(), 4096,
            self.frames.as_mut_ptr(), 256, self.copy.as_ptr(), 2048, self.trace.as_mut_ptr(), 768, answer.as_mut_ptr(), 5) })?;
        Ok(Outcome::of(answer))
    }

    /// Ends the run under way: fault 13.
    pub fn abandon(&mut self) -> Result<Outcome, Refused> {
        let mut answer = [0; 5];
        #[rustfmt::skip]
        done(unsafe { chaffwheel_abandon(
            self.vm.as_mut_ptr(), 17, self.constants.as_ptr(), 512, self.structs.as_ptr(), 512,
            self.functions.as_ptr(), 512, self.text.as_ptr(), 16384, self.main.as_ptr(), 8192, self.main_places.as_ptr(), 8192,
            self.other.as_ptr(), 8192, self.other_places.as_ptr(), 8192, self.stack.as_mut_ptr(), 2048, self.cells.as_ptr(), 4096,
            self.frames.as_mut_ptr(), 256, self.copy.as_ptr(), 2048, self.trace.as_mut_ptr(), 768, answer.as_mut_ptr(), 5) })?;
        Ok(Outcome::of(answer))
    }

    /// The backtrace of the fault in which a run ended, the innermost frame first.
    pub fn backtrace(&self, outcome: &Outcome) -> Vec<Entry> {
        let words = self.trace.chunks_exact(3).take(outcome.entries);
        let entry = |words: &[u64]| Entry {
            function: words[0],
            place: words[1],
            entered: words[2],
        };
        words.map(entry).collect()
    }

    /// A whole run: begun, continued once, and abandoned where it is then paused.
    pub fn whole_run(&mut self, units: u64) -> Result<Outcome, Refused> {
        let mut outcome = self.begin()?;
        if outcome.answer == Answer::Paused {
            outcome = self.continue_run(units)?;
        }
        if outcome.answer == Answer::Paused {
            outcome = self.abandon()?;
        }
        Ok(outcome)
    }

    /// None before the first root Return.
    pub fn last_result(&self) -> Option<Value> {
        (self.vm[8] != 7).then(|| Value::of(self.vm[8], self.vm[9]))
    }
}
