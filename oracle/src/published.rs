//! The published Rust itself, as the judge of the two machines of this crate.
//!
//! A run is made three times: by numbat's `vm.rs` as published, by [`Vm`],
//! which is the same written again over `f64`, and by document 01's
//! [`Machine`]. The first two must agree in everything, the state that a panic
//! leaves included. The third must agree with them wherever the Rust runs
//! without panic and no limit comes in, and must fault where it panics.

mod host;
mod judging;
mod states;
mod values;

use numbat_published::interpreter::{InterpreterResult, RuntimeErrorKind};
use numbat_published::vm::{self as their, Vm as Published};

use crate::calls;
use crate::generate;
use crate::image::{self, Program};
use crate::limits::{Machine, Stores};
use crate::op::Op;
use crate::plain::{message, quietly, Ending};
use crate::print::UNITS;
use crate::script;
use crate::vm::{Lists, RuntimeError, RuntimeErrorKind as Kind, Vm};
use host::Host;
pub use judging::Count;
use judging::Ruled;
pub use states::State;
use values::{bytes, text, their_constant, Taken};

/// The bytes of a script of host calls.
const SCRIPT: usize = 48_000;

/// A published machine that holds a program.
pub fn machine(program: &Program) -> Published {
    let mut vm = Published::new();
    for constant in &program.constants {
        vm.add_constant(their_constant(constant));
    }
    for name in &program.structs {
        vm.add_struct(&text(name));
    }
    let (main, others) = program.functions.split_first().expect("there is a main");
    vm.append(&main.code, &main.places);
    for function in others {
        vm.begin(&text(&function.name));
        vm.append(&function.code, &function.places);
    }
    vm.end();
    vm
}

/// One call of the published `run`, under guard.
pub fn run(vm: &mut Published, steps: u64) -> Ending {
    match quietly(|| vm.run_guarded(steps)) {
        Ok(Ok(InterpreterResult::Value(value))) => Ending::Value(Taken::from(vm).value(&value)),
        Ok(Ok(InterpreterResult::Continue)) => Ending::Continue,
        Ok(Err(error)) => {
            assert_eq!(error.kind, RuntimeErrorKind::DivisionByZero);
            let backtrace = error.backtrace.iter();
            Ending::Error(RuntimeError {
                kind: Kind::DivisionByZero,
                backtrace: backtrace.map(|(f, span)| (bytes(f), span.0)).collect(),
            })
        }
        Err(payload) => match payload.downcast_ref::<their::Outside>() {
            Some(their::Outside::UndefinedCast(byte)) => Ending::UndefinedCast(*byte),
            Some(their::Outside::NotCarried(op)) => {
                Ending::NotCarried(Op::from_byte(*op as u8).expect("a known opcode"))
            }
            Some(their::Outside::Bound(which)) => Ending::Bound(which),
            None => Ending::Panicked(message(&*payload)),
        },
    }
}

/// The plain machine with list.rs's equality, as the published one has it.
fn plain_of(program: &Program) -> Vm {
    let mut vm = Vm::from_program(program);
    vm.lists = Lists::IfShared;
    vm
}

/// Generated images, each run once and listed.
pub fn images(seed: u64, count: u64) -> Count {
    let mut counted = Count::default();
    for index in 0..count {
        let image = generate::case(seed, index);
        match image::parse(&image) {
            Ok(program) => counted.image(&format!("image {index}"), &image, &program),
            Err(_) => counted.add("images refused 20"),
        }
    }
    counted
}

impl Count {
    fn image(&mut self, at: &str, image: &[u8], program: &Program) {
        let mut published = machine(program);
        self.listing(at, &published, program);
        let loaded = Machine::load(image, Stores::RUNNER).ok();
        let report = loaded.map(|mut machine| (machine.run(UNITS), machine));
        let ruled = report.as_ref().map(|(report, machine)| Ruled {
            report,
            after: State::of_machine(machine),
            program,
        });
        self.run(at, &mut published, &mut plain_of(program), ruled.as_ref());
    }
}

/// Generated scripts of host calls: what is emitted is emitted to the
/// published machine too, and each run is made by it too.
pub fn calls(seed: u64, count: u64) -> Count {
    let mut counted = Count::default();
    for seed in seed..seed + count {
        counted.add("scripts");
        let script = calls::script(seed, SCRIPT);
        let mut host = Host::new(&mut counted);
        for (number, line) in script::lines(script.as_bytes(), 1) {
            host.line(&format!("seed {seed}, line {number}"), line);
        }
    }
    counted
}
