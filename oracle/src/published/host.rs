//! Scripts of host calls, made on the published machine too.

use numbat_published::vm::Vm as Published;

use super::judging::{Count, Ruled};
use super::states::State;
use super::values::{text, their_constant};
use super::{machine, plain_of};
use crate::command::Command;
use crate::console::Console;
use crate::limits::{Machine, Part, Report, Stores};
use crate::plain::quietly;

/// A host of two machines, which gets the same calls for both.
pub(super) struct Host<'a> {
    console: Console,
    published: Published,
    /// Whether the published machine is what the console's is. It is not after
    /// a panic or past a limit, or when the host has put frames.
    in_step: bool,
    /// What the machine was when the run under way was begun: the published
    /// machine makes the run when it is over, as it has no parts. None if
    /// there is none, or frames were put in a pause.
    begun: Option<State>,
    counted: &'a mut Count,
}

impl Host<'_> {
    pub(super) fn new(counted: &mut Count) -> Host<'_> {
        Host {
            console: Console::new(),
            published: Published::new(),
            in_step: true,
            begun: None,
            counted,
        }
    }

    pub(super) fn line(&mut self, at: &str, line: &[u8]) {
        let command = Command::read(line);
        if let Some((machine, report)) = self.part(&command) {
            self.over(at, &machine, &report);
        }
        let said = self.console.obey(0, line).expect("a script is understood");
        let said = String::from_utf8_lossy(&said).into_owned();
        self.emission(at, command, said.trim_end());
    }

    /// The end of a run, if this call brings it, and the machine then.
    fn part(&mut self, command: &Command) -> Option<(Machine, Report)> {
        let rooms = Stores::RUNNER;
        let (machine, part) = match *command {
            Command::Start(room) if room >= rooms.values => {
                let mut machine = self.console.as_lent()?;
                let begun = State::of_machine(&machine);
                let part = machine.begin_run().ok()?;
                self.begun = Some(begun);
                (machine, part)
            }
            Command::Continue(units, room) if room >= rooms.frames => {
                let mut machine = self.console.as_lent()?;
                let part = machine.continue_run(units).ok()?;
                (machine, part)
            }
            Command::Abandon(room) if room >= rooms.frames => {
                let mut machine = self.console.as_lent()?;
                let report = machine.abandon_run().ok()?;
                (machine, Part::Over(report))
            }
            _ => return None,
        };
        match part {
            Part::Over(report) => Some((machine, report)),
            Part::Paused { .. } => None,
        }
    }

    /// A run is over: the published machine makes it from where it was begun.
    fn over(&mut self, at: &str, machine: &Machine, report: &Report) {
        let Some(before) = self.begun.take() else {
            self.in_step = false;
            return;
        };
        if !self.in_step {
            before.put_into_published(&mut self.published);
        }
        let mut plain = plain_of(&machine.program);
        before.put_into_plain(&mut plain);
        let ruled = Ruled {
            report,
            after: State::of_machine(machine),
            program: &machine.program,
        };
        let counted = &mut self.counted;
        counted.run(at, &mut self.published, &mut plain, Some(&ruled));
        self.in_step = State::of_published(&self.published).same(&ruled.after);
    }

    /// Does what the console has done, and compares what is answered.
    fn emission(&mut self, at: &str, command: Command, said: &str) {
        let vm = &mut self.published;
        let done = said.strip_prefix("done ");
        let told = match command {
            Command::New if said == "done" => {
                *vm = Published::new();
                self.in_step = true;
                return;
            }
            Command::Image(_) if said == "done" => {
                let loaded = self.console.machine().expect("it was loaded");
                *vm = machine(&loaded.program);
                self.in_step = true;
                return;
            }
            Command::PutFrame(..) | Command::CountFrames(_) | Command::PutRun(..) => {
                self.in_step = false;
                self.begun = None;
                return;
            }
            Command::Offset => format!("number {}", vm.current_offset()),
            Command::Find(name) => match quietly(|| vm.function_number(&text(&name))) {
                Ok(number) => format!("number {number}"),
                Err(_) => "refused 14".to_owned(),
            },
            // What is refused was not done.
            _ if done.is_none() => return,
            Command::Op(op, operands, place) => {
                vm.emit(op, &operands, place);
                "done 0".to_owned()
            }
            Command::Patch(at, value) => {
                vm.patch_u16_value_at(at, value);
                "done 0".to_owned()
            }
            Command::Constant(constant) => {
                format!("done {}", vm.add_constant(their_constant(&constant)))
            }
            Command::Struct(name) => format!("done {}", vm.add_struct(&text(&name))),
            Command::Begin(name) => {
                vm.begin(&text(&name));
                format!("done {}", vm.function_number(&text(&name)))
            }
            Command::End => {
                vm.end();
                "done 0".to_owned()
            }
            _ => return,
        };
        self.counted.add("calls of emission");
        let words = format!("{told}, not {said}");
        self.counted.agrees(at, &words, told == said);
        self.code(at);
    }

    /// The current function's code is the same in both.
    fn code(&mut self, at: &str) {
        let ours = self.console.machine().expect("something was emitted");
        let code = &ours.program.functions[ours.current].code;
        let agrees = self.published.code(ours.current) == code.as_slice();
        self.counted.agrees(at, "the code differs", agrees);
    }
}
