//! A host's calls, from a script, and the answers as the console prints them.

use crate::command::Command;
use crate::frames::{in_order, FrameStore, NotFixed};
use crate::limits::{Answer, Entry, Machine, Part, Refused, Report, Run, Stores};
use crate::print::{entry_line, listing, value_text};
use crate::readers::{block_header, element, last_result, stack_value, text_bytes};
use crate::run_record::{OfWords, RunRecord};
use crate::script::{in_hex, lines, SPACE};
use crate::value::Value;

/// The console's machine, in the runner's stores.
#[derive(Clone)]
pub struct Console {
    /// None before one is made: then no program is in good order.
    machine: Option<Machine>,
    frames: FrameStore,
    run: RunRecord,
}

/// Why a call has no answer, or why the oracle cannot tell it.
enum Stop {
    Refused(Refused),
    NotFixed(NotFixed),
    OfWords,
}

impl From<Refused> for Stop {
    fn from(refused: Refused) -> Stop {
        Stop::Refused(refused)
    }
}

impl From<NotFixed> for Stop {
    fn from(not_fixed: NotFixed) -> Stop {
        Stop::NotFixed(not_fixed)
    }
}

impl From<OfWords> for Stop {
    fn from(_: OfWords) -> Stop {
        Stop::OfWords
    }
}

type Said = Result<Vec<u8>, Stop>;

/// Plays a script, printing into `out`; `first` is the number of its first
/// line, so that a part of a script can be played by itself. The error says why the oracle cannot
/// go on; what was printed before it stays.
pub fn play(script: &[u8], first: u64, out: &mut Vec<u8>) -> Result<(), String> {
    let mut console = Console::new();
    for (number, line) in lines(script, first) {
        out.extend(console.obey(number, line)?);
    }
    Ok(())
}

impl Console {
    pub fn new() -> Console {
        Console {
            machine: None,
            frames: FrameStore::new(Stores::RUNNER.frames),
            run: RunRecord::default(),
        }
    }

    /// A console whose machine is this one.
    pub fn of(machine: Machine) -> Console {
        let mut console = Console::new();
        console.left(machine);
        console
    }

    pub fn machine(&self) -> Option<&Machine> {
        self.machine.as_ref()
    }

    /// The machine as a part of a run would find it, if the frames and the run
    /// that the host lends are in good order.
    pub fn as_lent(&self) -> Option<Machine> {
        self.lent().ok()
    }

    /// The words of the run as the host holds them.
    pub fn run_record(&self) -> RunRecord {
        self.run
    }

    /// Whether the frames are in good order but for where the run under way
    /// stands: no run can at an end of code.
    pub fn stands_beyond(&self) -> bool {
        self.run.on && self.framed(Some(u64::MAX)).is_err() && self.framed(None).is_ok()
    }

    /// Whether they are but for a frame that was entered at more units than the
    /// run under way has spent.
    pub fn enters_beyond(&self) -> bool {
        self.framed(self.spent()).is_err() && self.framed(Some(u64::MAX)).is_ok()
    }

    /// Whether they are but for a frame that was entered before its caller.
    pub fn enters_before_its_caller(&self) -> bool {
        let mut mended = self.clone();
        mended.frames.unenter();
        self.framed(None).is_err() && mended.framed(self.spent()).is_ok()
    }

    /// What a line is answered.
    pub fn obey(&mut self, number: u64, line: &[u8]) -> Result<Vec<u8>, String> {
        match Command::read(line) {
            Command::NotUnderstood => Ok(format!("? {number}\n").into_bytes()),
            Command::OfWords => Err(of_words(number)),
            command => match self.call(command) {
                Ok(said) => Ok(said),
                Err(Stop::Refused(Refused::Image(at))) => Ok(format!("broken {at}\n").into_bytes()),
                Err(Stop::Refused(refused)) => {
                    Ok(format!("refused {}\n", refused.number()).into_bytes())
                }
                Err(Stop::OfWords) => Err(of_words(number)),
                Err(Stop::NotFixed(NotFixed(i))) => Err(format!(
                    "line {number} asks for frame {i}, past the frames that a call has left; \
                     the rules do not fix it"
                )),
            },
        }
    }

    fn call(&mut self, command: Command) -> Said {
        match command {
            Command::New => self.made(|| Machine::new(Stores::RUNNER)),
            Command::Image(image) => self.made(|| Machine::load(&image, Stores::RUNNER)),
            Command::Strict(strict) => self.set_strict(strict),
            Command::Start(room) => self.start(room),
            Command::Continue(units, room) => self.go_on(units, room),
            Command::Abandon(room) => self.abandon(room),
            Command::Trace(room) => self.trace(room),
            Command::Op(op, operands, place) => {
                self.emit(|machine| machine.emit(op, &operands, place))?;
                done(0)
            }
            Command::Patch(at, value) => {
                self.emit(|machine| machine.patch_u16_value_at(at, value))?;
                done(0)
            }
            Command::Constant(constant) => {
                let number = self.emit(|machine| machine.add_constant(constant))?;
                done(number.into())
            }
            Command::Struct(name) => done(self.emit(|machine| machine.add_struct_info(&name))?),
            Command::Begin(name) => {
                self.emit(|machine| machine.begin_function(&name))?;
                done(self.made_machine()?.current)
            }
            Command::End => {
                self.emit(Machine::end_function)?;
                done(0)
            }
            Command::Offset => told(self.made_machine()?.current_offset()),
            Command::Find(name) => told(self.made_machine()?.get_function_idx(&name)?),
            Command::Save(room) => {
                let image = fitting(self.made_machine()?.save(), room)?;
                say(format!("image {} {}\n", image.len(), in_hex(&image)))
            }
            Command::List(room) => Ok(fitting(listing(&self.made_machine()?.program)?, room)?),
            Command::ShowFrame(i) => {
                let frame = self.frames.show(i)?;
                say(format!(
                    "frame {} {} {} {}\n",
                    frame.function, frame.position, frame.base, frame.entered
                ))
            }
            Command::PutFrame(i, frame) => {
                self.frames.put(i, frame);
                Ok(vec![])
            }
            Command::CountFrames(taken) => {
                self.frames.count(taken);
                Ok(vec![])
            }
            Command::PutRun(word, number) => {
                self.run.put(word, number);
                Ok(vec![])
            }
            Command::Last => match &self.machine {
                Some(machine) => shown(last_result(machine)?),
                None => Err(Refused::NoLastResult.into()),
            },
            Command::Stack(i) => shown(self.value(i)?),
            Command::Header(i) => {
                let header = block_header(self.value(i)?)?;
                say(format!(
                    "header {} {} {}\n",
                    header.count, header.number, header.depth
                ))
            }
            Command::Element(i, j) => shown(element(self.value(i)?, j)?),
            Command::Text(i, room) => {
                let text = text_bytes(self.value(i)?, room.min(SPACE))?;
                say(format!("text {} {}\n", text.len(), in_hex(text)))
            }
            Command::Echo(words) => Ok([words, b"\n".to_vec()].concat()),
            Command::Nothing => Ok(vec![]),
            Command::NotUnderstood | Command::OfWords => unreachable!("no calls"),
        }
    }

    /// 25 comes first. A refusal leaves the machine that was.
    fn made(&mut self, make: impl Fn() -> Result<Machine, Refused>) -> Said {
        if self.run.on {
            return Err(Refused::UnderWay.into());
        }
        self.left(make()?);
        say("done\n")
    }

    /// A call has left this machine.
    fn left(&mut self, machine: Machine) {
        self.frames.leave(&machine.frames);
        self.run = RunRecord::of(&machine);
        self.machine = Some(machine);
    }

    /// The machine whose program is emitted, saved or listed: 19 if none is.
    fn made_machine(&mut self) -> Result<&mut Machine, Refused> {
        self.machine.as_mut().ok_or(Refused::Order)
    }

    /// Emission asks whether a run is under way, and judges nothing else of
    /// it.
    fn emit<T>(
        &mut self,
        emit: impl FnOnce(&mut Machine) -> Result<T, Refused>,
    ) -> Result<T, Refused> {
        let on = self.run.on;
        let machine = self.made_machine()?;
        let run = machine.under_way.take();
        if on {
            machine.under_way = run.clone().or_else(|| Some(Run::begun(machine)));
        }
        let done = emit(machine);
        machine.under_way = run;
        done
    }

    /// The value at a place of the stack, which is empty before a machine is
    /// made.
    fn value(&self, i: usize) -> Result<&Value, Refused> {
        let machine = self.machine.as_ref().ok_or(Refused::Number)?;
        stack_value(machine, i)
    }

    /// The units that the run under way has spent, by the words that the host
    /// holds; none where no run is under way.
    fn spent(&self) -> Option<u64> {
        self.run.on.then_some(self.run.spent)
    }

    /// The machine with the frames that the host lends, if they are in good
    /// order, with a run under way that has spent so many units; their bases are
    /// within the stack store.
    fn framed(&self, under_way: Option<u64>) -> Result<Machine, Stop> {
        let mut machine = self.machine.clone().ok_or(Refused::Order)?;
        let frames = self.frames.taken()??;
        if !in_order(&frames, &machine.program, machine.stores.values, under_way) {
            return Err(Refused::Order.into());
        }
        machine.frames = frames;
        Ok(machine)
    }

    /// The machine with the frames and the run that the host lends, if both are
    /// in good order.
    fn lent(&self) -> Result<Machine, Stop> {
        let mut machine = self.framed(self.spent())?;
        self.run.take(&mut machine)??;
        Ok(machine)
    }

    /// 19, 25. Nothing else of the machine is changed.
    fn set_strict(&mut self, strict: bool) -> Said {
        self.lent()?.set_strict(strict)?;
        self.made_machine()?.strict = strict;
        say("done\n")
    }

    /// 19, 25, 17: the copy store has as many places as the stack store. The
    /// copy of a run that is under way has to stand in it, else 19.
    fn start(&mut self, room: usize) -> Said {
        let mut machine = self.lent()?;
        if self.run.saved > room as u64 {
            return Err(Refused::Order.into());
        }
        machine.no_run_under_way()?;
        if room < machine.stores.values {
            return Err(Refused::ResultStore.into());
        }
        let part = machine.begin_run()?;
        self.after(part, machine)
    }

    /// 19, 18, 17, 22.
    fn go_on(&mut self, units: u64, room: usize) -> Said {
        let mut machine = self.under_way(room)?;
        let part = machine.continue_run(units)?;
        self.after(part, machine)
    }

    /// 19, 18, 17.
    fn abandon(&mut self, room: usize) -> Said {
        let mut machine = self.under_way(room)?;
        let report = machine.abandon_run()?;
        self.after(Part::Over(report), machine)
    }

    /// The machine with a run under way, if the backtrace store has as many
    /// places as the frame store.
    fn under_way(&mut self, room: usize) -> Result<Machine, Stop> {
        let machine = self.lent()?;
        machine.a_run_under_way()?;
        if room < machine.stores.frames {
            return Err(Refused::ResultStore.into());
        }
        Ok(machine)
    }

    /// What a part has left is lent again for the next.
    fn after(&mut self, part: Part, machine: Machine) -> Said {
        let said = said_of(&part, machine.stack.len(), machine.frames.len());
        self.left(machine);
        say(said)
    }

    /// 19, 17, then 16. A backtrace is lent the stack store for its length, and
    /// judges nothing of a run that is under way.
    fn trace(&mut self, room: usize) -> Said {
        let machine = self.framed(None)?;
        if room < machine.frames.len() {
            return Err(Refused::ResultStore.into());
        }
        say(entries(&machine.backtrace()?))
    }
}

impl Default for Console {
    fn default() -> Self {
        Console::new()
    }
}

fn of_words(number: u64) -> String {
    format!("line {number} speaks of the words in stores; the oracle has values there")
}

fn say(text: impl Into<String>) -> Said {
    Ok(text.into().into_bytes())
}

/// What emission answers.
fn done(number: usize) -> Said {
    say(format!("done {number}\n"))
}

/// What an entry that only looks answers.
fn told(number: u16) -> Said {
    say(format!("number {number}\n"))
}

fn shown(value: &Value) -> Said {
    say(format!("shown {}\n", value_text(value)))
}

/// 17 if the bytes are more than the room, of which the console has no more
/// than its space.
fn fitting(bytes: Vec<u8>, room: usize) -> Result<Vec<u8>, Refused> {
    if bytes.len() > room.min(SPACE) {
        return Err(Refused::ResultStore);
    }
    Ok(bytes)
}

fn entries(backtrace: &[Entry]) -> String {
    backtrace.iter().map(entry_line).collect()
}

/// What a part answers, in a line and the backtrace.
pub fn said_of(part: &Part, stack: usize, frames: usize) -> String {
    let left = format!("stack {stack}, frames {frames}");
    match part {
        Part::Paused { spent, returns } => {
            format!("paused, spent {spent}, returns {returns}, {left}\n")
        }
        Part::Over(report) => format!(
            "{}, spent {}, returns {}, {left}\n{}",
            ending(report),
            report.spent,
            report.returns,
            entries(&report.backtrace)
        ),
    }
}

fn ending(report: &Report) -> String {
    match &report.answer {
        Answer::Value(value) => format!("value {}", value_text(value)),
        Answer::Continue => "continue".to_owned(),
        Answer::Fault(number) => format!("fault {number}"),
    }
}
