//! The edges among the calls of scripts. They are measured, so that a reader
//! can see how many there are of each.
//!
//! 22 comes up for units alone: the console's stores are the runner's, and full
//! long before another limit (8,192 bytes of code for 65,535, 256 constants for
//! 65,535 and so on), and a line says at most 16,384 bytes of an image.

use crate::command::Command;
use crate::console::Console;
use crate::limits::{Answer, Machine, Part, Report, Stores};
use crate::run_record::RunRecord;
use crate::script::lines;
use crate::value::Value;

const FAULTS: [u32; 15] = [1, 2, 3, 4, 5, 6, 7, 8, 9, 10, 11, 12, 13, 14, 26];
const REFUSALS: [u32; 15] = [1, 3, 5, 6, 7, 14, 16, 17, 18, 19, 20, 21, 22, 23, 25];

/// What is looked for beside those numbers.
#[derive(Clone, Copy, Debug, PartialEq, Eq)]
pub enum Edge {
    CopyTooShort,
    TraceTooShort,
    BytesTooShort,
    DefinedAnew,
    CalledAnew,
    StructBuilt,
    CalleeGrew,
    CalleeEnteredInside,
    FramesPut,
    ImageOverStack,
    ImageOverLast,
    ImageOverCells,
    ImageOverCallees,
    ImageOverCurrent,
    BrokenOverUsed,
    SeveralReturns,
    FaultBehindReturn,
    PausedWithNone,
    PausedWithSome,
    PausedInCallee,
    PausedByNothing,
    EndAfterPause,
    FaultAfterPause,
    ValueOfEarlierPart,
    AbandonedUngiven,
    AbandonedWithSome,
    AbandonedInCallee,
    AbandonedBehindReturn,
    OverAtOnce,
    OverAtOnceInCallee,
    BegunAfterAbandon,
    FramesPutInPause,
    PlaceBeyondInPause,
    EnteredBeyond,
    EnteredBeforeCaller,
    BegunOverEntered,
    EnteredTold,
    LookInPause,
    ContinueWithoutRun,
    AbandonWithoutRun,
    EmissionInPause,
    PatchInPause,
    EndInPause,
    ImageInPause,
    NewInPause,
    BeginInPause,
    StrictInPause,
    ImageOverStrict,
    BrokenOverStrict,
    PartTooShort,
    RunDamaged,
    GoesOnDamaged,
}

use Edge::*;

const EDGES: [(Edge, &str); 52] = [
    (CopyTooShort, "refused 17, a copy store"),
    (TraceTooShort, "refused 17, a backtrace store"),
    (BytesTooShort, "refused 17, a store for bytes"),
    (DefinedAnew, "a function defined anew after a run"),
    (
        CalledAnew,
        "a function defined anew after a run, called by name",
    ),
    (StructBuilt, "a struct added after a run, built"),
    (CalleeGrew, "a run that goes on in a callee whose code grew"),
    (
        CalleeEnteredInside,
        "such a run that enters the new code in its middle",
    ),
    (
        FramesPut,
        "a run with callees that the host put over values",
    ),
    (ImageOverStack, "an image loaded over values on the stack"),
    (ImageOverLast, "an image loaded over a last result"),
    (ImageOverCells, "an image loaded over cells that are taken"),
    (ImageOverCallees, "an image loaded over callees"),
    (
        ImageOverCurrent,
        "an image loaded while main is not current",
    ),
    (
        BrokenOverUsed,
        "a broken image refused by a machine that has run",
    ),
    (SeveralReturns, "a run of several root Returns"),
    (FaultBehindReturn, "a fault behind a root Return"),
    (PausedWithNone, "paused with no unit left"),
    (
        PausedWithSome,
        "paused with units left, before a comparison",
    ),
    (PausedInCallee, "paused in a callee"),
    (PausedByNothing, "continued with no units, and paused again"),
    (EndAfterPause, "a run that was paused came to its end"),
    (FaultAfterPause, "a run that was paused faulted"),
    (
        ValueOfEarlierPart,
        "a value that an earlier part had returned",
    ),
    (AbandonedUngiven, "abandoned with nothing given"),
    (AbandonedWithSome, "abandoned with units left"),
    (AbandonedInCallee, "abandoned in a callee"),
    (AbandonedBehindReturn, "abandoned behind a root Return"),
    (OverAtOnce, "a run over at once at the end of main"),
    (OverAtOnceInCallee, "a run over at once in a callee"),
    (
        BegunAfterAbandon,
        "a run begun behind one that was abandoned",
    ),
    (
        FramesPutInPause,
        "a run continued with frames put in a pause",
    ),
    (
        PlaceBeyondInPause,
        "refused 19, an end of code at which no run can be under way",
    ),
    (
        EnteredBeyond,
        "refused 19, a frame entered at more units than are spent",
    ),
    (
        EnteredBeforeCaller,
        "refused 19, a frame entered before its caller",
    ),
    (
        BegunOverEntered,
        "a run begun over frames that an earlier one entered",
    ),
    (EnteredTold, "a fault's backtrace with calls at some units"),
    (LookInPause, "a listing, an image or a backtrace in a pause"),
    (ContinueWithoutRun, "refused 18, continuing"),
    (AbandonWithoutRun, "refused 18, abandoning"),
    (EmissionInPause, "refused 25, emitting"),
    (PatchInPause, "refused 25, patching"),
    (EndInPause, "refused 25, ending a function"),
    (ImageInPause, "refused 25, loading"),
    (NewInPause, "refused 25, a new machine"),
    (BeginInPause, "refused 25, beginning a run"),
    (StrictInPause, "refused 25, making strict or not strict"),
    (ImageOverStrict, "an image loaded over a strict machine"),
    (
        BrokenOverStrict,
        "a broken image refused by a strict machine that has run",
    ),
    (PartTooShort, "refused 17, a backtrace store of a part"),
    (RunDamaged, "refused 19, a damaged word of a run"),
    (
        GoesOnDamaged,
        "a run continued with a word that was damaged in good order",
    ),
];

/// Each number and each edge, and how often it comes up, in a fixed order.
pub fn tally(scripts: impl Iterator<Item = String>) -> Vec<(String, u64)> {
    let mut names: Vec<String> = FAULTS.map(|n| format!("fault {n}")).to_vec();
    names.extend(REFUSALS.map(|n| format!("refused {n}")));
    names.extend(EDGES.map(|(_, words)| words.to_owned()));
    let mut out: Vec<(String, u64)> = names.into_iter().map(|name| (name, 0)).collect();
    for script in scripts {
        let mut watch = Watch::default();
        for (_, line) in lines(script.as_bytes(), 1) {
            for found in watch.line(line) {
                let entry = out.iter_mut().find(|(name, _)| *name == found);
                entry.expect("all are listed").1 += 1;
            }
        }
    }
    out
}

/// A console, and what was so when its machine last ran.
#[derive(Default)]
struct Watch {
    console: Console,
    /// None before the first run of a machine.
    ran: Option<Ran>,
    /// The machine when the run under way was begun, and whether the host had
    /// put its frames.
    begun: Option<(Machine, bool)>,
    frames_put: bool,
    abandoned: bool,
}

struct Ran {
    functions: usize,
    structs: usize,
    /// The function in which the run ended, and the length of its code.
    ended_in: (usize, usize),
}

impl Watch {
    /// What is found in a line and in its answer.
    fn line(&mut self, line: &[u8]) -> Vec<String> {
        let command = Command::read(line);
        let mut edges = self.before(&command);
        let before = self.console.machine().cloned();
        let said = self.console.obey(0, line).expect("a script is understood");
        let said = String::from_utf8_lossy(&said);
        let first = said.split([',', '\n']).next().unwrap_or_default();
        edges.extend(self.after(&command, before, first));
        let named = |edge: &Edge| EDGES.iter().find(|(e, _)| e == edge);
        let words = edges.iter().filter_map(named).map(|(_, w)| w.to_string());
        words.chain(number_of(first)).collect()
    }

    /// Edges that are seen before a call is made.
    fn before(&mut self, command: &Command) -> Vec<Edge> {
        let machine = self.console.machine();
        match (command, &self.ran, machine) {
            (Command::Begin(name), Some(ran), Some(machine)) if machine.under_way.is_none() => {
                let known = &machine.program.functions[..ran.functions];
                let anew = known.iter().any(|function| function.name == *name);
                if_so(anew, DefinedAnew)
            }
            (Command::Start(_) | Command::Continue(..) | Command::Abandon(_), _, _) => {
                let lent = self.console.as_lent();
                lent.map_or(vec![], |machine| self.part(command, machine))
            }
            _ => vec![],
        }
    }

    /// Edges of a part of a run, which is made on a machine of its own.
    fn part(&mut self, command: &Command, before: Machine) -> Vec<Edge> {
        let mut after = before.clone();
        match *command {
            Command::Start(room) if room >= Stores::RUNNER.values => {
                let Ok(part) = after.begin_run() else {
                    return vec![];
                };
                let entered = before.frames.iter().any(|frame| frame.entered > 0);
                self.begun = Some((before, self.frames_put));
                let mut edges = [
                    if_so(self.abandoned, BegunAfterAbandon),
                    if_so(entered, BegunOverEntered),
                ]
                .concat();
                edges.extend(match part {
                    Part::Over(report) if after.frames.len() > 1 => {
                        [vec![OverAtOnceInCallee], self.over(&report, &after)].concat()
                    }
                    Part::Over(report) => [vec![OverAtOnce], self.over(&report, &after)].concat(),
                    Part::Paused { .. } => vec![],
                });
                edges
            }
            Command::Continue(units, room) if room >= Stores::RUNNER.frames => {
                let paused = before
                    .under_way
                    .as_ref()
                    .map_or((0, 0), |run| (run.given, run.returns));
                let Ok(part) = after.continue_run(units) else {
                    return vec![];
                };
                let mut edges = [
                    if_so(self.frames_put, FramesPutInPause),
                    if_so(self.run_damaged(), GoesOnDamaged),
                ]
                .concat();
                edges.extend(match part {
                    Part::Over(report) => {
                        [ended(paused, &report), self.over(&report, &after)].concat()
                    }
                    Part::Paused { .. } => still_paused(units, &after),
                });
                edges
            }
            Command::Abandon(room) if room >= Stores::RUNNER.frames => match after.abandon_run() {
                Ok(report) => [abandoned(&before), self.over(&report, &after)].concat(),
                Err(_) => vec![],
            },
            _ => vec![],
        }
    }

    /// Edges of a whole run.
    fn over(&self, report: &Report, after: &Machine) -> Vec<Edge> {
        let Some((before, frames_put)) = &self.begun else {
            return vec![];
        };
        let faulted = matches!(report.answer, Answer::Fault(_));
        let put = *frames_put && before.frames.len() > 1 && !before.stack.is_empty();
        let mut edges = [
            if_so(report.returns > 1, SeveralReturns),
            if_so(faulted && report.returns > 0, FaultBehindReturn),
            if_so(put, FramesPut),
            if_so(
                report.backtrace.iter().any(|entry| entry.entered > 0),
                EnteredTold,
            ),
        ]
        .concat();
        if let Some(ran) = &self.ran {
            edges.extend(since(ran, before, report, after));
        }
        edges
    }

    /// Edges that an answer shows; and what is noted for the next.
    fn after(&mut self, command: &Command, before: Option<Machine>, said: &str) -> Vec<Edge> {
        let in_pause = before
            .as_ref()
            .is_some_and(|machine| machine.under_way.is_some());
        match (said, command) {
            ("refused 17", Command::Start(_)) => return vec![CopyTooShort],
            ("refused 17", Command::Continue(..) | Command::Abandon(_)) => {
                return vec![PartTooShort]
            }
            ("refused 17", Command::Trace(_)) => return vec![TraceTooShort],
            ("refused 17", _) => return vec![BytesTooShort],
            ("refused 18", Command::Continue(..)) => return vec![ContinueWithoutRun],
            ("refused 18", _) => return vec![AbandonWithoutRun],
            ("refused 19", _) if in_pause && self.console.stands_beyond() => {
                return vec![PlaceBeyondInPause]
            }
            ("refused 19", _) if self.console.enters_beyond() => return vec![EnteredBeyond],
            ("refused 19", _) if self.console.enters_before_its_caller() => {
                return vec![EnteredBeforeCaller]
            }
            ("refused 19", _) => return if_so(self.run_damaged(), RunDamaged),
            ("refused 25", command) => return vec![refused_in_pause(command)],
            _ => {}
        }
        match command {
            Command::Image(_) => {
                let used = before.filter(|_| self.ran.is_some());
                let broken = said.starts_with("broken");
                if !broken {
                    self.forget();
                }
                used.map_or(vec![], |machine| match broken {
                    true => [
                        vec![BrokenOverUsed],
                        if_so(machine.strict, BrokenOverStrict),
                    ]
                    .concat(),
                    false => over(&machine),
                })
            }
            Command::New => {
                self.forget();
                vec![]
            }
            Command::PutFrame(..) | Command::CountFrames(_) => {
                self.frames_put = true;
                vec![]
            }
            Command::Start(_) | Command::Continue(..) | Command::Abandon(_)
                if !said.starts_with("refused") =>
            {
                if said != "paused" {
                    self.ran = self.console.machine().map(Ran::of);
                    self.begun = None;
                    self.abandoned = matches!(command, Command::Abandon(_));
                }
                self.frames_put = false;
                vec![]
            }
            Command::Save(_) | Command::List(_) | Command::Trace(_) => if_so(in_pause, LookInPause),
            _ => vec![],
        }
    }

    /// Whether the host holds other words of a run than a call has left.
    fn run_damaged(&self) -> bool {
        let machine = self.console.machine();
        machine.is_some_and(|machine| self.console.run_record() != RunRecord::of(machine))
    }

    /// A machine that has not run.
    fn forget(&mut self) {
        self.ran = None;
        self.frames_put = false;
        self.abandoned = false;
    }
}

/// A run that had been paused, with so many units given and root Returns
/// completed, is over.
fn ended((given, returns): (u64, u64), report: &Report) -> Vec<Edge> {
    let paused = given > 0;
    match report.answer {
        Answer::Fault(_) => if_so(paused, FaultAfterPause),
        _ => [
            if_so(paused, EndAfterPause),
            if_so(returns > 0 && report.returns == returns, ValueOfEarlierPart),
        ]
        .concat(),
    }
}

fn still_paused(units: u64, after: &Machine) -> Vec<Edge> {
    let left = after.under_way.as_ref().map_or(0, |run| run.units_left());
    [
        if_so(left == 0, PausedWithNone),
        if_so(left > 0, PausedWithSome),
        if_so(after.frames.len() > 1, PausedInCallee),
        if_so(units == 0, PausedByNothing),
    ]
    .concat()
}

fn abandoned(before: &Machine) -> Vec<Edge> {
    let Some(run) = &before.under_way else {
        return vec![];
    };
    [
        if_so(run.given == 0, AbandonedUngiven),
        if_so(run.units_left() > 0, AbandonedWithSome),
        if_so(before.frames.len() > 1, AbandonedInCallee),
        if_so(run.returns > 0, AbandonedBehindReturn),
    ]
    .concat()
}

fn refused_in_pause(command: &Command) -> Edge {
    match command {
        Command::Image(_) => ImageInPause,
        Command::New => NewInPause,
        Command::Start(_) => BeginInPause,
        Command::Patch(..) => PatchInPause,
        Command::End => EndInPause,
        Command::Strict(_) => StrictInPause,
        _ => EmissionInPause,
    }
}

impl Ran {
    fn of(machine: &Machine) -> Ran {
        let innermost = machine.frames.last().expect("there is always a frame");
        let functions = &machine.program.functions;
        Ran {
            functions: functions.len(),
            structs: machine.program.structs.len(),
            ended_in: (innermost.function, functions[innermost.function].code.len()),
        }
    }
}

fn if_so(so: bool, edge: Edge) -> Vec<Edge> {
    if so {
        vec![edge]
    } else {
        vec![]
    }
}

/// What a run meets that was emitted since the last one.
fn since(ran: &Ran, before: &Machine, report: &Report, after: &Machine) -> Vec<Edge> {
    let functions = &before.program.functions;
    let known = &functions[..ran.functions];
    let anew =
        |f: &usize| *f >= ran.functions && known.iter().any(|old| old.name == functions[*f].name);
    let is_new = |value: &Value| matches!(value, Value::StructInstance(n, _) if *n >= ran.structs);
    let innermost = before.frames.last().expect("there is always a frame");
    let (function, length) = ran.ended_in;
    let grew = before.frames.len() > 1
        && innermost.function == function
        && functions[function].code.len() > length
        && innermost.position < functions[function].code.len();
    [
        if_so(report.by_name.iter().any(anew), CalledAnew),
        if_so(
            after.stack.iter().chain(&after.last_result).any(is_new),
            StructBuilt,
        ),
        if_so(grew, CalleeGrew),
        if_so(grew && innermost.position > length, CalleeEnteredInside),
    ]
    .concat()
}

/// What an image is loaded over.
fn over(machine: &Machine) -> Vec<Edge> {
    [
        if_so(!machine.stack.is_empty(), ImageOverStack),
        if_so(machine.last_result.is_some(), ImageOverLast),
        if_so(machine.cells_used > 0, ImageOverCells),
        if_so(machine.frames.len() > 1, ImageOverCallees),
        if_so(machine.current != 0, ImageOverCurrent),
        if_so(machine.strict, ImageOverStrict),
    ]
    .concat()
}

/// `fault N` or `refused N`; a broken image is refused 20.
fn number_of(said: &str) -> Option<String> {
    if said.starts_with("broken ") {
        return Some("refused 20".to_owned());
    }
    let number = said.starts_with("fault ") || said.starts_with("refused ");
    number.then(|| said.to_owned())
}
