//! The oracle's command line.

use std::collections::BTreeMap;
use std::io::{Read, Write};
use std::process::ExitCode;

use oracle::limits::Answer;
use oracle::plain::Ending;
use oracle::print::{self, value_text};
use oracle::published::{self, Count, State};
use oracle::vm::Bounds;
use oracle::{
    asm, calls, check, checked_runs, console, damage, dealt, edges, generate, generate_checked,
    image, script, source,
};

const HELP: &str = "\
oracle: source document 000 (numbat's vm.rs) as published; the same written again
over f64, the plain machine; and document 01's machine, written for itself

  oracle run FILE               what the runner prints
  oracle run --strict FILE      what it would print, were its machine strict
  oracle list FILE              what the lister prints
  oracle list --notes FILE      what the noter prints
  oracle judge FILE             `ok`, or `refused 20 OFFSET`; also checks that
                                the image of what was read is FILE again
  oracle asm FILE [-o IMAGE]    the image of a rule source (examples/README.md), on
                                standard output or in a file, which is replaced
                                by a whole image or not at all
  oracle source FILE            a rule source from which asm makes the image FILE
  oracle sources SEED COUNT FILE..
                                makes a source of each of COUNT generated images
                                and of the images FILE, and an image of it: one
                                line for each that does not come back, and a count
  oracle rust FILE              what the published Rust does: its answer, error or
                                panic, and stack, frames and last result after
  oracle published SEED COUNT   runs and lists generated images on the published
                                Rust and compares with the plain machine
                                (answer, error or panic, and what is left) and,
                                where no limit comes in, with document 01's
                                machine: each difference, and a count
  oracle published-calls SEED COUNT
                                the same for the scripts of `calls` of COUNT
                                seeds: what is emitted, and each run
  oracle generate SEED COUNT DIR
                                writes images DIR/000000.img and so on
  oracle sample SEED COUNT      runs generated images, counts their endings
  oracle load FILE              what loading answers: `loaded` and the numbers of
                                constants, structs and functions and the bytes
                                of text; or `refused N`, 20 with its offset
  oracle batch SEED COUNT       the records of generated images, on standard
                                output
  oracle records FILE           counts the records of a file by how loading, running
                                and listing ended
  oracle tally SEED COUNT       counts those of the same images at which a size is
                                full, one short or one over, or a number of the
                                image none or very large
  oracle damage STEP            the records of damaged small images: names and
                                runs in every way, and bytes in each STEP-th
                                way (1: in every way)
  oracle check [FILE]           what the check of an image before it is installed
                                says: `passed` and `height FUNCTION N` for each
                                function; or `refused N`, 20 with `at OFFSET`,
                                40 with `rule R function F`
  oracle checks SEED COUNT      the records of generated images for the check, on
                                standard output: two parts each, the image and
                                what `check` prints
  oracle checked-runs SEED COUNT [UNITS]
                                checks the same images and runs those that pass
                                with so many units (10,000): how many passed or
                                were refused by each rule, how the runs ended,
                                and each breach of what a pass promises
  oracle dealt SEED COUNT       makes COUNT runs of generated images, each given its
                                units in parts dealt out by chance, some of them
                                of none, half of them on strict machines, and
                                compares with one run given the sum: answer,
                                units, root Returns, backtrace, stack, frames,
                                last result, cells; a count of what came up, and
                                each difference
  oracle dealt-script SEED      a script for the console of some hundreds of such
                                runs, each begun by `start`
  oracle dealt-answers SEED     what the console has to answer: of each part by the
                                undivided run given the units of all parts so
                                far, paused where that run ends in 13
  oracle strict-script SEED     a script for the console of whole runs of generated
                                images on strict machines, each begun by `start`
                                and given 1,000,000 units
  oracle strict-answers SEED    what the console has to answer
  oracle console [LINE]         plays a script of host calls from standard input
                                and prints what the console prints for it; LINE
                                is the number of its first line (1)
  oracle calls SEED [BYTES]     a script for the console, made by chance from
                                the seed, of at most BYTES bytes (48,000)
  oracle calls-tally SEED COUNT counts the faults, the refusals and the edges among
                                the calls of the scripts of COUNT seeds

A record is the lengths of four parts (each u32, low byte first) and then the
parts: the image, what `load` prints, what the runner prints, what the lister
prints. Records stand one behind the other up to the end.

The console's commands are those at the head of crates/console/stdin (`begin` begins
a function). Those of a run, with what they are refused, in this order:

  start, start ROOM             begins a run, and takes no units: 19, 25, and 17
                                if ROOM, the places of the copy store, are
                                fewer than the stack store's 1,024
  continue UNITS, continue UNITS ROOM
                                goes on with UNITS more: 19, 18, 17 if ROOM, the
                                places of the backtrace store, are fewer than
                                the frame store's 256, and 22 if the units
                                given in all pass 64 bits
  abandon, abandon ROOM         ends the run in fault 13: 19, 18, 17 as above

Without ROOM the whole store is lent. The answer is a line

  paused, spent N, returns N, stack N, frames N
  value VALUE, spent N, returns N, stack N, frames N
  continue, spent N, returns N, stack N, frames N
  fault N, spent N, returns N, stack N, frames N
  refused N

and behind a fault `at FUNCTION PLACE ENTERED` per frame, innermost first, ENTERED
being the units that the run had spent when the frame was entered. `spent` and
`returns`, the root Returns, are the whole run's, of a paused one those so far. While
a run is under way each command of emission, `image` and `new` is refused 25.
oracle/tests/parts.script has each of these, parts.answers what is answered.

  frame I                       shows a frame: `frame FUNCTION POSITION BASE ENTERED`
  frame I FUNCTION POSITION BASE ENTERED
                                puts one, and is not answered; each number is below
                                2^48. Frames are not in good order, 19, where
                                ENTERED falls from the root inwards, or is above
                                what the run under way has spent
  strict 0, strict 1            makes the machine one that is not strict, or one that
                                is: 19, as a part of a run; 25. `done`. Loading
                                and `new` leave one that is not
  trace, trace ROOM             the host's own backtrace, in the same lines: 19 of
                                the frames, nothing being asked of a run; 17, 16

A host may damage the words of a run: `count on N` (0, or else 1: whether one is under
way), `count given N`, `count spent N`, `count returns N`, `count mark N` (the cells
taken at its last root Return, or at its start), `count saved N` (the values of
the copy).

The console stops where the oracle cannot tell the answer: at `sum`, `poke`, `result`
and the counts of stores other than the frames', which speak of the words in
stores, at a mark or at copied values that would take those words, and at a frame
past those that a call has left.

A script of `calls` has one story of each sort (each fault, the stores full and
one over, frames damaged, patches, names, lines not understood, an image, a
function defined anew, a struct added, a callee's code that grows, frames put over
values, an image over a machine that has run, units dealt out among comparisons,
runs abandoned, what is refused in a pause, a run begun in a callee, the words of
a run damaged, calls inside calls and when they began, arithmetic on strict
machines), then any, emitted programs too. The units of most runs come in parts,
none now and then, and some machines are strict.
From 40,000 bytes on it begins with a long one: the text store is filled for seeds
0, 4, 8 .., main's code for 1, 5 .., the others' code for 2, 6 .., constants,
structs and functions for 3, 7 ..

FILE may be - for standard input. The plain machine and the published Rust are
stopped after 2,000,000 steps, at a nesting of 1,000 (plain) or at a struct of more
than 10,000 values (published), which the Rust would not be by itself.

The published Rust is numbat's vm.rs, list.rs and value.rs, unchanged, over
stand-ins for what they name (oracle/numbat). It casts any byte to an opcode; it
is stopped before a byte that is none, and before an opcode that is not carried.
";

/// The bytes of a script, if nobody says how many.
const CALLS: usize = 48_000;

fn main() -> ExitCode {
    let arguments: Vec<String> = std::env::args().skip(1).collect();
    let arguments: Vec<&str> = arguments.iter().map(String::as_str).collect();
    if let Some(status) = author(&arguments) {
        return status;
    }
    let done = match arguments.as_slice() {
        ["run", "--strict", file] => {
            read(file).and_then(|bytes| put(print::strict_runner(&bytes).as_bytes()))
        }
        ["run", file] => read(file).and_then(|bytes| put(print::runner(&bytes).as_bytes())),
        ["list", "--notes", file] => read(file).and_then(|bytes| put(&print::noter(&bytes))),
        ["list", file] => read(file).and_then(|bytes| put(&print::lister(&bytes))),
        ["judge", file] => read(file).and_then(|bytes| judge(&bytes)),
        ["rust", file] => read(file).and_then(|bytes| rust(&bytes)),
        ["generate", seed, count, dir] => numbers(seed, count).and_then(|(s, c)| write(s, c, dir)),
        ["sample", seed, count] => numbers(seed, count).and_then(|(s, c)| sample(s, c)),
        ["load", file] => read(file).and_then(|bytes| put(print::loader(&bytes).as_bytes())),
        ["batch", seed, count] => numbers(seed, count)
            .and_then(|(s, c)| records((0..c).map(|index| generate::case(s, index)))),
        ["records", file] => read(file).and_then(|bytes| count_records(&bytes)),
        ["tally", seed, count] => numbers(seed, count).and_then(|(s, c)| tally(s, c)),
        ["damage", step] => {
            number(step).and_then(|step| records(damage::each(step.max(1) as usize).into_iter()))
        }
        ["check"] => read("-").and_then(|bytes| put(check::text(&bytes).as_bytes())),
        ["check", file] => read(file).and_then(|bytes| put(check::text(&bytes).as_bytes())),
        ["checks", seed, count] => numbers(seed, count).and_then(|(s, c)| checks(s, c)),
        ["checked-runs", seed, count] => {
            numbers(seed, count).and_then(|(s, c)| checked_runs(s, c, checked_runs::UNITS))
        }
        ["checked-runs", seed, count, units] => numbers(seed, count)
            .and_then(|(s, c)| number(units).and_then(|units| checked_runs(s, c, units))),
        ["dealt", seed, count] => numbers(seed, count).and_then(|(s, c)| dealt(s, c)),
        ["dealt-script", seed] => number(seed).and_then(|s| put(dealt_script(s).script.as_bytes())),
        ["dealt-answers", seed] => {
            number(seed).and_then(|s| put(dealt_script(s).answers.as_bytes()))
        }
        ["strict-script", seed] => {
            number(seed).and_then(|s| put(strict_script(s).script.as_bytes()))
        }
        ["strict-answers", seed] => {
            number(seed).and_then(|s| put(strict_script(s).answers.as_bytes()))
        }
        ["console"] => read("-").and_then(|script| console(&script, 1)),
        ["console", first] => {
            number(first).and_then(|first| read("-").and_then(|script| console(&script, first)))
        }
        ["calls", seed] => number(seed).and_then(|s| put(calls::script(s, CALLS).as_bytes())),
        ["calls", seed, bytes] => numbers(seed, bytes)
            .and_then(|(s, bytes)| put(calls::script(s, bytes as usize).as_bytes())),
        ["calls-tally", seed, count] => numbers(seed, count).and_then(|(s, c)| {
            counts(calls::tally::tally(
                (s..s + c).map(|seed| calls::script(seed, CALLS)),
            ))
        }),
        ["published", seed, count] => {
            numbers(seed, count).and_then(|(s, c)| judged("images", c, published::images(s, c)))
        }
        ["published-calls", seed, count] => {
            numbers(seed, count).and_then(|(s, c)| judged("scripts", c, published::calls(s, c)))
        }
        [] | ["help" | "--help" | "-h"] => put(HELP.as_bytes()),
        _ => Err(format!("not understood\n\n{HELP}")),
    };
    match done {
        Ok(()) => ExitCode::SUCCESS,
        Err(words) => {
            eprintln!("oracle: {words}");
            ExitCode::FAILURE
        }
    }
}

type Done = Result<(), String>;

fn read(file: &str) -> Result<Vec<u8>, String> {
    if file == "-" {
        let mut bytes = vec![];
        let read = std::io::stdin().lock().read_to_end(&mut bytes);
        read.map(|_| bytes)
            .map_err(|e| format!("standard input: {e}"))
    } else {
        std::fs::read(file).map_err(|e| format!("{file}: {e}"))
    }
}

fn put(bytes: &[u8]) -> Done {
    let mut out = std::io::stdout().lock();
    out.write_all(bytes)
        .and_then(|()| out.flush())
        .map_err(|e| format!("standard output: {e}"))
}

fn numbers(seed: &str, count: &str) -> Result<(u64, u64), String> {
    Ok((number(seed)?, number(count)?))
}

fn number(text: &str) -> Result<u64, String> {
    text.parse().map_err(|_| format!("{text}: not a number"))
}

fn judge(bytes: &[u8]) -> Done {
    match image::parse(bytes) {
        Err(offset) => put(format!("refused 20 {offset}\n").as_bytes()),
        Ok(program) if image::image(&program) == bytes => put(b"ok\n"),
        Ok(_) => Err("the image of what was read differs from what was read".to_owned()),
    }
}

/// The commands of those who write rules. Their statuses are those of
/// `./chaffwheel`: 4 refused, 5 trouble with files, 6 a difference.
fn author(arguments: &[&str]) -> Option<ExitCode> {
    let done = match arguments {
        ["asm", file] => assemble(file, "-"),
        ["asm", file, "-o", image] => assemble(file, image),
        ["source", file] => write_source(file),
        ["sources", seed, count, files @ ..] => sources(seed, count, files),
        _ => return None,
    };
    Some(match done {
        Ok(status) => ExitCode::from(status),
        Err(words) => {
            eprintln!("oracle: {words}");
            ExitCode::from(5)
        }
    })
}

/// How many errors of a source are shown; all are counted.
const ERRORS: usize = 20;

fn assemble(file: &str, to: &str) -> Result<u8, String> {
    let errors = match asm::assemble(&read(file)?) {
        Ok(program) => {
            let image = image::image(&program);
            match to {
                "-" => put(&image)?,
                _ => replace(to, &image)?,
            }
            return Ok(0);
        }
        Err(errors) => errors,
    };
    for error in errors.iter().take(ERRORS) {
        eprintln!("{file}, {error}");
    }
    if errors.len() > 1 {
        let shown = errors.len().min(ERRORS);
        eprintln!("{file}: {} errors, {shown} shown", errors.len());
    }
    Ok(4)
}

/// Writes a file beside and puts it in place when it is whole.
fn replace(path: &str, bytes: &[u8]) -> Done {
    let beside = format!("{path}.{}.new", std::process::id());
    let written = std::fs::write(&beside, bytes).and_then(|()| std::fs::rename(&beside, path));
    written.map_err(|error| {
        let _ = std::fs::remove_file(&beside);
        format!("{path}: {error}")
    })
}

fn write_source(file: &str) -> Result<u8, String> {
    match image::parse(&read(file)?) {
        Ok(program) => put(source::source(&program).as_bytes()).map(|()| 0),
        Err(offset) => {
            eprintln!("{file}: refused 20 at {offset}, so it has no source");
            Ok(4)
        }
    }
}

fn sources(seed: &str, count: &str, files: &[&str]) -> Result<u8, String> {
    let (seed, count) = numbers(seed, count)?;
    let (mut sources, mut none, mut differ) = (0, 0, 0);
    let mut judge = |name: String, bytes: &[u8]| match source::comes_back(bytes) {
        None => {
            none += 1;
            Ok(())
        }
        Some(true) => {
            sources += 1;
            Ok(())
        }
        Some(false) => {
            differ += 1;
            put(format!("{name} does not come back\n").as_bytes())
        }
    };
    for file in files {
        judge((*file).to_owned(), &read(file)?)?;
    }
    for index in 0..count {
        judge(format!("image {index}"), &generate::case(seed, index))?;
    }
    put(format!(
        "{sources} images came back from their sources, {none} were no image, {differ} differences\n"
    )
    .as_bytes())?;
    Ok(if differ == 0 { 0 } else { 6 })
}

fn rust(bytes: &[u8]) -> Done {
    let program = match image::parse(bytes) {
        Ok(program) => program,
        Err(offset) => return put(format!("refused 20 {offset}\n").as_bytes()),
    };
    let mut vm = published::machine(&program);
    let mut out = match published::run(&mut vm, Bounds::default().steps) {
        Ending::Value(value) => format!("value {}\n", value_text(&value)),
        Ending::Continue => "continue\n".to_owned(),
        Ending::Error(error) => {
            let entries = error.backtrace.iter();
            let entries = entries.map(|(f, place)| format!("at {} {place}\n", f.escape_ascii()));
            format!("error: {:?}\n{}", error.kind, entries.collect::<String>())
        }
        Ending::Panicked(words) => format!("panicked: {words}\n"),
        Ending::UndefinedCast(byte) => format!("stopped: byte {byte} is no opcode\n"),
        Ending::NotCarried(op) => format!("stopped: {} is not carried\n", op.to_string()),
        Ending::Bound(which) => format!("stopped: too many {which}\n"),
    };
    let after = State::of_published(&vm);
    out += &format!("stack {}\n", after.stack.len());
    for frame in &after.frames {
        out += &format!(
            "frame {} {} {}\n",
            frame.function, frame.position, frame.base
        );
    }
    out += &match &after.last_result {
        Some(value) => format!("last {}\n", value_text(value)),
        None => "last none\n".to_owned(),
    };
    put(out.as_bytes())
}

/// What was printed before the oracle had to stop is printed all the same.
fn console(script: &[u8], first: u64) -> Done {
    let mut out = vec![];
    let played = console::play(script, first, &mut out);
    put(&out)?;
    played
}

fn write(seed: u64, count: u64, dir: &str) -> Done {
    std::fs::create_dir_all(dir).map_err(|e| format!("{dir}: {e}"))?;
    for index in 0..count {
        let path = format!("{dir}/{index:06}.img");
        std::fs::write(&path, generate::case(seed, index)).map_err(|e| format!("{path}: {e}"))?;
    }
    Ok(())
}

fn sample(seed: u64, count: u64) -> Done {
    let mut endings: BTreeMap<(u32, String), u64> = BTreeMap::new();
    for index in 0..count {
        let ending = match print::run(&generate::case(seed, index)) {
            Ok(ran) => match ran.report.answer {
                Answer::Value(_) => (0, "value".to_owned()),
                Answer::Continue => (0, "continue".to_owned()),
                Answer::Fault(number) => (number, format!("fault {number}")),
            },
            Err(refused) => (refused.number(), format!("refused {}", refused.number())),
        };
        *endings.entry(ending).or_default() += 1;
    }
    let mut out = String::new();
    for ((_, ending), count) in endings {
        out += &format!("{ending}: {count}\n");
    }
    put(out.as_bytes())
}

fn tally(seed: u64, count: u64) -> Done {
    counts(edges::tally(
        (0..count).map(|index| generate::case(seed, index)),
    ))
}

fn counts(counted: Vec<(String, u64)>) -> Done {
    let lines = counted
        .iter()
        .map(|(edge, count)| format!("{edge}: {count}\n"));
    put(lines.collect::<String>().as_bytes())
}

/// How often what was compared, each difference, and how many those are.
fn judged(what: &str, count: u64, counted: Count) -> Done {
    let mut out = String::new();
    for (compared, count) in &counted.compared {
        out += &format!("{compared}: {count}\n");
    }
    for difference in &counted.differences {
        out += &format!("{difference}\n");
    }
    let differences = counted.differences.len();
    put(format!("{out}{count} {what}, {differences} differences\n").as_bytes())?;
    if differences > 0 {
        return Err("the published Rust and the oracle differ".to_owned());
    }
    Ok(())
}

fn records(images: impl Iterator<Item = Vec<u8>>) -> Done {
    put_all(images.map(|image| print::record(&image)))
}

/// The parts of a record behind its image, and what their first lines are
/// counted as: all but a value, a continue, a fault or a refusal is one.
const PARTS: [(&str, &str); 3] = [("load", "loaded"), ("run", "value"), ("list", "a listing")];

fn count_records(mut bytes: &[u8]) -> Done {
    let mut endings: BTreeMap<(usize, String), u64> = BTreeMap::new();
    let mut records = 0;
    while !bytes.is_empty() {
        let mut parts = vec![];
        let (head, mut rest) = bytes.split_at_checked(16).ok_or("a record is cut short")?;
        for length in head.chunks_exact(4) {
            let length = u32::from_le_bytes(length.try_into().expect("four bytes"));
            let cut = rest.split_at_checked(length as usize);
            let (part, behind) = cut.ok_or("a record is cut short")?;
            parts.push(part);
            rest = behind;
        }
        for (index, (part, (_, otherwise))) in parts[1..].iter().zip(PARTS).enumerate() {
            let text = String::from_utf8_lossy(part);
            let mut words = text.split_whitespace();
            let ending = match words.next() {
                Some(word @ ("refused" | "fault")) => {
                    format!("{word} {}", words.next().unwrap_or_default())
                }
                Some("continue") => "continue".to_owned(),
                _ => otherwise.to_owned(),
            };
            *endings.entry((index, ending)).or_default() += 1;
        }
        records += 1;
        bytes = rest;
    }
    let mut out = format!("{records} records\n");
    for ((index, ending), count) in endings {
        out += &format!("{}: {ending}: {count}\n", PARTS[index].0);
    }
    put(out.as_bytes())
}

fn checks(seed: u64, count: u64) -> Done {
    put_all((0..count).map(|index| check::record(&generate_checked::case(seed, index))))
}

fn put_all(parts: impl Iterator<Item = Vec<u8>>) -> Done {
    let mut out = std::io::BufWriter::new(std::io::stdout().lock());
    for part in parts {
        out.write_all(&part)
            .map_err(|e| format!("standard output: {e}"))?;
    }
    out.flush().map_err(|e| format!("standard output: {e}"))
}

/// How many breaches or differences are shown; all are counted.
const BREACHES: usize = 20;

fn dealt_script(seed: u64) -> dealt::scripts::Scripted {
    dealt::scripts::scripted(seed, script::MAX_SCRIPT)
}

fn strict_script(seed: u64) -> dealt::scripts::Scripted {
    dealt::scripts::strict(seed, script::MAX_SCRIPT)
}

fn dealt(seed: u64, count: u64) -> Done {
    let counted = dealt::runs(seed, count);
    let mut out = String::new();
    for ((_, seen), count) in &counted.seen {
        out += &format!("{seen}: {count}\n");
    }
    for difference in counted.differences.iter().take(BREACHES) {
        out += &format!("{difference}\n");
    }
    let differences = counted.differences.len();
    put(format!("{out}{count} runs, {differences} differences\n").as_bytes())?;
    if differences > 0 {
        return Err("a run in parts and one given the sum differ".to_owned());
    }
    Ok(())
}

fn checked_runs(seed: u64, count: u64, units: u64) -> Done {
    let tally = checked_runs::tally(seed, count, units);
    let mut out = format!("images: {}\n", tally.images);
    out += &format!("passed rules 1 to 5: {}\n", tally.passed_rules_1_to_5());
    out += &format!("passed: {}\n", tally.passed);
    for (refusal, count) in &tally.refused {
        out += &format!("{refusal}: {count}\n");
    }
    for (ending, count) in &tally.endings {
        out += &format!("runs that ended in {ending}: {count}\n");
    }
    for violation in tally.violations.iter().take(BREACHES) {
        out += &format!("{violation}\n");
    }
    let violations = tally.violations.len();
    put(format!("{out}violations: {violations}\n").as_bytes())?;
    if violations > 0 {
        return Err("a passed program did what none may".to_owned());
    }
    Ok(())
}
