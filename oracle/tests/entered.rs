//! When each call began (document 02, Wish 8), sentence by sentence.

mod common;

use common::{entries, fault, machine, number, program};
use oracle::asm::assemble;
use oracle::image::{image, Constant};
use oracle::limits::{Answer, Machine, Part, Refused, Report, Stores};
use oracle::op::Op;
use oracle::print;

/// Constants 1 and 0, a reference to f1, and codes.
fn with(codes: &[&str]) -> Machine {
    let constants = [
        number(1.0),
        number(0.0),
        Constant::FunctionReference(b"f1".to_vec()),
    ];
    machine(&program(&constants, codes))
}

fn entered(machine: &Machine) -> Vec<u64> {
    machine.frames.iter().map(|frame| frame.entered).collect()
}

/// Begins a run and gives it units once; it is then paused.
fn paused(machine: &mut Machine, units: u64) {
    machine.begin_run().unwrap();
    let part = machine.continue_run(units).unwrap();
    assert!(matches!(part, Part::Paused { .. }), "{part:?}");
}

fn over(part: Part) -> Report {
    match part {
        Part::Over(report) => report,
        Part::Paused { .. } => panic!("{part:?}"),
    }
}

/// f1 divides by zero.
const DIVIDES: &str = "000000 000100 0B";

/// "the units the run had spent when it was entered, the Call's own included".
#[test]
fn the_calls_own_unit_is_among_those_spent() {
    // A Call as the first instruction: 1.
    let report = with(&["1C 01 00 00 00", DIVIDES]).run(99);
    assert_eq!((fault(&report), report.spent), (Some(8), 4));
    assert_eq!(entries(&report), [(1, 6, 1), (0, 4, 0)]);
    // CallCallable, behind the load of its reference: 2.
    let report = with(&["000200 1F 00 00 00 00", DIVIDES]).run(99);
    assert_eq!(entries(&report), [(1, 6, 2), (0, 7, 0)]);
    // One inside the other.
    let codes = ["000000 1C 01 00 00 00", "1C 02 00 00 00", DIVIDES];
    let report = with(&codes).run(99);
    assert_eq!(entries(&report), [(2, 6, 3), (1, 4, 2), (0, 7, 0)]);
}

/// Reading 44: the units of the whole run, pairs included, not steps.
#[test]
fn pairs_count_and_parts_do_not() {
    // Two lists of 1, 1 compared: 9 units in 7 steps; then the Call, the tenth.
    let list = "000000 000000 240200";
    let main = format!("{list} {list} 12 1C 01 00 00 00");
    let report = with(&[&main, DIVIDES]).run(99);
    assert_eq!(entries(&report), [(1, 6, 10), (0, 23, 0)]);
    for parts in [&[1; 13][..], &[8, 0, 5], &[9, 4], &[10, 3], &[13]] {
        let mut m = with(&[&main, DIVIDES]);
        m.begin_run().unwrap();
        let (last, first) = parts.split_last().unwrap();
        for units in first {
            let part = m.continue_run(*units).unwrap();
            assert!(matches!(part, Part::Paused { .. }), "{parts:?}");
        }
        let dealt = over(m.continue_run(*last).unwrap());
        assert_eq!(entries(&dealt), entries(&report), "{parts:?}");
    }
}

/// Reading 47: a Return into a frame leaves its number; the next call from there
/// has its own. A Call that faults adds no entry.
#[test]
fn a_return_leaves_the_callers_number() {
    // f1 calls f2, which returns; then f1 divides by zero.
    let codes = [
        "1C 01 00 00 00",
        "1C 02 00 00 00 000100 0B",
        "000000 000000 25",
    ];
    let mut m = with(&codes);
    paused(&mut m, 2);
    assert_eq!(entered(&m), [0, 1, 2]);
    m.continue_run(3).unwrap();
    assert_eq!(entered(&m), [0, 1]);
    let report = over(m.continue_run(99).unwrap());
    assert_eq!(entries(&report), [(1, 8, 1), (0, 4, 0)]);
    // f1 calls f2 twice: the second time at 6 units.
    let codes = [
        "1C 01 00 00 00",
        "1C 02 00 00 00 1C 02 00 00 00",
        "000000 25",
    ];
    let mut m = with(&codes);
    paused(&mut m, 5);
    assert_eq!(entered(&m), [0, 1, 5]);
    // Too few values for the Call of f2: fault 4, two entries.
    let report = with(&["1C 01 00 00 00", "1C 01 00 01 00"]).run(99);
    assert_eq!(fault(&report), Some(4));
    assert_eq!(entries(&report), [(1, 4, 1), (0, 4, 0)]);
    // The frames are full: as many entries as there are frames.
    let report = with(&["1C 01 00 00 00", "1C 01 00 00 00"]).run(999);
    assert_eq!((fault(&report), report.spent), (Some(10), 256));
    let told: Vec<u64> = report.backtrace.iter().map(|entry| entry.entered).collect();
    assert_eq!(told, (0..256).rev().collect::<Vec<u64>>());
}

/// "Recovery and loading leave 0 in the one frame."
#[test]
fn recovery_and_loading_leave_0() {
    let codes = ["1C 01 00 00 00", DIVIDES];
    let mut m = with(&codes);
    assert_eq!(entered(&m), [0]);
    m.run(99);
    assert_eq!(entered(&m), [0]);
    let mut m = with(&codes);
    paused(&mut m, 2);
    assert_eq!(entered(&m), [0, 1]);
    let report = m.abandon_run().unwrap();
    assert_eq!(entries(&report), [(1, 2, 1), (0, 4, 0)]);
    assert_eq!(entered(&m), [0]);
    assert_eq!(entered(&Machine::new(Stores::RUNNER).unwrap()), [0]);
}

/// Reading 45: "beginning a run sets it to 0 in the root and in frames left by an
/// earlier run". Until then they keep their numbers.
#[test]
fn a_beginning_sets_all_numbers_to_0() {
    // The run ends in f1, behind one load.
    let mut m = with(&["000000 1C 01 00 00 00", "000000"]);
    assert!(matches!(m.run(99).answer, Answer::Continue));
    assert_eq!(entered(&m), [0, 2]);
    let told = m.backtrace().unwrap();
    assert_eq!((told[0].entered, told[1].entered), (2, 0));
    // Over at once, and 0 all the same.
    let mut again = m.clone();
    assert!(matches!(
        over(again.begin_run().unwrap()).answer,
        Answer::Continue
    ));
    assert_eq!(entered(&again), [0, 0]);
    // With code emitted into the callee it goes on there, entered at 0.
    let mut m = Machine::new(Stores::RUNNER).unwrap();
    for constant in [number(1.0), number(0.0)] {
        m.add_constant(constant).unwrap();
    }
    m.add_op2(Op::Call, 1, 0, 10).unwrap();
    m.begin_function(b"f").unwrap();
    m.add_op1(Op::LoadConstant, 0, 20).unwrap();
    m.run(99);
    assert_eq!(entered(&m), [0, 1]);
    m.add_op1(Op::LoadConstant, 1, 21).unwrap();
    m.add_op(Op::Divide, 22).unwrap();
    let mut one = m.clone();
    let report = m.run(99);
    assert_eq!((fault(&report), report.spent), (Some(8), 2));
    assert_eq!(entries(&report), [(1, 22, 0), (0, 10, 0)]);
    assert_eq!(entries(&one.one_run(99)), entries(&report));
    // The root of a forged machine too.
    let mut m = with(&["000000 25"]);
    m.frames[0].entered = 7;
    m.begin_run().unwrap();
    assert_eq!(entered(&m), [0]);
}

/// A beginning that is refused changes none.
#[test]
fn a_refused_beginning_leaves_the_numbers() {
    let mut m = with(&["1C 01 00 00 00", DIVIDES]);
    paused(&mut m, 1);
    assert_eq!(m.begin_run().err(), Some(Refused::UnderWay));
    assert_eq!(entered(&m), [0, 1]);
}

/// "the runner prints it as a third number after `at`".
#[test]
fn the_runner_prints_it() {
    let codes = ["000000 1C 01 00 00 00", DIVIDES];
    let image = image(&with(&codes).program);
    let text = "fault 8\nspent 5\nstack 0\nat 1 6 2\nat 0 7 0\n";
    assert_eq!(print::runner(&image), text);
}

/// The rows of the table of examples that tell it: P6, which ends in its callee,
/// and calls inside calls, at once and dealt out.
#[test]
fn the_examples_to_hold() {
    let mut p6 = with(&["1C 01 00 00 00", ""]);
    assert_eq!(p6.run(9).spent, 1);
    assert_eq!(entered(&p6), [0, 1]);
    over(p6.begin_run().unwrap());
    assert_eq!(entered(&p6), [0, 0]);
    let codes = [
        "000000 1C 01 00 00 00",
        "000000 000000 1C 02 00 00 00",
        DIVIDES,
    ];
    let told = [(2, 6, 5), (1, 10, 2), (0, 7, 0)];
    let report = with(&codes).run(1_000_000);
    assert_eq!((fault(&report), report.spent), (Some(8), 8));
    assert_eq!(entries(&report), told);
    let mut m = with(&codes);
    m.begin_run().unwrap();
    for units in [1, 3, 0, 2] {
        m.continue_run(units).unwrap();
    }
    assert_eq!(entries(&over(m.continue_run(9).unwrap())), told);
}

/// The rule of examples/ that shows it.
#[test]
fn the_example_of_calls() {
    let rule = assemble(include_bytes!("../../examples/calls.rule")).unwrap();
    let text = print::runner(&image(&rule));
    assert_eq!(text, include_str!("../../examples/calls.out"));
}
