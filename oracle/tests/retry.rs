//! What docs/RETRY.md tells of examples/story.rule, on one machine.

mod common;

use oracle::asm::assemble;
use oracle::image::{image, Constant};
use oracle::limits::{Answer, Frame, Machine, Part, Refused, Report, Stores};
use oracle::op::Op;
use oracle::value::Value;

const UNITS: u64 = 1_000_000;

fn load(source: &str) -> Machine {
    let program = assemble(source.as_bytes()).unwrap();
    Machine::load(&image(&program), Stores::RUNNER).unwrap()
}

const STORY: &str = include_str!("../../examples/story.rule");

fn story() -> Machine {
    load(STORY)
}

fn last(machine: &Machine) -> Option<f64> {
    match machine.last_result {
        Some(Value::Scalar(scalar)) => Some(scalar),
        None => None,
        ref other => panic!("no scalar: {other:?}"),
    }
}

fn fault(report: &Report) -> u32 {
    match report.answer {
        Answer::Fault(number) => number,
        ref other => panic!("no fault: {other:?}"),
    }
}

fn scalar(report: &Report) -> f64 {
    match report.answer {
        Answer::Value(Value::Scalar(scalar)) => scalar,
        ref other => panic!("no scalar: {other:?}"),
    }
}

fn faulted() -> Machine {
    let mut machine = story();
    let report = machine.run(UNITS);
    assert_eq!((fault(&report), report.spent, report.returns), (8, 9, 2));
    assert_eq!(common::places(&report), [(0, 17)]);
    machine
}

/// What stands behind the rule's Return, with 2 for the zero.
fn mended_rest(machine: &mut Machine) {
    let two = Constant::Scalar(2f64.to_bits());
    let two = machine.add_constant(two).unwrap();
    machine.add_op1(Op::LoadConstant, 1, 0).unwrap();
    machine.add_op1(Op::LoadConstant, two, 0).unwrap();
    machine.add_op(Op::Divide, 0).unwrap();
}

#[test]
fn the_fault_leaves_what_was_returned_before_it() {
    let machine = faulted();
    assert_eq!(last(&machine), Some(42.0));
    assert!(machine.stack.is_empty());
    let length = machine.program.functions[0].code.len();
    assert_eq!(machine.frames, [Frame::root(length)]);
}

#[test]
fn a_further_run_of_the_same_machine_runs_nothing() {
    let mut machine = faulted();
    let report = machine.run(UNITS);
    assert!(matches!(report.answer, Answer::Continue));
    assert_eq!((report.spent, report.returns), (0, 0));
    assert_eq!(last(&machine), Some(42.0));
}

/// The last result after the fault, and the whole rule: twice.
#[test]
fn after_and_the_whole_counts_twice() {
    let mut machine = faulted();
    machine.add_op(Op::GetLastResult, 0).unwrap();
    machine.add_op1(Op::LoadConstant, 1, 0).unwrap();
    machine.add_op(Op::Add, 0).unwrap();
    machine.add_op(Op::Return, 0).unwrap();
    mended_rest(&mut machine);
    let report = machine.run(UNITS);
    assert_eq!(
        (scalar(&report), report.spent, report.returns),
        (43.0, 7, 1)
    );
}

/// The last result after the fault, and the rest: once.
#[test]
fn after_and_the_rest_counts_once() {
    let mut machine = faulted();
    mended_rest(&mut machine);
    let report = machine.run(UNITS);
    assert!(matches!(report.answer, Answer::Continue));
    assert_eq!(
        (report.spent, report.returns, machine.stack.len()),
        (3, 0, 1)
    );
    assert_eq!(last(&machine), Some(42.0));
}

/// The last result before the run, as a constant of a newly loaded machine,
/// and the whole rule: once.
#[test]
fn before_and_the_whole_counts_once() {
    let mended = STORY.replace("constant homes scalar 0", "constant homes scalar 2");
    let mut machine = load(&mended);
    let report = machine.run(UNITS);
    assert_eq!(
        (scalar(&report), report.spent, report.returns),
        (42.0, 9, 2)
    );
    assert_eq!(machine.stack.len(), 1);
}

/// The last result before the run, and the rest: never.
#[test]
fn before_and_the_rest_never_counts() {
    let mended = STORY.replace("constant homes scalar 0", "constant homes scalar 2");
    let lines: Vec<&str> = mended.lines().collect();
    let rest = [&lines[..10], &lines[14..]].concat().join("\n");
    let mut machine = load(&rest);
    machine.run(UNITS);
    assert_eq!(last(&machine), Some(41.0));
}

#[test]
fn a_rule_whose_return_comes_last_has_not_counted_when_it_faults() {
    let safe = include_str!("../../examples/story-safe.rule");
    let mut machine = load(safe);
    let report = machine.run(UNITS);
    assert_eq!((fault(&report), report.spent), (8, 5));
    assert_eq!(last(&machine), Some(41.0));

    let mended = safe.replace("constant homes scalar 0", "constant homes scalar 2");
    let report = load(&mended).run(UNITS);
    assert_eq!((scalar(&report), report.spent), (42.0, 12));
}

/// The story, begun and given so many units, of which it asks for more.
fn paused(units: u64) -> (Machine, u64) {
    let mut machine = story();
    machine.begin_run().unwrap();
    match machine.continue_run(units).unwrap() {
        Part::Paused { spent, returns } => {
            assert_eq!(spent, units);
            (machine, returns)
        }
        Part::Over(report) => panic!("{report:?}"),
    }
}

/// Given 6 units the run is paused behind the Return of line 14, which has
/// counted; given 5 before it.
const PAUSES: [(u64, u32, Option<f64>, u64); 5] = [
    (0, 9, None, 0),
    (2, 10, Some(41.0), 1),
    (5, 13, Some(41.0), 1),
    (6, 14, Some(42.0), 2),
    (7, 15, Some(42.0), 2),
];

#[test]
fn a_paused_run_tells_what_has_counted_so_far() {
    for (units, _, result, returns) in PAUSES {
        let (machine, so_far) = paused(units);
        assert_eq!((so_far, last(&machine)), (returns, result), "{units}");
    }
}

/// Given more, it goes on: nothing is done twice, and the end is that of one
/// run given the sum.
#[test]
fn more_units_go_on_from_the_pause() {
    for (units, ..) in PAUSES {
        for more in [9 - units, UNITS] {
            let (mut machine, _) = paused(units);
            let Part::Over(report) = machine.continue_run(more).unwrap() else {
                panic!("it needs no more");
            };
            assert_eq!((fault(&report), report.spent, report.returns), (8, 9, 2));
            assert_eq!(common::places(&report), [(0, 17)]);
            assert_eq!(last(&machine), Some(42.0));
        }
    }
}

/// Abandoned, the number of root Returns decides, as after any fault. The
/// place is that of the last instruction paid for.
#[test]
fn an_abandoned_run_has_counted_what_it_had_returned() {
    for (units, place, result, returns) in PAUSES {
        let (mut machine, _) = paused(units);
        let report = machine.abandon_run().unwrap();
        assert_eq!((fault(&report), report.spent), (13, units));
        assert_eq!(report.returns, returns);
        assert_eq!(common::places(&report), [(0, place)]);
        assert_eq!(last(&machine), result);
        assert!(machine.stack.is_empty());
        // More units come too late: begun again it is over at once.
        let again = machine.run(UNITS);
        assert!(matches!(again.answer, Answer::Continue));
        assert_eq!((again.spent, again.returns), (0, 0));
        assert_eq!(last(&machine), result);
    }
}

/// Abandoned with 6 units: the last result after it, and the rest, mended.
#[test]
fn after_abandoning_the_rest_counts_once() {
    let (mut machine, _) = paused(6);
    machine.abandon_run().unwrap();
    mended_rest(&mut machine);
    let report = machine.run(UNITS);
    assert_eq!((report.spent, report.returns), (3, 0));
    assert_eq!(last(&machine), Some(42.0));
    // And with 5: nothing of the reading has counted, and the rest is all of it.
    let (mut machine, _) = paused(5);
    machine.abandon_run().unwrap();
    machine.add_op(Op::GetLastResult, 0).unwrap();
    machine.add_op1(Op::LoadConstant, 1, 0).unwrap();
    machine.add_op(Op::Add, 0).unwrap();
    machine.add_op(Op::Return, 0).unwrap();
    mended_rest(&mut machine);
    let report = machine.run(UNITS);
    assert_eq!(
        (scalar(&report), report.spent, report.returns),
        (42.0, 7, 1)
    );
}

/// In a pause the rule is not mended, and no other run is begun.
#[test]
fn a_paused_machine_is_given_more_or_abandoned_first() {
    let (mut machine, _) = paused(5);
    assert_eq!(machine.add_op(Op::Return, 0), Err(Refused::UnderWay));
    assert_eq!(machine.patch_u16_value_at(1, 0), Err(Refused::UnderWay));
    assert_eq!(machine.begin_run().err(), Some(Refused::UnderWay));
    assert_eq!(machine.abandon_run().unwrap().returns, 1);
    assert_eq!(machine.add_op(Op::Return, 0), Ok(()));
}

#[test]
fn a_last_result_that_looks_the_same_may_have_been_returned_again() {
    let mut machine =
        load("constant one scalar 1\nconstant nothing scalar 0\nmain\nLoadConstant one\nReturn");
    assert_eq!(scalar(&machine.run(UNITS)), 1.0);
    machine.add_op(Op::GetLastResult, 6).unwrap();
    machine.add_op(Op::Return, 7).unwrap();
    machine.add_op1(Op::LoadConstant, 0, 8).unwrap();
    machine.add_op1(Op::LoadConstant, 1, 9).unwrap();
    machine.add_op(Op::Divide, 10).unwrap();
    let report = machine.run(UNITS);
    assert_eq!((fault(&report), report.spent), (8, 5));
    assert_eq!(common::places(&report), [(0, 10)]);
    assert_eq!(last(&machine), Some(1.0));
    // The number of root Returns tells what the last result cannot.
    assert_eq!(report.returns, 1);
}

/// A jump leads over a Return, the units run out behind the jump, and the run is
/// abandoned: the place is that of the Return, which never ran.
#[test]
fn the_place_of_a_return_is_no_sign_that_it_ran() {
    let rule = common::program(
        &[Constant::Boolean(false), common::number(1.0)],
        &["000000 1A0400 000100 25 000100 25"],
    );
    let places = [1, 1, 1, 2, 2, 2, 3, 3, 3, 4, 5, 5, 5, 6];
    let load = || {
        let mut rule = rule.clone();
        rule.functions[0].places = places.to_vec();
        common::machine(&rule)
    };
    for (units, place) in [(2, 4), (3, 5)] {
        let mut machine = load();
        let report = machine.run(units);
        assert_eq!((fault(&report), report.spent), (13, units));
        assert_eq!(common::places(&report), [(0, place)]);
        assert_eq!((report.returns, last(&machine)), (0, None));
    }
    let mut machine = load();
    let report = machine.run(4);
    assert_eq!((scalar(&report), report.spent), (1.0, 4));
    assert_eq!((report.returns, last(&machine)), (1, Some(1.0)));
}

/// Only Returns of main count, and only those of the run itself.
#[test]
fn root_returns_are_counted_by_run() {
    let constants = [common::number(1.0)];
    let twice = "1C 01 00 00 00 25 ".repeat(2);
    let mut machine = common::machine(&common::program(&constants, &[&twice, "00 00 00 25"]));
    assert_eq!(machine.run(UNITS).returns, 2);
    machine.add_op(Op::GetLastResult, 0).unwrap();
    machine.add_op(Op::Return, 0).unwrap();
    assert_eq!(machine.run(UNITS).returns, 1);
    // A Return that faults has not completed.
    machine.add_op(Op::Return, 0).unwrap();
    let report = machine.run(UNITS);
    assert_eq!((fault(&report), report.returns), (4, 0));
}
