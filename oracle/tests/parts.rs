//! A run in parts (document 02, Wish 4), sentence by sentence.

mod common;

use common::{fault, machine, number, places, program};
use oracle::asm::assemble;
use oracle::image::{image, Constant};
use oracle::limits::{Answer, Machine, Part, Refused, Report, Stores};
use oracle::op::Op;
use oracle::value::Value;

/// The code of P5: two lists of 42 and 1, Equal at byte 18, Return. Its places
/// are its bytes.
const P5: &str = "000000 000100 240200 000000 000100 240200 12 25";

fn p5() -> Machine {
    machine(&program(&[number(42.0), number(1.0)], &[P5]))
}

/// Constants 1 and 0 and a code.
fn with(code: &str) -> Machine {
    machine(&program(&[number(1.0), number(0.0)], &[code]))
}

/// Begins a run and deals these units out: the answer of the last part.
fn dealt(machine: &mut Machine, parts: &[u64]) -> Part {
    let mut part = machine.begin_run().unwrap();
    for units in parts {
        part = machine.continue_run(*units).unwrap();
    }
    part
}

/// What the run has spent and returned, if it is paused.
fn paused(part: &Part) -> Option<(u64, u64)> {
    match part {
        Part::Paused { spent, returns } => Some((*spent, *returns)),
        Part::Over(_) => None,
    }
}

fn over(part: Part) -> Report {
    match part {
        Part::Over(report) => report,
        Part::Paused { .. } => panic!("{part:?}"),
    }
}

fn position(machine: &Machine) -> usize {
    machine.frames.last().unwrap().position
}

/// Reading 1: "with the count and backtrace of one run given the sum". A
/// comparison with units left has been fetched by that run.
#[test]
fn an_abandoned_comparison_is_named_by_its_own_byte_if_units_are_left() {
    for (units, byte) in [(5, 14), (6, 17), (7, 18), (8, 18)] {
        let mut p5 = p5();
        let part = dealt(&mut p5, &[units]);
        assert_eq!(paused(&part), Some((units.min(6), 0)), "{units}");
        assert_eq!(position(&p5), if units == 5 { 15 } else { 18 });
        let report = p5.abandon_run().unwrap();
        assert_eq!(fault(&report), Some(13));
        assert_eq!(places(&report), [(0, byte)], "{units}");
        // And so it is in one run.
        let one = self::p5().one_run(units);
        assert_eq!((places(&one), one.spent), (places(&report), report.spent));
    }
    let mut p5 = p5();
    let report = over(dealt(&mut p5, &[9, 1]));
    assert!(matches!(report.answer, Answer::Value(Value::Boolean(true))));
    assert_eq!(report.spent, 10);
}

/// Reading 1, in a callee: only the innermost frame is one further.
#[test]
fn only_the_innermost_frame_of_an_abandoned_comparison_is_one_further() {
    let constants = [number(42.0), number(1.0)];
    let mut m = machine(&program(&constants, &["1C 01 00 00 00 25", P5]));
    dealt(&mut m, &[8]);
    assert_eq!(places(&m.abandon_run().unwrap()), [(1, 18), (0, 4)]);
    let mut m = machine(&program(&constants, &["1C 01 00 00 00 25", P5]));
    dealt(&mut m, &[7]);
    assert_eq!(places(&m.abandon_run().unwrap()), [(1, 17), (0, 4)]);
}

/// Reading 2: "unspent units carry over", and nothing of a comparison is spent
/// before it can be paid for in full.
#[test]
fn a_comparison_is_paid_for_in_full_or_not_at_all() {
    let mut p5 = p5();
    for (units, spent) in [(6, 6), (1, 6), (0, 6), (1, 6), (1, 9), (0, 9)] {
        let part = match p5.under_way {
            None => dealt(&mut p5, &[units]),
            Some(_) => p5.continue_run(units).unwrap(),
        };
        assert_eq!(paused(&part), Some((spent, 0)));
        assert_eq!(position(&p5), if spent == 6 { 18 } else { 19 });
        assert_eq!(p5.stack.len(), if spent == 6 { 2 } else { 1 });
    }
    assert_eq!(over(p5.continue_run(1).unwrap()).spent, 10);
}

/// Units that are left pay for what stands behind the comparison too.
#[test]
fn units_left_are_spent_later() {
    let mut p5 = p5();
    assert_eq!(paused(&dealt(&mut p5, &[8])), Some((6, 0)));
    assert_eq!(over(p5.continue_run(2).unwrap()).spent, 10);
}

/// Reading 3: the count of an abandoned run is all that was given.
#[test]
fn an_abandoned_run_has_spent_all_that_it_was_given() {
    for parts in [&[6, 2][..], &[8], &[0, 7, 1, 0]] {
        let mut p5 = p5();
        assert_eq!(paused(&dealt(&mut p5, parts)), Some((6, 0)));
        assert_eq!(p5.abandon_run().unwrap().spent, 8);
    }
}

/// Reading 4: "A run begun with its position at or past the end is over at
/// once, with continue", also with a last result, also in a callee.
#[test]
fn a_run_begun_at_its_end_is_over_at_once() {
    let again = |m: &mut Machine, frames: usize| {
        m.copy = vec![Value::Boolean(false); 9];
        let report = over(m.begin_run().unwrap());
        assert!(matches!(report.answer, Answer::Continue));
        assert_eq!((report.spent, report.returns), (0, 0));
        assert_eq!(m.frames.len(), frames);
        // It was begun all the same: the stack is copied.
        assert_eq!(m.copy, m.stack);
        assert_eq!(m.continue_run(1).err(), Some(Refused::NoRun));
        assert_eq!(m.abandon_run().err(), Some(Refused::NoRun));
    };
    // At the end of main, with a last result and a value on the stack.
    let mut m = with("000000 25 000000");
    assert_eq!(m.run(9).returns, 1);
    again(&mut m, 1);
    assert!(matches!(m.last_result, Some(Value::Scalar(x)) if x == 1.0));
    assert_eq!(m.stack.len(), 1);
    // In a callee (P6), past the end (P7), and where main is empty.
    let mut p6 = machine(&program(&[], &["1C 01 00 00 00", ""]));
    assert_eq!(p6.run(9).spent, 1);
    again(&mut p6, 2);
    let mut p7 = with("1B 05 00");
    assert_eq!((p7.run(9).spent, position(&p7)), (1, 8));
    again(&mut p7, 1);
    again(&mut with(""), 1);
}

/// Reading 5: the end is found at once, with no unit left too.
#[test]
fn the_end_asks_for_no_unit() {
    let mut m = with("000000 25");
    assert_eq!(paused(&dealt(&mut m, &[1])), Some((1, 0)));
    let report = over(m.continue_run(1).unwrap());
    assert_eq!((report.spent, report.returns), (2, 1));
    assert_eq!(m.continue_run(0).err(), Some(Refused::NoRun));
    // Also where the end is a callee's.
    let mut p6 = machine(&program(&[], &["1C 01 00 00 00", ""]));
    assert_eq!(over(dealt(&mut p6, &[1])).spent, 1);
}

/// Reading 8: units given in all of 2^64 - 1 are taken, one more is refused 22
/// and nothing is run.
#[test]
fn units_given_in_all_are_below_2_to_the_64th() {
    let mut p5 = p5();
    dealt(&mut p5, &[2]);
    for units in [u64::MAX - 1, u64::MAX] {
        assert_eq!(p5.continue_run(units).err(), Some(Refused::Limit));
        assert_eq!(
            (position(&p5), p5.under_way.as_ref().unwrap().given),
            (6, 2)
        );
    }
    assert_eq!(over(p5.continue_run(u64::MAX - 2).unwrap()).spent, 10);
    // Spent or not, what was given counts; and 18 comes first.
    assert_eq!(p5.continue_run(u64::MAX).err(), Some(Refused::NoRun));
    let mut m = self::p5();
    dealt(&mut m, &[8]);
    assert_eq!(
        m.continue_run(u64::MAX - 7).err(),
        Some(Refused::Limit),
        "8 given, 6 spent"
    );
    assert_eq!(over(m.continue_run(u64::MAX - 8).unwrap()).spent, 10);
}

/// Reading 9: abandoned right after it was begun.
#[test]
fn a_run_abandoned_before_it_was_given_anything() {
    let mut m = with("000000 25");
    dealt(&mut m, &[]);
    let report = m.abandon_run().unwrap();
    assert_eq!((fault(&report), report.spent), (Some(13), 0));
    assert_eq!(places(&report), [(0, 0)]);
    // Recovered: at the end of main, so the rule is not begun again.
    assert_eq!(position(&m), 4);
    assert!(matches!(
        over(m.begin_run().unwrap()).answer,
        Answer::Continue
    ));
    assert!(m.last_result.is_none());
}

/// Reading 10: the answer is that of the run's last root Return, in whichever
/// part it came; and so is the mark behind which cells come back.
#[test]
fn what_an_earlier_part_returned_survives_the_pause() {
    // A list of one is returned; another is left, and then a division by zero.
    let code = "000000 240100 25 000000 240100 000000 000100 0B";
    let mut m = with(code);
    assert_eq!(paused(&dealt(&mut m, &[3])), Some((3, 1)));
    assert_eq!(m.cells_used, 2);
    assert_eq!(paused(&m.continue_run(2).unwrap()), Some((5, 1)));
    assert_eq!(m.cells_used, 4);
    let report = over(m.continue_run(9).unwrap());
    assert_eq!((fault(&report), report.returns), (Some(8), 1));
    assert_eq!((m.cells_used, m.stack.len()), (2, 0));
    // Without the division it answers the list.
    let mut m = with("000000 240100 25 000000");
    let report = over(dealt(&mut m, &[3, 1]));
    assert!(matches!(report.answer, Answer::Value(Value::List(_))));
    assert_eq!((report.spent, report.returns), (4, 1));
    // Abandoned behind it, its cells stay too.
    let mut m = with(code);
    dealt(&mut m, &[3, 2]);
    assert_eq!(m.abandon_run().unwrap().returns, 1);
    assert_eq!((m.cells_used, m.stack.len()), (2, 0));
    assert!(matches!(m.last_result, Some(Value::List(_))));
}

/// Recovery gives back the stack of the beginning, not that of a part.
#[test]
fn a_fault_gives_back_the_stack_of_the_beginning() {
    let mut m = with("000000 000000 000000 000100 0B");
    m.stack = vec![Value::Boolean(true)];
    dealt(&mut m, &[1, 1, 1]);
    assert_eq!(m.stack.len(), 4);
    assert_eq!(fault(&over(m.continue_run(9).unwrap())), Some(8));
    assert_eq!(m.stack, [Value::Boolean(true)]);
    let mut m = with("000000 000000");
    m.stack = vec![Value::Boolean(true)];
    dealt(&mut m, &[1]);
    m.abandon_run().unwrap();
    assert_eq!(m.stack, [Value::Boolean(true)]);
}

/// Reading 6 and 12: 25 comes before all else that emission refuses; what only
/// looks is answered. Reading 15 is a test of the console.
#[test]
fn nothing_is_emitted_while_a_run_is_under_way() {
    let stores = Stores {
        constants: 2,
        structs: 2,
        functions: 1,
        ..Stores::RUNNER
    };
    let bytes = image(&program(&[number(1.0), number(0.0)], &["000000 25"]));
    let mut m = Machine::load(&bytes, stores).unwrap();
    dealt(&mut m, &[1]);
    let refused = Err(Refused::UnderWay);
    assert_eq!(m.emit(255, &[], 0), refused);
    assert_eq!(m.add_op(Op::Add, 0), refused);
    assert_eq!(m.add_op1(Op::Jump, 0, 0), refused);
    assert_eq!(m.add_op2(Op::Call, 0, 0, 0), refused);
    assert_eq!(m.add_op3(Op::FFICallFunction, 0, 0, 0, 0), refused);
    assert_eq!(m.patch_u16_value_at(9, 0), refused);
    assert_eq!(
        m.add_constant(Constant::Boolean(true)),
        Err(Refused::UnderWay)
    );
    // A known name, and one for which there is no room.
    assert_eq!(m.add_struct_info(b"A"), Err(Refused::UnderWay));
    assert_eq!(m.add_struct_info(b"C"), Err(Refused::UnderWay));
    assert_eq!(m.begin_function(b"f"), refused);
    assert_eq!(m.end_function(), refused);
    assert_eq!(m.begin_run().err(), Some(Refused::UnderWay));
    assert_eq!((m.current_offset(), m.save()), (4, bytes));
    assert_eq!(m.get_function_idx(b"<main>"), Ok(0));
    assert_eq!(m.backtrace().unwrap()[0].place, 2);
    assert_eq!(over(m.continue_run(1).unwrap()).spent, 2);
    assert_eq!(m.add_struct_info(b"C"), Err(Refused::Store));
}

/// Reading 14: continued with nothing it is paused again, and nothing changes.
#[test]
fn no_units_change_nothing() {
    for given in [0, 3, 8] {
        let mut m = p5();
        let before = paused(&dealt(&mut m, &[given]));
        let (stack, frames) = (m.stack.clone(), m.frames.clone());
        for _ in 0..3 {
            assert_eq!(paused(&m.continue_run(0).unwrap()), before);
            assert_eq!((&m.stack, &m.frames), (&stack, &frames));
            assert_eq!(m.under_way.as_ref().unwrap().given, given);
        }
    }
}

/// Reading 16: a loaded machine has no run under way.
#[test]
fn a_loaded_machine_has_no_run_under_way() {
    let mut m = with("000000 25");
    assert!(m.under_way.is_none());
    assert_eq!(m.continue_run(1).err(), Some(Refused::NoRun));
    assert_eq!(m.abandon_run().err(), Some(Refused::NoRun));
    assert!(Machine::new(Stores::RUNNER).unwrap().under_way.is_none());
}

/// Reading 16: the runner abandons what is paused, so that its text is as ever.
#[test]
fn the_runner_abandons_what_is_paused() {
    let runaway = assemble(include_bytes!("../../examples/runaway.rule")).unwrap();
    let text = oracle::print::runner(&image(&runaway));
    assert!(text.starts_with("fault 13\nspent 1000000\nstack 0\nat 1 "));
    assert!(text.ends_with("\nat 0 8 0\n"));
}

/// Reading 17: the failing instruction's own unit is spent, no pair's.
#[test]
fn a_fault_spends_its_own_unit() {
    let mut m = with("000000 000100 0B 25");
    assert_eq!(paused(&dealt(&mut m, &[2])), Some((2, 0)));
    let report = over(m.continue_run(1).unwrap());
    assert_eq!((fault(&report), report.spent), (Some(8), 3));
    // The stack is too low for the comparison: one unit, and fault 4.
    let mut m = with("000000 12");
    let report = over(dealt(&mut m, &[9]));
    assert_eq!((fault(&report), report.spent), (Some(4), 2));
}

/// A pause stands before an instruction that would fault: it is not looked at.
#[test]
fn a_pause_does_not_look_at_what_comes() {
    let mut m = with("000000 26");
    assert_eq!(paused(&dealt(&mut m, &[1])), Some((1, 0)));
    assert_eq!(position(&m), 3);
    assert_eq!(fault(&over(m.continue_run(1).unwrap())), Some(1));
}

/// "However units are dealt out, zero included": P5 in every way.
#[test]
fn every_way_to_deal_out_twelve_units() {
    // Bit i says whether a part ends behind unit i; a part of none in front.
    for sum in 0..=12u32 {
        let one = p5().one_run(sum.into());
        for ways in 0..1u32 << sum.saturating_sub(1) {
            let mut parts = vec![0, u64::from(sum > 0)];
            for unit in 1..sum {
                match ways >> (unit - 1) & 1 {
                    0 => *parts.last_mut().unwrap() += 1,
                    _ => parts.extend([0, 1]),
                }
            }
            let mut m = p5();
            let mut part = m.begin_run().unwrap();
            for units in &parts {
                if paused(&part).is_some() {
                    part = m.continue_run(*units).unwrap();
                }
            }
            let report = match part {
                Part::Over(report) => report,
                Part::Paused { .. } => m.abandon_run().unwrap(),
            };
            assert_eq!(fault(&report), fault(&one), "{parts:?}");
            assert_eq!((report.spent, report.returns), (one.spent, one.returns));
            assert_eq!(places(&report), places(&one), "{parts:?}");
        }
    }
}
