//! No infinite consumption (document 02, Wish 9), sentence by sentence.

mod common;

use common::{entries, fault, machine, number, program};
use oracle::asm::assemble;
use oracle::console::play;
use oracle::dealt::scripts::strict;
use oracle::generate::SCALARS;
use oracle::image::{image, Constant};
use oracle::limits::{Answer, Machine, Part, Refused, Stores};
use oracle::op::Op;
use oracle::print;
use oracle::script::MAX_SCRIPT;
use oracle::value::{shown_bits, Value};

const ARITHMETIC: [(&str, Op); 4] = [
    ("08", Op::Add),
    ("09", Op::Subtract),
    ("0A", Op::Multiply),
    ("0B", Op::Divide),
];

/// Two constants, one operation, and Return.
fn calculating(op: &str, left: f64, right: f64) -> Machine {
    let code = format!("000000 000100 {op} 25");
    machine(&program(&[number(left), number(right)], &[&code]))
}

fn strictly(op: &str, left: f64, right: f64) -> Machine {
    let mut machine = calculating(op, left, right);
    machine.set_strict(true).unwrap();
    machine
}

fn result(op: Op, left: f64, right: f64) -> f64 {
    match op {
        Op::Add => left + right,
        Op::Subtract => left - right,
        Op::Multiply => left * right,
        _ => left / right,
    }
}

fn bits(answer: &Answer) -> Option<u64> {
    match answer {
        Answer::Value(Value::Scalar(scalar)) => Some(shown_bits(*scalar)),
        _ => None,
    }
}

/// "A strict machine then faults": each operation on every two numbers at the
/// edges of binary64. Reading 48: both operands are finite; the zero divisor
/// comes first.
#[test]
fn finite_operands_whose_result_is_not_finite() {
    let mut counted = [0; 3];
    for (code, op) in ARITHMETIC {
        for left in SCALARS.map(f64::from_bits) {
            for right in SCALARS.map(f64::from_bits) {
                let is = result(op, left, right);
                let loose = calculating(code, left, right).run(9);
                let strict = strictly(code, left, right).run(9);
                let words = format!("{op:?} {left} {right}");
                if op == Op::Divide && right == 0.0 {
                    assert_eq!(
                        (fault(&loose), fault(&strict)),
                        (Some(8), Some(8)),
                        "{words}"
                    );
                    counted[0] += 1;
                    continue;
                }
                assert_eq!(bits(&loose.answer), Some(shown_bits(is)), "{words}");
                if left.is_finite() && right.is_finite() && !is.is_finite() {
                    assert_eq!(fault(&strict), Some(26), "{words}");
                    assert_eq!(strict.spent, 3);
                    counted[1] += 1;
                } else {
                    assert_eq!(bits(&strict.answer), Some(shown_bits(is)), "{words}");
                    counted[2] += 1;
                }
            }
        }
    }
    assert_eq!(counted.iter().sum::<i32>(), 4 * 32 * 32);
    assert!(counted[0] == 64 && counted[1] > 100, "{counted:?}");
}

/// The readings one by one.
#[test]
fn what_is_no_fault_of_a_strict_machine() {
    let inf = f64::INFINITY;
    // 48: infinity or NaN in.
    for (op, left, right) in [
        ("08", inf, 1.0),
        ("09", inf, inf),
        ("08", f64::NAN, 1.0),
        ("0A", 0.0, inf),
        ("0B", inf, 2.0),
        ("0B", f64::MAX, inf),
    ] {
        assert_eq!(fault(&strictly(op, left, right).run(9)), None, "{op}");
    }
    // 48: 0 / 0 and NaN / 0 are 8.
    for (left, right) in [(0.0, 0.0), (f64::NAN, -0.0), (1.0, 0.0), (inf, 0.0)] {
        assert_eq!(fault(&strictly("0B", left, right).run(9)), Some(8));
    }
    // 52: underflow and subnormals; Negate. Overflow of Divide is one.
    for (op, left, right) in [
        ("0A", 5e-324, 0.5),
        ("0B", 5e-324, 2.0),
        ("09", 5e-324, 5e-324),
        ("08", f64::MAX, 1.0),
    ] {
        assert_eq!(fault(&strictly(op, left, right).run(9)), None, "{op}");
    }
    let mut m = machine(&program(&[number(f64::MAX)], &["000000 06 25"]));
    m.set_strict(true).unwrap();
    assert_eq!(fault(&m.run(9)), None);
    assert_eq!(fault(&strictly("0B", 1.0, 5e-324).run(9)), Some(26));
}

/// The order in a step: 4 and 5 first, then 8, then 26. Reading 53: the failing
/// step's own unit is spent, and its pops are undone with the run.
#[test]
fn the_fault_is_one_like_the_others() {
    let mut m = strictly("0A", 1e200, 1e200);
    m.stack = vec![Value::Boolean(true)];
    m.begin_run().unwrap();
    let paused = m.continue_run(2).unwrap();
    assert!(matches!(paused, Part::Paused { spent: 2, .. }));
    let Part::Over(report) = m.continue_run(9).unwrap() else {
        panic!("it is over");
    };
    assert_eq!((fault(&report), report.spent), (Some(26), 3));
    assert_eq!(entries(&report), [(0, 6, 0)]);
    assert_eq!(m.stack, [Value::Boolean(true)]);
    assert!(m.last_result.is_none());
    // Recovered, it is strict.
    assert!(m.strict);
    m.add_op1(Op::LoadConstant, 0, 0).unwrap();
    m.add_op1(Op::LoadConstant, 1, 0).unwrap();
    m.add_op(Op::Multiply, 0).unwrap();
    assert_eq!(fault(&m.run(9)), Some(26));
    // Out of units before it: 13, and so is abandoning.
    assert_eq!(fault(&strictly("0A", 1e200, 1e200).run(2)), Some(13));
    // One value, and a boolean.
    let mut m = machine(&program(&[number(1e200)], &["000000 0A 25"]));
    m.set_strict(true).unwrap();
    assert_eq!(fault(&m.run(9)), Some(4));
    let constants = [number(1e200), Constant::Boolean(true)];
    let mut m = machine(&program(&constants, &["000000 000100 0A 25"]));
    m.set_strict(true).unwrap();
    assert_eq!(fault(&m.run(9)), Some(5));
}

/// "one not strict, as loaded"; reading 50.
#[test]
fn a_machine_is_not_strict_as_it_is_made() {
    assert!(!Machine::new(Stores::RUNNER).unwrap().strict);
    let mut m = strictly("0A", 1e200, 1e200);
    assert!(m.strict);
    m.set_strict(false).unwrap();
    assert_eq!(fault(&m.run(9)), None);
    let loaded = Machine::load(&m.save(), Stores::RUNNER).unwrap();
    assert!(!loaded.strict);
}

/// "25, changing the setting with a run under way"; reading 51: also to what it
/// is already.
#[test]
fn the_setting_stays_while_a_run_is_under_way() {
    for strict in [false, true] {
        let mut m = calculating("08", 1.0, 2.0);
        m.set_strict(strict).unwrap();
        m.begin_run().unwrap();
        for asked in [false, true] {
            assert_eq!(m.set_strict(asked), Err(Refused::UnderWay));
            assert_eq!(m.strict, strict);
        }
        m.continue_run(9).unwrap();
        assert_eq!(m.set_strict(!strict), Ok(()));
    }
}

fn last(script: &str) -> String {
    let mut out = vec![];
    play(script.as_bytes(), 1, &mut out).expect("the oracle can tell");
    let said = String::from_utf8_lossy(&out).into_owned();
    said.lines().last().unwrap_or_default().to_owned()
}

/// As a call: 19 of the whole machine, then 25; loading resets the setting, and a
/// refused loading does not.
#[test]
fn the_setting_as_a_call() {
    let ends = |script: &str, answer: &str| assert_eq!(last(script), answer, "{script}");
    ends("strict 1", "refused 19");
    ends("new\nstrict 2", "? 2");
    let made = "new\nscalar 7FE0000000000000\nop1 0 0 1\nop1 0 0 2\nop 8 3\nop 37 4";
    let run = "start\ncontinue 9";
    let loose = "value scalar 7FF0000000000000, spent 4, returns 1, stack 0, frames 1";
    let strict = "at 0 3 0";
    ends(&format!("{made}\n{run}"), loose);
    ends(&format!("{made}\nstrict 1"), "done");
    ends(&format!("{made}\nstrict 1\n{run}"), strict);
    ends(&format!("{made}\nstrict 1\nstrict 0\n{run}"), loose);
    // 25 in a pause, and the run goes on with the setting that it has.
    let paused = format!("{made}\nstrict 1\nstart\ncontinue 1");
    for asked in [0, 1] {
        ends(&format!("{paused}\nstrict {asked}"), "refused 25");
        ends(&format!("{paused}\nstrict {asked}\ncontinue 9"), strict);
    }
    // 19 before 25, and where none is under way; of the frames and of the run.
    let damage = [
        "count frames 0",
        "frame 0 0 0 1 0",
        "frame 0 0 3 0 2",
        "count spent 2",
        "count on 0",
    ];
    for damage in damage {
        ends(&format!("{paused}\n{damage}\nstrict 0"), "refused 19");
    }
    for damage in ["count frames 0", "frame 0 0 131071 0 0", "count given 1"] {
        ends(&format!("{made}\n{damage}\nstrict 1"), "refused 19");
    }
    // What was refused has changed nothing.
    let refused = "count frames 0\nstrict 1\ncount frames 1";
    ends(&format!("{made}\n{refused}\n{run}"), loose);
    // Loading, and a new machine.
    let image = last(&format!("{made}\nsave"));
    let image = image.split(' ').nth(2).unwrap();
    ends(&format!("{made}\nstrict 1\nimage {image}\n{run}"), loose);
    ends(&format!("{made}\nstrict 1\nimage 80\n{run}"), strict);
    ends(&format!("{made}\nstrict 1\n{made}\n{run}"), loose);
    // A fault keeps it, and so does abandoning.
    let again = "op1 0 0 5\nop1 0 0 6\nop 8 7";
    ends(
        &format!("{made}\nstrict 1\n{run}\n{again}\n{run}"),
        "at 0 7 0",
    );
    ends(&format!("{paused}\nabandon\n{again}\n{run}"), "at 0 7 0");
}

/// The answers of whole runs on strict machines are those of the undivided run.
#[test]
fn scripts_of_strict_runs() {
    let mut faults = 0;
    for seed in 0..8 {
        let told = strict(seed, MAX_SCRIPT);
        let mut out = vec![];
        play(told.script.as_bytes(), 1, &mut out).expect("the oracle can tell");
        assert_eq!(String::from_utf8_lossy(&out), told.answers, "seed {seed}");
        let lines = told.answers.lines();
        faults += lines.filter(|line| line.starts_with("fault 26,")).count();
    }
    assert!(faults > 5, "{faults}");
}

/// The user's story: not strict, a street's mean is infinite; strict, it stops at
/// the reading.
#[test]
fn the_example_of_a_street() {
    let rule = assemble(include_bytes!("../../examples/street-mean.rule")).unwrap();
    let image = image(&rule);
    let not_strict = include_str!("../../examples/street-mean.out");
    let strict = include_str!("../../examples/street-mean.strict");
    assert_eq!(print::runner(&image), not_strict);
    assert_eq!(print::strict_runner(&image), strict);
    assert!(not_strict.starts_with("value scalar 7FF0000000000000\n"));
    assert!(strict.starts_with("fault 26\n"));
}
