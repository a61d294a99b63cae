//! The faults of a step, one by one, and their order where several are due.

mod common;

use common::{fault, fault_of, machine, number, places, program};
use oracle::image::Constant;
use oracle::limits::{Answer, Machine};
use oracle::print::value_text;
use oracle::value::Value;

#[track_caller]
fn faults(codes: &[&str], number: u32, backtrace: &[(usize, u32)]) {
    assert_eq!(
        fault_of(codes),
        (Some(number), backtrace.to_vec()),
        "{codes:?}"
    );
}

#[test]
fn opcodes_and_operands() {
    faults(&["26"], 1, &[(0, 0)]);
    faults(&["FF 00 00"], 1, &[(0, 0)]);
    // Not carried comes before missing operands.
    faults(&["01"], 2, &[(0, 0)]);
    faults(&["1D 00 00"], 2, &[(0, 0)]);
    // After the opcode, not after the operands that are there.
    faults(&["00"], 3, &[(0, 0)]);
    faults(&["00 00"], 3, &[(0, 0)]);
    faults(&["1C 01 00 00"], 3, &[(0, 0)]);
    faults(&["00 04 00 1F 00 00"], 3, &[(0, 3)]);
}

#[test]
fn number_operands_come_before_pops() {
    faults(&["00 06 00"], 6, &[(0, 2)]);
    faults(&["03 00 00"], 6, &[(0, 2)]);
    faults(&["04 00 00"], 6, &[(0, 2)]);
    faults(&["1C 02 00 09 00", ""], 6, &[(0, 4)]);
    faults(&["22 02 00 09 00"], 6, &[(0, 4)]);
    // The field number comes after the pop.
    faults(&["23 00 00"], 4, &[(0, 2)]);
    faults(&["00 00 00 23 00 00"], 5, &[(0, 5)]);
    faults(&["22 00 00 00 00 23 00 00"], 6, &[(0, 7)]);
}

#[test]
fn pops_from_the_top() {
    faults(&["08"], 4, &[(0, 0)]);
    faults(&["00 00 00 08"], 4, &[(0, 3)]);
    // The top is of the wrong kind: 5, though the next one is missing.
    faults(&["00 02 00 08"], 5, &[(0, 3)]);
    faults(&["00 00 00 14"], 5, &[(0, 3)]);
    // Kinds before the zero divisor.
    faults(&["00 02 00 00 01 00 0B"], 5, &[(0, 6)]);
    faults(&["00 01 00 0B"], 4, &[(0, 3)]);
    faults(&["00 00 00 00 01 00 0B"], 8, &[(0, 6)]);
    faults(&["1A 00 00"], 4, &[(0, 2)]);
    faults(&["24 01 00"], 4, &[(0, 2)]);
    faults(&["25"], 4, &[(0, 0)]);
    faults(&["05"], 7, &[(0, 0)]);
}

#[test]
fn calls() {
    faults(&["1C 01 00 01 00", "25"], 4, &[(0, 4)]);
    faults(&["1F 00 00 00 00", "25"], 4, &[(0, 4)]);
    faults(&["00 03 00 1F 00 00 00 00", "25"], 5, &[(0, 7)]);
    // No such name comes before the argument count.
    faults(&["00 05 00 1F 09 00 00 00", "25"], 14, &[(0, 7)]);
    faults(&["00 04 00 1F 01 00 00 00", "25"], 4, &[(0, 7)]);
    // A Return that finds nothing has dropped no frame.
    faults(&["1C 01 00 00 00", "25"], 4, &[(1, 0), (0, 4)]);
    // A slot from a base that is above the stack.
    faults(
        &["00 02 00 1C 01 00 00 00", "1A 00 00 03 00 00"],
        6,
        &[(1, 5), (0, 7)],
    );
}

fn full_machine(cells_used: usize, values: usize, code: &str) -> Machine {
    let constants = [number(1.0), Constant::FunctionReference(b"f1".to_vec())];
    let mut machine = machine(&program(&constants, &[code, "00 00 00 25"]));
    machine.stack = vec![Value::Scalar(1.0); values];
    machine.cells_used = cells_used;
    machine
}

#[test]
fn room() {
    let fault_with = |cells, values, code| fault(&full_machine(cells, values, code).run(100));
    // The stack, with a last place and without.
    for code in [
        "00 00 00",
        "03 00 00",
        "04 00 00",
        "24 00 00",
        "22 00 00 00 00",
    ] {
        assert_eq!(fault_with(0, 1_023, code), None, "{code}");
        assert_eq!(fault_with(0, 1_024, code), Some(9), "{code}");
    }
    // Numbers and cells come before the stack.
    assert_eq!(fault_with(0, 1_024, "00 02 00"), Some(6));
    assert_eq!(fault_with(0, 1_024, "03 00 04"), Some(6));
    assert_eq!(fault_with(0, 1_024, "05"), Some(7));
    assert_eq!(fault_with(2_048, 1_024, "24 00 00"), Some(11));
    // Room that its own pops have made is not asked for.
    assert_eq!(fault_with(0, 1_024, "24 01 00"), None);
    assert_eq!(fault_with(0, 1_024, "08"), None);
    assert_eq!(fault_with(0, 1_024, "12"), None);
    // n + 1 cells.
    assert_eq!(fault_with(2_045, 9, "24 02 00"), None);
    assert_eq!(fault_with(2_046, 9, "24 02 00"), Some(11));
    assert_eq!(fault_with(2_046, 9, "22 00 00 02 00"), Some(11));
    assert_eq!(fault_with(2_047, 9, "24 00 00"), None);
    assert_eq!(fault_with(2_048, 9, "24 00 00"), Some(11));
    assert_eq!(fault_with(2_048, 1, "24 02 00"), Some(4));
}

#[test]
fn depth() {
    // 64 lists round a scalar, and one more.
    let tower = |depth: usize| format!("00 00 00 {}", "24 01 00 ".repeat(depth));
    let run = |code: &str| machine(&program(&[number(1.0)], &[code])).run(1_000);
    assert_eq!(fault(&run(&tower(64))), None);
    let report = run(&tower(65));
    assert_eq!((fault(&report), report.spent), (Some(12), 66));
    // An empty list is one deep.
    let tower = |depth: usize| format!("24 00 00 {}", "24 01 00 ".repeat(depth - 1));
    assert_eq!(fault(&run(&tower(64))), None);
    assert_eq!(fault(&run(&tower(65))), Some(12));
    // Depth comes before cells.
    let mut machine = machine(&program(&[], &[&tower(65)]));
    machine.cells_used = 2_048 - 127;
    assert_eq!(fault(&machine.run(1_000)), Some(12));
}

#[test]
fn frames() {
    // f1 calls itself for ever: the root and 255 more.
    let mut m = machine(&program(&[], &["1C 01 00 00 00", "1C 01 00 00 00"]));
    let report = m.run(1_000);
    assert_eq!((fault(&report), report.spent), (Some(10), 256));
    assert_eq!(report.backtrace.len(), 256);
    assert_eq!(places(&report)[254..], [(1, 4), (0, 4)]);
    assert_eq!(m.frames.len(), 1);
    // The argument count comes before the frames.
    let mut m = machine(&program(&[], &["1C 01 00 00 00", "1C 01 00 01 00"]));
    assert_eq!(fault(&m.run(1_000)), Some(4));
}

#[test]
fn units() {
    let mut m = machine(&program(&[number(1.0)], &["00 00 00 25"]));
    // Not even the first: position 0, so the place of byte 0.
    let report = m.run(0);
    assert_eq!((fault(&report), report.spent), (Some(13), 0));
    assert_eq!(places(&report), [(0, 0)]);
    // A run that is over asks for none.
    assert_eq!(fault(&m.run(0)), None);

    // Units come before the opcode is looked at.
    let mut m = machine(&program(&[number(1.0)], &["00 00 00 26"]));
    let report = m.run(1);
    assert_eq!((fault(&report), places(&report)), (Some(13), vec![(0, 2)]));

    // Differing counts, kinds or struct numbers: no pair is visited.
    for (left, right, spent) in [
        ("00 00 00 24 01 00", "24 00 00", 5),
        ("00 00 00 24 01 00", "00 00 00 22 00 00 01 00", 6),
        ("00 00 00 22 00 00 01 00", "00 00 00 22 01 00 01 00", 6),
        // The same struct number with another count of fields.
        ("00 00 00 22 00 00 01 00", "22 00 00 00 00", 5),
    ] {
        let code = format!("{left} {right} 12 25");
        let report = machine(&program(&[number(1.0)], &[&code])).run(100);
        assert!(matches!(
            report.answer,
            Answer::Value(Value::Boolean(false))
        ));
        assert_eq!(report.spent, spent, "{code}");
    }
}

#[test]
fn orders_of_fields_and_elements() {
    let constants = [
        number(1.0),
        Constant::Boolean(true),
        Constant::String(b"xyz".to_vec()),
    ];
    let answer = |code: &str| match machine(&program(&constants, &[code])).run(100).answer {
        Answer::Value(value) => value,
        other => panic!("no value: {other:?}"),
    };
    let pushed = "00 00 00 00 01 00 00 02 00";
    let field = |n| value_text(&answer(&format!("{pushed} 22 01 00 03 00 23 0{n} 00 25")));
    assert_eq!(field(0), "string 3");
    assert_eq!(field(1), "true");
    assert_eq!(field(2), "scalar 3FF0000000000000");
    match answer(&format!("{pushed} 24 03 00 25")) {
        Value::List(list) => assert_eq!(value_text(&list.items()[2]), "string 3"),
        other => panic!("no list: {other:?}"),
    }
}

#[test]
fn the_newest_function_of_a_name_is_called() {
    let mut p = program(
        &[
            Constant::FunctionReference(b"f1".to_vec()),
            number(1.0),
            number(2.0),
        ],
        &["00 00 00 1F 00 00 FF FF 25", "00 01 00 25", "00 02 00 25"],
    );
    p.functions[2].name = b"f1".to_vec();
    let report = machine(&p).run(100);
    assert!(matches!(report.answer, Answer::Value(Value::Scalar(x)) if x == 2.0));
}
