//! P1 to P9 of document 01, on the plain machine by way of emission and on
//! document 01's machine by way of the image.

mod common;

use common::{fault, hex, machine, number, places, program};
use oracle::image::{image, parse, read_number, write_number, Constant, Program};
use oracle::limits::{Answer, Frame, Machine, Refused, Report, Stores};
use oracle::op::Op;
use oracle::plain::{self, quietly, Ending};
use oracle::print;
use oracle::value::Value;
use oracle::vm::{self, Vm};

const P1: &str = "00 00 00 00 01 00 08 25";
const P3: &str = "00 00 00 00 01 00 0B 25";
const P1_IMAGE: &str = "02 00 00 00 00 00 00 00 45 40 00 00 00 00 00 00 00 F0 3F 00 01 06 3C 6D \
                        61 69 6E 3E 08 00 00 00 00 01 00 08 25 08 00";

fn emitted(constants: [f64; 2]) -> Vm {
    let mut vm = Vm::new();
    for constant in constants {
        vm.add_constant(vm::Constant::Scalar(constant));
    }
    vm
}

fn main_code(vm: &Vm) -> &[u8] {
    &vm.bytecode[0].1
}

fn scalar(answer: &Answer) -> f64 {
    match answer {
        Answer::Value(Value::Scalar(scalar)) => *scalar,
        other => panic!("no scalar: {other:?}"),
    }
}

fn plain_scalar(ending: &Ending) -> f64 {
    match ending {
        Ending::Value(Value::Scalar(scalar)) => *scalar,
        other => panic!("no scalar: {other:?}"),
    }
}

fn run(constants: [f64; 2], codes: &[&str], units: u64) -> (Report, Machine) {
    let constants = constants.map(number);
    let mut machine = machine(&program(&constants, codes));
    let report = machine.run(units);
    (report, machine)
}

fn emit_p1(vm: &mut Vm) {
    vm.add_op1(Op::LoadConstant, 0, 0);
    vm.add_op1(Op::LoadConstant, 1, 0);
    vm.add_op(Op::Add, 0);
    vm.add_op(Op::Return, 0);
}

#[test]
fn p1_on_the_plain_machine() {
    let mut vm = emitted([42.0, 1.0]);
    emit_p1(&mut vm);
    assert_eq!(main_code(&vm), hex(P1));
    assert_eq!(image(&vm.program()), hex(P1_IMAGE));
    assert_eq!(plain_scalar(&plain::run(&mut vm)), 43.0);
    assert_eq!(vm.stack.len(), 0);
}

#[test]
fn p1_by_its_image() {
    let bytes = hex(P1_IMAGE);
    assert_eq!(bytes.len(), 39);
    let program = parse(&bytes).unwrap();
    assert_eq!(image(&program), bytes);

    let mut machine = Machine::load(&bytes, Stores::RUNNER).unwrap();
    let report = machine.run(1_000_000);
    assert_eq!(scalar(&report.answer), 43.0);
    assert_eq!(report.spent, 4);
    assert_eq!(machine.save(), bytes);

    assert_eq!(
        print::runner(&bytes),
        "value scalar 4045800000000000\nspent 4\nstack 0\n"
    );
    let listing = ".CODE 0 (<main>)\n\
                   \x20 0000 LoadConstant  0\n\
                   \x20 0003 LoadConstant  1\n\
                   \x20 0006 Add           \n\
                   \x20 0007 Return        \n";
    assert_eq!(print::lister(&bytes), listing.as_bytes());
    assert_eq!(Vm::from_program(&program).disassemble(), listing.as_bytes());
}

#[test]
fn p1_by_emission_into_document_01s_machine() {
    let mut machine = Machine::new(Stores::RUNNER).unwrap();
    assert_eq!(machine.add_constant(number(42.0)), Ok(0));
    assert_eq!(machine.add_constant(number(1.0)), Ok(1));
    machine.add_op1(Op::LoadConstant, 0, 0).unwrap();
    machine.add_op1(Op::LoadConstant, 1, 0).unwrap();
    machine.add_op(Op::Add, 0).unwrap();
    machine.add_op(Op::Return, 0).unwrap();
    assert_eq!(machine.save(), hex(P1_IMAGE));
    assert_eq!(scalar(&machine.run(4).answer), 43.0);
}

#[test]
fn p2_too_few_units() {
    let (report, machine) = run([42.0, 1.0], &[P1], 3);
    assert_eq!(fault(&report), Some(13));
    assert_eq!(report.spent, 3);
    assert_eq!(places(&report), [(0, 6)]);
    assert!(machine.stack.is_empty());
    assert!(machine.last_result.is_none());

    // The plain machine has no units; with the fourth it answers as P1.
    let (report, _) = run([42.0, 1.0], &[P1], 4);
    assert_eq!(scalar(&report.answer), 43.0);
}

#[test]
fn p3_zero_divisor() {
    let (report, _) = run([1.0, 0.0], &[P3], 1_000);
    assert_eq!(fault(&report), Some(8));
    assert_eq!(report.spent, 3);
    assert_eq!(places(&report), [(0, 6)]);
    // The other zero too.
    let (report, _) = run([1.0, -0.0], &[P3], 1_000);
    assert_eq!(fault(&report), Some(8));

    let mut vm = emitted([1.0, 0.0]);
    vm.add_op1(Op::LoadConstant, 0, 0);
    vm.add_op1(Op::LoadConstant, 1, 3);
    vm.add_op(Op::Divide, 6);
    vm.add_op(Op::Return, 7);
    assert_eq!(main_code(&vm), hex(P3));
    match plain::run(&mut vm) {
        Ending::Error(error) => {
            assert_eq!(error.kind, vm::RuntimeErrorKind::DivisionByZero);
            assert_eq!(error.backtrace, [(b"<main>".to_vec(), 6)]);
        }
        other => panic!("no error: {other:?}"),
    }
}

#[test]
fn p4_recovery() {
    let code = format!("00 00 00 25 {P3}");
    let (report, mut machine) = run([1.0, 0.0], &[&code], 1_000);
    assert_eq!(fault(&report), Some(8));
    assert_eq!(report.spent, 5);
    assert_eq!(places(&report), [(0, 10)]);
    assert_eq!(machine.last_result, Some(Value::Scalar(1.0)));
    assert!(machine.stack.is_empty());
    assert_eq!(machine.frames, [Frame::root(12)]);

    // At the end of main, so nothing more runs, until there is more code;
    // that finds the last result.
    let report = machine.run(0);
    assert!(matches!(report.answer, Answer::Continue));
    assert_eq!(report.spent, 0);
    machine.add_op(Op::GetLastResult, 0).unwrap();
    machine.add_op(Op::Return, 0).unwrap();
    let report = machine.run(1_000);
    assert_eq!(scalar(&report.answer), 1.0);
    assert_eq!(report.spent, 2);

    // The plain machine tells the same story.
    let mut vm = emitted([1.0, 0.0]);
    vm.add_op1(Op::LoadConstant, 0, 0);
    vm.add_op(Op::Return, 0);
    vm.add_op1(Op::LoadConstant, 0, 0);
    vm.add_op1(Op::LoadConstant, 1, 0);
    vm.add_op(Op::Divide, 0);
    vm.add_op(Op::Return, 0);
    assert_eq!(main_code(&vm), hex(&code));
    assert!(matches!(plain::run(&mut vm), Ending::Error(_)));
    assert_eq!(vm.last_result, Some(Value::Scalar(1.0)));
    assert!(vm.stack.is_empty());
    assert_eq!(vm.frames.len(), 1);
    assert_eq!(vm.frames[0].ip, 12);
    vm.add_op(Op::GetLastResult, 0);
    vm.add_op(Op::Return, 0);
    assert_eq!(plain_scalar(&plain::run(&mut vm)), 1.0);
}

#[test]
fn a_fault_gives_the_stack_of_the_start_and_the_cells_of_the_last_root_return() {
    // One value and a list are left; then a second run faults behind a root
    // Return of a list.
    let constants = [number(1.0), number(0.0)];
    let first = program(&constants, &["00 00 00 24 00 00"]);
    let mut machine = machine(&first);
    assert!(matches!(machine.run(10).answer, Answer::Continue));
    assert_eq!((machine.stack.len(), machine.cells_used), (2, 1));

    machine.add_op1(Op::BuildList, 2, 0).unwrap(); // takes 3 cells
    machine.add_op(Op::Return, 0).unwrap();
    machine.add_op1(Op::BuildList, 0, 0).unwrap(); // takes 1, given back
    machine.add_op(Op::Negate, 0).unwrap();
    let report = machine.run(10);
    assert_eq!(fault(&report), Some(5));
    assert_eq!((machine.stack.len(), machine.cells_used), (2, 4));
    assert!(matches!(&machine.last_result, Some(Value::List(l)) if l.items().len() == 2));
    assert!(matches!(&machine.stack[1], Value::List(l) if l.items().is_empty()));
}

#[test]
fn p5_two_lists() {
    let list = "00 00 00 00 01 00 24 02 00";
    let code = format!("{list} {list} 12 25");
    let (report, _) = run([42.0, 1.0], &[&code], 1_000);
    assert!(matches!(report.answer, Answer::Value(Value::Boolean(true))));
    assert_eq!(report.spent, 10);
    // The comparison asks for its last pair.
    let (report, _) = run([42.0, 1.0], &[&code], 8);
    assert_eq!(fault(&report), Some(13));
    assert_eq!((report.spent, places(&report)), (8, vec![(0, 18)]));

    let mut vm = emitted([42.0, 1.0]);
    for _ in 0..2 {
        vm.add_op1(Op::LoadConstant, 0, 0);
        vm.add_op1(Op::LoadConstant, 1, 0);
        vm.add_op1(Op::BuildList, 2, 0);
    }
    vm.add_op(Op::Equal, 0);
    vm.add_op(Op::Return, 0);
    assert_eq!(main_code(&vm), hex(&code));
    assert!(matches!(
        plain::run(&mut vm),
        Ending::Value(Value::Boolean(true))
    ));
}

#[test]
fn p6_the_end_in_a_callee() {
    let (report, mut machine) = run([42.0, 1.0], &["1C 01 00 00 00", ""], 1_000);
    assert!(matches!(report.answer, Answer::Continue));
    assert_eq!((report.spent, machine.frames.len()), (1, 2));
    let report = machine.run(1_000);
    assert!(matches!(report.answer, Answer::Continue));
    assert_eq!((report.spent, machine.frames.len()), (0, 2));
    // An empty code has no byte 0 either.
    assert_eq!(machine.backtrace(), Err(Refused::Backtrace));

    let mut vm = emitted([42.0, 1.0]);
    vm.begin_function(b"f1");
    vm.end_function();
    assert_eq!(vm.get_function_idx(b"f1"), 1);
    vm.add_op2(Op::Call, 1, 0, 0);
    assert_eq!(main_code(&vm), hex("1C 01 00 00 00"));
    for _ in 0..2 {
        assert!(matches!(plain::run(&mut vm), Ending::Continue));
        assert_eq!(vm.frames.len(), 2);
    }
    assert!(quietly(|| vm.backtrace()).is_err());
}

#[test]
fn p7_past_the_end() {
    let (report, machine) = run([42.0, 1.0], &["1B 05 00"], 1_000);
    assert!(matches!(report.answer, Answer::Continue));
    assert_eq!(report.spent, 1);
    assert_eq!(machine.frames[0].position, 8);
    let refused = machine.backtrace().unwrap_err();
    assert_eq!(refused.number(), 16);

    let mut vm = emitted([42.0, 1.0]);
    vm.add_op1(Op::Jump, 5, 0);
    assert!(matches!(plain::run(&mut vm), Ending::Continue));
    assert_eq!(vm.frames[0].ip, 8);
    assert!(quietly(|| vm.backtrace()).is_err());
}

#[test]
fn p8_a_callee_adds() {
    let code = "00 00 00 00 01 00 1C 01 00 00 00 25";
    let (report, machine) = run([42.0, 1.0], &[code, "08 25"], 1_000);
    // The callee takes its caller's values, so its base is above the stack
    // when it returns: the stack is not lengthened or cut.
    assert_eq!(scalar(&report.answer), 43.0);
    assert_eq!((report.spent, machine.stack.len()), (6, 0));

    let mut vm = emitted([42.0, 1.0]);
    vm.begin_function(b"f1");
    vm.add_op(Op::Add, 0);
    vm.add_op(Op::Return, 0);
    vm.end_function();
    vm.add_op1(Op::LoadConstant, 0, 0);
    vm.add_op1(Op::LoadConstant, 1, 0);
    vm.add_op2(Op::Call, 1, 0, 0);
    vm.add_op(Op::Return, 0);
    assert_eq!(main_code(&vm), hex(code));
    assert_eq!(plain_scalar(&plain::run(&mut vm)), 43.0);
    assert!(vm.stack.is_empty());
}

#[test]
fn p9_numbers() {
    for (bytes, number) in [
        ("00", 0),
        ("7F", 127),
        ("80 01", 128),
        ("FF FF FF FF 0F", 4_294_967_295),
    ] {
        let bytes = hex(bytes);
        assert_eq!(read_number(&bytes), Some((number, bytes.len())));
        let mut out = vec![];
        write_number(&mut out, number);
        assert_eq!(out, bytes);
    }
    for refused in [
        "",
        "80",
        "80 00",
        "FF FF FF FF 1F",
        "80 80 80 80 10",
        "80 80 80 80 00",
        "80 80 80 80 80 00",
        "FF FF FF FF FF 0F",
    ] {
        assert_eq!(read_number(&hex(refused)), None, "{refused}");
    }
    // Each at the front of an image: refused 20 at offset 0.
    assert_eq!(parse(&hex("80 00")), Err(0));
    assert_eq!(parse(&hex("FF FF FF FF 1F")), Err(0));
}

#[test]
fn emission_agrees_with_the_plain_machine_and_keeps_to_its_limits() {
    let mut vm = Vm::new();
    let mut machine = Machine::new(Stores::RUNNER).unwrap();
    for name in [b"A", b"B", b"A"] {
        assert_eq!(Ok(vm.add_struct_info(name)), machine.add_struct_info(name));
    }
    for name in [b"f", b"g", b"f"] {
        vm.begin_function(name);
        machine.begin_function(name).unwrap();
        vm.add_op3(Op::FFICallProcedure, 1, 2, 515, 9);
        machine.add_op3(Op::FFICallProcedure, 1, 2, 515, 9).unwrap();
        vm.add_op2(Op::Call, 1, 2, 8);
        machine.add_op2(Op::Call, 1, 2, 8).unwrap();
        vm.patch_u16_value_at(1, 0x1234);
        machine.patch_u16_value_at(1, 0x1234).unwrap();
        assert_eq!(vm.current_offset(), 12);
        assert_eq!(machine.current_offset(), 12);
    }
    assert_eq!(vm.get_function_idx(b"f"), 3);
    assert_eq!(machine.get_function_idx(b"f"), Ok(3));
    assert_eq!(machine.get_function_idx(b"h"), Err(Refused::NoSuchFunction));
    assert_eq!(vm.program(), machine.program);

    // 23: not wholly inside; 12 bytes of code take a patch at 10, not at 11.
    assert_eq!(machine.patch_u16_value_at(10, 7), Ok(()));
    assert_eq!(machine.patch_u16_value_at(11, 7), Err(Refused::Patch));
    machine.end_function().unwrap();
    assert_eq!(machine.patch_u16_value_at(0, 7), Err(Refused::Patch));

    // 21: main has its own store.
    for _ in 0..8_192 {
        machine.add_op(Op::Return, 0).unwrap();
    }
    assert_eq!(machine.add_op(Op::Return, 0), Err(Refused::Store));
    // 22 before 21: no code of 65,536 bytes and no 65,536th constant,
    // whatever the stores.
    let mut program = Program::new();
    program.constants = vec![Constant::Boolean(true); 65_534];
    program.functions[0].code = vec![Op::Return as u8; 65_534];
    program.functions[0].places = vec![0; 65_534];
    let large = Stores {
        main_code: 70_000,
        constants: 70_000,
        ..Stores::RUNNER
    };
    let mut machine = Machine::load(&image(&program), large).unwrap();
    machine.add_op(Op::Return, 0).unwrap();
    assert_eq!(machine.add_op(Op::Return, 0), Err(Refused::Limit));
    assert_eq!(machine.current_offset(), 65_535);
    let constant = || Constant::Boolean(false);
    assert_eq!(machine.add_constant(constant()), Ok(65_534));
    assert_eq!(machine.add_constant(constant()), Err(Refused::Limit));
    assert_eq!(machine.program.constants.len(), 65_535);
}
