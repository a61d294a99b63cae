//! The differences of docs/DIFFERENCES.md, by the same numbers, each with its
//! input. "The Rust" is numbat's vm.rs, list.rs and value.rs as published; what
//! its quantities do is written out here from quantity.rs.

mod common;

use common::hex;
use numbat_published::value::Value as Theirs;
use numbat_published::vm::{Constant, Vm as Rust};
use oracle::generate::SCALARS;
use oracle::image::{parse, Function, Program};
use oracle::limits::{Answer, Machine, Refused, Stores};
use oracle::op::{Op, OPS};
use oracle::plain::{message, quietly, Ending};
use oracle::print;
use oracle::published;
use oracle::value::{shown_bits, Value};

const STEPS: u64 = 2_000_000;

/// `Add for &Quantity` in quantity.rs, both units scalar.
fn quantity_add(lhs: f64, rhs: f64) -> f64 {
    if lhs == 0.0 {
        rhs
    } else if rhs == 0.0 {
        lhs
    } else {
        lhs + rhs
    }
}

/// `Sub for &Quantity` in quantity.rs, both units scalar.
fn quantity_sub(lhs: f64, rhs: f64) -> f64 {
    if lhs == 0.0 {
        -rhs
    } else if rhs == 0.0 {
        lhs
    } else {
        lhs - rhs
    }
}

fn runner(image: &str) -> String {
    print::runner(&hex(image))
}

fn lister(image: &str) -> String {
    String::from_utf8(print::lister(&hex(image))).unwrap()
}

/// The Rust after one run of an image, and how that ended.
fn rust(image: &str) -> (Ending, Rust) {
    rust_of(&parse(&hex(image)).unwrap())
}

fn rust_of(program: &Program) -> (Ending, Rust) {
    let mut vm = published::machine(program);
    (published::run(&mut vm, STEPS), vm)
}

fn answers(image: &str, boolean: bool) -> bool {
    matches!(rust(image).0, Ending::Value(Value::Boolean(b)) if b == boolean)
}

fn panic_of(image: &str) -> (String, Rust) {
    match rust(image) {
        (Ending::Panicked(words), vm) => (words, vm),
        (other, _) => panic!("no panic: {other:?}"),
    }
}

/// Stores with room for more than any limit lets in.
fn large() -> Machine {
    let stores = Stores {
        constants: 70_000,
        structs: 70_000,
        functions: 70_000,
        main_code: 70_000,
        other_code: 70_000,
        text: 1_000_000,
        ..Stores::RUNNER
    };
    Machine::new(stores).unwrap()
}

#[test]
fn difference_1_the_sign_of_zero() {
    let image = "020000000000000000000000000000000000800001063C6D61696E3E0800000000010008250800";
    assert_eq!(
        runner(image),
        "value scalar 0000000000000000\nspent 4\nstack 0\n"
    );
    assert_eq!(quantity_add(0.0, -0.0).to_bits(), 0x8000_0000_0000_0000);

    let image = "010000000000000000000001063C6D61696E3E0800000000000009250800";
    assert_eq!(
        runner(image),
        "value scalar 0000000000000000\nspent 4\nstack 0\n"
    );
    assert_eq!(quantity_sub(0.0, 0.0).to_bits(), 0x8000_0000_0000_0000);

    // Among all pairs of the special scalars these two alone differ.
    let scalars = SCALARS.map(f64::from_bits);
    for l in scalars {
        for r in scalars {
            let add = shown_bits(quantity_add(l, r)) != shown_bits(l + r);
            let sub = shown_bits(quantity_sub(l, r)) != shown_bits(l - r);
            let zero = l.to_bits() == 0;
            assert_eq!(add, zero && r.to_bits() == (-0.0f64).to_bits());
            assert_eq!(sub, zero && r.to_bits() == 0);
        }
    }
}

#[test]
fn difference_2_a_shared_list_with_a_nan() {
    let image = "0100000000000000F87F0001063C6D61696E3E0B00000024010003000012250B00";
    assert_eq!(runner(image), "value false\nspent 6\nstack 0\n");
    assert!(answers(image, true));
    // NotEqual.
    let image = image.replace("1225", "1325");
    assert_eq!(runner(&image), "value true\nspent 6\nstack 0\n");
    assert!(answers(&image, false));

    // Inside a struct too; a NaN in a struct itself is different in both.
    let image = "0100000000000000F87F01015301063C6D61696E3E10000000240100220000010003000012251000";
    assert_eq!(runner(image), "value false\nspent 8\nstack 0\n");
    assert!(answers(image, true));
    let image = "0100000000000000F87F01015301063C6D61696E3E0D000000220000010003000012250D00";
    assert_eq!(runner(image), "value false\nspent 6\nstack 0\n");
    assert!(answers(image, false));
}

#[test]
fn difference_3_operand_counts_of_the_listing() {
    // The unused operand of a CallCallable is 38: it runs, and 000 would cast it.
    let image = "010301660002063C6D61696E3E080000001F000026000800016600";
    assert_eq!(runner(image), "continue\nspent 2\nstack 0\n");
    assert!(lister(image).contains("  0003 CallCallable  0 38\n.CODE 1 (f)\n"));
    assert_eq!(rust(image).1.listing(), None);
    // Cut before it: 000 lists it, and it does not run.
    let image = "010301660002063C6D61696E3E060000001F00000600016600";
    assert_eq!(runner(image), "fault 3\nspent 2\nstack 0\nat 0 0 0\n");
    assert_eq!(lister(image), "refused 3\n");
    let theirs = rust(image).1.listing().unwrap();
    assert!(theirs.contains("  0003 CallCallable  0\n"));
    // 000 lists Factorial's order as the next instruction.
    let image = "010000000000000008400001063C6D61696E3E07000000070100250700";
    assert!(lister(image).contains("  0003 Factorial     1\n  0006 Return        \n"));
    let theirs = rust(image).1.listing().unwrap();
    assert!(theirs.contains("  0003 Factorial     \n  0004 ApplyPrefix   9472\n"));
}

#[test]
fn difference_4_panics_leave_the_machine_as_it_stood() {
    let image = "0100000000000000F03F0001063C6D61696E3E07000000000000160700";
    assert_eq!(runner(image), "fault 5\nspent 3\nstack 0\nat 0 0 0\n");
    let (words, vm) = panic_of(image);
    assert_eq!(words, "Expected value to be a bool");
    assert_eq!((vm.stack().len(), vm.frames()[0].position), (1, 7));
}

#[test]
fn difference_5_return_drops_its_frame_before_it_pops() {
    let image = "000002063C6D61696E3E051C010000000500016601250100";
    assert_eq!(
        runner(image),
        "fault 4\nspent 2\nstack 0\nat 1 0 1\nat 0 0 0\n"
    );
    let (_, vm) = panic_of(image);
    assert_eq!(vm.frames().len(), 1);
}

#[test]
fn difference_6_call_of_an_unknown_function() {
    // The frame is pushed, and the panic comes when its end is looked for.
    let image = "000001063C6D61696E3E051C010000000500";
    assert_eq!(runner(image), "fault 6\nspent 1\nstack 0\nat 0 0 0\n");
    let (words, vm) = panic_of(image);
    assert!(words.starts_with("index out of bounds"));
    assert_eq!(vm.frames().len(), 2);
    // With too few arguments the count is found wrong first.
    let image = "000001063C6D61696E3E051C010001000500";
    assert_eq!(runner(image), "fault 6\nspent 1\nstack 0\nat 0 0 0\n");
    assert_eq!(panic_of(image).0, "attempt to subtract with overflow");
}

#[test]
fn difference_7_an_unknown_struct_before_a_missing_operand() {
    let image = "000001063C6D61696E3E032200000300";
    assert_eq!(runner(image), "fault 3\nspent 1\nstack 0\nat 0 0 0\n");
    assert_eq!(panic_of(image).0, "Missing struct metadata");
}

#[test]
fn difference_8_bytes_of_38_and_more() {
    let image = "000001063C6D61696E3E01260100";
    assert_eq!(runner(image), "fault 1\nspent 1\nstack 0\nat 0 0 0\n");
    assert_eq!(lister(image), "refused 1\n");
    // It is stopped before it casts.
    let (ending, vm) = rust(image);
    assert!(matches!(ending, Ending::UndefinedCast(38)));
    assert_eq!(vm.listing(), None);
}

#[test]
fn difference_9_backtrace_outside_the_code() {
    let fresh = Rust::new();
    assert!(quietly(|| fresh.backtrace()).is_err());
    let machine = Machine::new(Stores::RUNNER).unwrap();
    assert_eq!(machine.backtrace(), Err(Refused::Backtrace));

    // P6's second frame, and P7.
    for codes in [&["1C 01 00 00 00", ""][..], &["1B 05 00"]] {
        let program = common::program(&[], codes);
        let (ending, vm) = rust_of(&program);
        assert!(matches!(ending, Ending::Continue));
        assert!(quietly(|| vm.backtrace()).is_err());
        let mut machine = common::machine(&program);
        machine.run(1_000);
        assert_eq!(machine.backtrace(), Err(Refused::Backtrace));
    }

    // The listing's notes, and an operand that is cut.
    for (image, ours) in [
        (
            "000001063C6D61696E3E030005000300",
            "  0000 LoadConstant  5\n",
        ),
        (
            "000001063C6D61696E3E051C050000000500",
            "  0000 Call          5 0\n",
        ),
        ("000001063C6D61696E3E0200000200", "refused 3\n"),
    ] {
        let (_, vm) = rust(image);
        assert!(quietly(|| vm.listing()).is_err(), "{image}");
        assert!(lister(image).ends_with(ours), "{image}");
    }
}

#[test]
fn difference_10_current_offset_is_cut_to_sixteen_bits() {
    let mut vm = Rust::new();
    let mut machine = large();
    for _ in 0..65_535 {
        vm.emit(Op::Return as u8, &[], 0);
        machine.add_op(Op::Return, 0).unwrap();
    }
    vm.emit(Op::Return as u8, &[], 0);
    assert_eq!(vm.current_offset(), 0);
    assert_eq!(machine.add_op(Op::Return, 0), Err(Refused::Limit));
    assert_eq!(machine.current_offset(), 65_535);
}

#[test]
fn difference_11_a_constant_too_many_is_pushed_first() {
    let mut vm = Rust::new();
    for _ in 0..65_535 {
        vm.add_constant(Constant::Boolean(true));
    }
    let refused = quietly(|| vm.add_constant(Constant::Boolean(true)));
    assert!(message(&*refused.unwrap_err()).starts_with("assertion failed"));
    assert_eq!(vm.constants.len(), 65_536);

    let mut machine = large();
    let constant = oracle::image::Constant::Boolean(true);
    machine.program.constants = vec![constant.clone(); 65_534];
    assert_eq!(machine.add_constant(constant.clone()), Ok(65_534));
    assert_eq!(machine.add_constant(constant), Err(Refused::Limit));
    assert_eq!(machine.program.constants.len(), 65_535);
}

#[test]
fn difference_12_half_a_patch() {
    let mut vm = Rust::new();
    vm.emit(Op::Return as u8, &[], 0);
    assert!(quietly(|| vm.patch_u16_value_at(0, 7)).is_err());
    assert_eq!(vm.code(0), [7]);

    let mut machine = Machine::new(Stores::RUNNER).unwrap();
    machine.add_op(Op::Return, 0).unwrap();
    assert_eq!(machine.patch_u16_value_at(0, 7), Err(Refused::Patch));
    assert_eq!(machine.program.functions[0].code, [37]);
}

#[test]
fn difference_13_function_numbers_past_sixteen_bits() {
    let mut vm = Rust::new();
    for _ in 0..65_536 {
        vm.begin("f");
    }
    let refused = quietly(|| vm.function_number("f"));
    assert!(message(&*refused.unwrap_err()).starts_with("assertion failed"));
    let mut machine = large();
    let f = Function {
        name: b"f".to_vec(),
        ..Function::default()
    };
    machine.program.functions.resize(65_535, f);
    machine.begin_function(b"f").unwrap();
    assert_eq!(machine.begin_function(b"f"), Err(Refused::Limit));
    assert_eq!(machine.get_function_idx(b"f"), Ok(65_535));

    // A name that is not there.
    let refused = quietly(|| vm.function_number("g"));
    assert!(message(&*refused.unwrap_err()).contains("unwrap"));
    assert_eq!(machine.get_function_idx(b"g"), Err(Refused::NoSuchFunction));

    // A struct too many; a known name is none.
    let names = (0..65_535u32).map(|number| number.to_le_bytes().to_vec());
    machine.program.structs = names.collect();
    assert_eq!(machine.add_struct_info(b"last"), Ok(65_535));
    assert_eq!(machine.add_struct_info(b"one more"), Err(Refused::Limit));
    assert_eq!(machine.add_struct_info(&7u32.to_le_bytes()), Ok(7));
}

#[test]
fn difference_14_dead_lists_keep_their_cells() {
    // Call f 0; LoadConstant 0; Equal; JumpIfFalse 0: f leaves a list of 127,
    // which is then dropped. Sixteen times fills the cells, the next faults.
    let once = "1C 01 00 00 00 00 00 00 12 1A 00 00 ";
    let f = format!("{} 24 7F 00 25", "00 00 00 ".repeat(127));
    for (times, fault) in [(16, None), (17, Some(11))] {
        let constants = [common::number(1.0)];
        let program = common::program(&constants, &[&once.repeat(times), &f]);
        let report = common::machine(&program).run(1_000_000);
        assert_eq!(common::fault(&report), fault);
        assert!(matches!(rust_of(&program).0, Ending::Continue));
    }
}

#[test]
fn difference_15_text_is_bytes() {
    let image = "010201FF0001063C6D61696E3E04000000250400";
    assert_eq!(runner(image), "value string 1\nspent 2\nstack 0\n");
}

#[test]
fn difference_16_comparing_shared_nestings_costs_each_pair() {
    // Nineteen levels, each holding the one below twice, compared with itself.
    let mut code = "00 00 00 ".to_owned();
    for level in 0..19 {
        code += &format!("04 {level:02X} 00 04 {level:02X} 00 24 02 00 ");
    }
    code += "04 13 00 12 25";
    let program = common::program(&[common::number(1.0)], &[&code]);
    let mut machine = common::machine(&program);
    let report = machine.run(1_000_000);
    assert_eq!(common::fault(&report), Some(13));
    assert_eq!(report.spent, 1_000_000);
    assert!(matches!(
        rust_of(&program).0,
        Ending::Value(Value::Boolean(true))
    ));
    // All units there are would do: 2^20 - 2 pairs and 61 instructions.
    let report = common::machine(&program).run(2_000_000);
    assert_eq!(report.spent, (1 << 20) - 2 + 61);
}

/// The bytes of the twelve opcodes that document 01 leaves out.
fn left_out() -> Vec<u8> {
    let left_out = OPS.iter().filter(|op| !op.is_carried());
    left_out.map(|op| *op as u8).collect()
}

#[test]
fn difference_17_twelve_opcodes_run_in_the_rust() {
    assert_eq!(left_out(), [1, 2, 7, 12, 13, 23, 24, 25, 29, 30, 32, 33]);
    // Fault 2 in the fetching step: no operand has to be there.
    for byte in left_out() {
        let report = common::machine(&common::program(&[], &[&format!("{byte:02X}")])).run(9);
        assert_eq!((common::fault(&report), report.spent), (Some(2), 1));
        assert_eq!(common::places(&report), [(0, 0)]);
    }

    // JoinString of no parts: the Rust answers an empty string.
    let image = "000001063C6D61696E3E04210000250400";
    assert_eq!(runner(image), "fault 2\nspent 1\nstack 0\nat 0 0 0\n");
    let mut vm = published::machine(&parse(&hex(image)).unwrap());
    vm.run_all_opcodes(STEPS).unwrap();
    assert_eq!(vm.last_result(), Some(&Theirs::String(String::new())));
}

/// Levels of a struct, each holding the one below twice, on top of the stack.
fn doubled_structs(levels: usize, behind: &str) -> Program {
    let mut code = "00 00 00 ".to_owned();
    for level in 0..levels {
        code += &format!("04 {level:02X} 00 04 {level:02X} 00 22 00 00 02 00 ");
    }
    common::program(&[common::number(1.0)], &[&(code + behind)])
}

/// The values of a tree that shares nothing.
fn count(value: &Theirs) -> u64 {
    match value {
        Theirs::StructInstance(_, fields) => 1 + fields.iter().map(count).sum::<u64>(),
        _ => 1,
    }
}

#[test]
fn difference_18_the_rust_copies_structs() {
    for levels in 1..=12 {
        let (_, vm) = rust_of(&doubled_structs(levels, ""));
        let top = vm.stack().last().unwrap();
        assert_eq!(count(top), (1 << (levels + 1)) - 1);
    }
    // Thirty levels: the Rust is stopped on the way, here they are 93 units.
    let thirty = doubled_structs(30, "23 00 00 25");
    assert!(matches!(rust_of(&thirty).0, Ending::Bound("copies")));
    let mut machine = common::machine(&thirty);
    let report = machine.run(1_000_000);
    assert!(matches!(
        report.answer,
        Answer::Value(Value::StructInstance(0, _))
    ));
    assert_eq!((report.spent, machine.cells_used), (93, 90));
}

#[test]
fn difference_19_a_backtrace_names_functions_or_numbers_them() {
    let constants = [common::number(1.0), common::number(0.0)];
    let divides = "00 00 00 00 01 00 0B";
    for called in [1, 2] {
        let main = format!("1C {called:02X} 00 00 00");
        let mut program = common::program(&constants, &[&main, divides, divides]);
        program.functions[1].name = b"f".to_vec();
        program.functions[2].name = b"f".to_vec();
        // Both functions have one name: the Rust does not tell which it was.
        let Ending::Error(error) = rust_of(&program).0 else {
            panic!("no error");
        };
        let names = [(b"f".to_vec(), 6), (b"<main>".to_vec(), 4)];
        assert_eq!(error.backtrace, names);
        let report = common::machine(&program).run(9);
        assert_eq!(common::fault(&report), Some(8));
        assert_eq!(common::entries(&report), [(called, 6, 1), (0, 4, 0)]);
    }
    let image = "0200000000000000F03F0000000000000000000003063C6D61696E3E051C02000000\
                 05040166070000000001000B07060166070000000001000B0706";
    assert_eq!(
        runner(image),
        "fault 8\nspent 4\nstack 0\nat 2 6 1\nat 0 4 0\n"
    );
    // A panic has none; the fault that stands for it has.
    let (ending, _) = rust_of(&common::program(&[], &["06"]));
    assert!(matches!(ending, Ending::Panicked(_)));
    let report = common::machine(&common::program(&[], &["06"])).run(9);
    assert_eq!(
        (common::fault(&report), common::places(&report)),
        (Some(4), vec![(0, 0)])
    );
}
