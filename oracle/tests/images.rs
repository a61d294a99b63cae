//! The rule image: where a broken one is named, and the stores on loading.

mod common;

use common::hex;
use oracle::generate;
use oracle::image::{image, parse, Constant, Function, Program};
use oracle::limits::{Machine, Refused, Stores};
use oracle::print;

/// No constants, no structs, one function named `<main>`.
const HEAD: &str = "00 00 01 06 3C 6D 61 69 6E 3E";

#[track_caller]
fn refused_at(bytes: &str, offset: usize) {
    assert_eq!(parse(&hex(bytes)), Err(offset), "{bytes}");
}

#[test]
fn the_first_item_that_breaks_a_rule_is_named() {
    // Missing items: at the end of the input.
    refused_at("", 0);
    refused_at("00", 1);
    refused_at("00 00", 2);
    refused_at("01", 1); // a constant's kind
    refused_at("01 00", 2); // its scalar
    refused_at("01 01", 2); // its byte
    refused_at("01 02", 2); // its text
    refused_at("00 01", 2); // a struct's name
    refused_at("00 00 01", 3); // main's name
    refused_at(HEAD, 10); // the code length
    refused_at(&format!("{HEAD} 01"), 11); // the code
    refused_at(&format!("{HEAD} 01 25"), 12); // the runs
    refused_at(&format!("{HEAD} 01 25 01"), 13); // a place

    // Items cut short: where they begin.
    refused_at("80", 0);
    refused_at("01 00 00 00", 2);
    refused_at("01 02 03 61 62", 2); // a text, at its length
    refused_at("01 02 83 00", 2);
    refused_at("00 00 01 06 3C 6D 61", 3);
    refused_at(&format!("{HEAD} 03 25 25"), 11); // code, behind its length

    // Numbers that are padded or too large.
    refused_at("80 00", 0);
    refused_at("01 80 00", 1); // a kind is a number
    refused_at("01 02 80 00", 2);
    refused_at("FF FF FF FF 1F", 0);
    refused_at("00 FF FF FF FF FF 01", 1);
    refused_at(&format!("{HEAD} 80 00"), 10);
    refused_at(&format!("{HEAD} 01 25 81 00"), 12);
    refused_at(&format!("{HEAD} 01 25 01 80 00"), 13);

    // Kinds and bytes.
    refused_at("01 04", 1);
    refused_at("01 01 02", 2);

    // Names and counts.
    refused_at("00 02 01 61 01 61 01", 4);
    refused_at("00 00 00", 2);
    refused_at("00 00 01 06 3C 6D 61 69 6E 3D 00", 3);
    refused_at("00 00 01 00 00", 3);

    // Runs.
    refused_at(&format!("{HEAD} 02 25 25 00 00"), 13); // empty
    refused_at(&format!("{HEAD} 02 25 25 03 00"), 13); // too long
    refused_at(&format!("{HEAD} 02 25 25 01 07 01 07"), 16); // place repeated
    refused_at(&format!("{HEAD} 02 25 25 01 07 02 07"), 15); // too long first
    refused_at(&format!("{HEAD} 02 25 25 01 07"), 15); // not enough

    // Nothing follows.
    refused_at(&format!("{HEAD} 00 00"), 11);
    refused_at(&format!("{HEAD} 01 25 01 07 01 08"), 14);
}

#[test]
fn what_is_allowed() {
    // Empty code has no runs; functions may share a name, even main's; a
    // struct may have an empty name; a place may come again later.
    let bytes = hex(
        "00 02 00 01 61 03 06 3C 6D 61 69 6E 3E 03 25 25 25 01 07 01 08 01 07 \
                     06 3C 6D 61 69 6E 3E 00 00 00",
    );
    let program = parse(&bytes).unwrap();
    assert_eq!(program.structs, [b"".to_vec(), b"a".to_vec()]);
    assert_eq!(program.functions[0].places, [7, 8, 7]);
    assert_eq!(program.functions[1].name, b"<main>");
    assert_eq!(program.functions[2].name, b"");
    assert_eq!(image(&program), bytes);
}

#[test]
fn what_is_read_is_written_again() {
    let mut read = 0;
    for index in 0..3_000 {
        let bytes = generate::case(11, index);
        match parse(&bytes) {
            Ok(program) => {
                assert_eq!(image(&program), bytes, "case {index}");
                read += 1;
            }
            Err(offset) => assert!(offset <= bytes.len(), "case {index}"),
        }
    }
    assert!(read > 2_000);
}

#[test]
fn every_cut_of_an_image_is_refused() {
    for index in 0..300 {
        let bytes = generate::case(12, index);
        if bytes.len() < 600 && parse(&bytes).is_ok() {
            for length in 0..bytes.len() {
                let offset = parse(&bytes[..length]).expect_err("a cut image");
                assert!(offset <= length);
            }
        }
    }
}

fn with_stores(program: &Program, stores: Stores) -> Option<Refused> {
    Machine::load(&image(program), stores).err()
}

#[test]
fn stores_hold_to_the_last_place() {
    let mut program = Program::new();
    program.constants = vec![
        Constant::String(b"abc".to_vec()),
        Constant::FunctionReference(b"de".to_vec()),
    ];
    program.structs = vec![b"S".to_vec(), b"abc".to_vec()];
    program.functions[0].code = vec![0x25; 5];
    program.functions[0].places = vec![0; 5];
    for length in [3, 4] {
        program.functions.push(Function {
            name: b"f".to_vec(),
            code: vec![0x25; length],
            places: vec![0; length],
        });
    }
    // Every text is copied: 3 + 2, 1 + 3, and `<main>`, f and f.
    let enough = Stores {
        values: 0,
        frames: 1,
        cells: 0,
        constants: 2,
        structs: 2,
        functions: 3,
        main_code: 5,
        other_code: 7,
        text: 17,
    };
    assert_eq!(with_stores(&program, enough), None);
    let too_small = [
        Stores {
            constants: 1,
            ..enough
        },
        Stores {
            structs: 1,
            ..enough
        },
        Stores {
            functions: 2,
            ..enough
        },
        Stores {
            main_code: 4,
            ..enough
        },
        Stores {
            other_code: 6,
            ..enough
        },
        Stores { text: 16, ..enough },
    ];
    for stores in too_small {
        assert_eq!(with_stores(&program, stores), Some(Refused::Store));
    }
}

#[test]
fn limits_come_before_stores() {
    let mut program = Program::new();
    program.functions[0].code = vec![0x25; 65_536];
    program.functions[0].places = vec![0; 65_536];
    assert_eq!(with_stores(&program, Stores::RUNNER), Some(Refused::Limit));
    program.functions[0].code.pop();
    program.functions[0].places.pop();
    assert_eq!(with_stores(&program, Stores::RUNNER), Some(Refused::Store));

    let mut program = Program::new();
    program.constants = vec![Constant::Boolean(true); 65_536];
    assert_eq!(with_stores(&program, Stores::RUNNER), Some(Refused::Limit));
    program.constants.pop();
    assert_eq!(with_stores(&program, Stores::RUNNER), Some(Refused::Store));

    let mut program = Program::new();
    program.functions.resize(65_537, Function::default());
    assert_eq!(with_stores(&program, Stores::RUNNER), Some(Refused::Limit));
    program.functions.pop();
    assert_eq!(with_stores(&program, Stores::RUNNER), Some(Refused::Store));
}

#[test]
fn an_image_too_long_is_not_read() {
    // Broken too, but its length comes first.
    let bytes = vec![0xFF; 16_385];
    assert_eq!(print::runner(&bytes), "refused 22\n");
    assert_eq!(print::lister(&bytes), b"refused 22\n");
    assert_eq!(print::runner(&bytes[1..]), "refused 20\n");
    assert_eq!(print::lister(&bytes[1..]), b"refused 20\n");
}

#[test]
fn the_lister_refuses_what_it_meets_first() {
    let list = |codes: &[&str]| print::lister(&image(&common::program(&[], codes)));
    assert_eq!(list(&["25 26"]), b"refused 1\n");
    assert_eq!(list(&["00 00"]), b"refused 3\n");
    assert_eq!(list(&["00 00", "26"]), b"refused 3\n");
    assert_eq!(list(&["25", "26", "00"]), b"refused 1\n");
    // Known and not carried is listed.
    assert_eq!(
        list(&["1E 01 00 02 00 FF FF", ""]),
        b".CODE 0 (<main>)\n  0000 FFICallProcedure 1 2 65535\n.CODE 1 (f1)\n"
    );
}
