//! Rule sources: what they say, what is wrong with them, and the examples.

mod common;

use std::path::Path;

use common::{hex, number};
use oracle::asm::assemble;
use oracle::generate;
use oracle::image::{image, parse, Constant, Program, MAIN};
use oracle::op::OPS;
use oracle::print;
use oracle::source::{comes_back, source};

#[track_caller]
fn program(source: &str) -> Program {
    assemble(source.as_bytes()).unwrap_or_else(|errors| panic!("{errors:?}"))
}

#[track_caller]
fn main_code(source: &str) -> Vec<u8> {
    program(source).functions.swap_remove(0).code
}

fn example(file: &str) -> Vec<u8> {
    let path = Path::new(env!("CARGO_MANIFEST_DIR"))
        .join("../examples")
        .join(file);
    std::fs::read(&path).unwrap_or_else(|error| panic!("{file}: {error}"))
}

#[test]
fn p1_with_all_places_0_is_the_image_written_out_in_document_01() {
    assert_eq!(
        example("P1-places-0.img"),
        hex(
            "02 00 00 00 00 00 00 00 45 40 00 00 00 00 00 00 00 F0 3F 00 01 06 3C 6D 61 69 6E 3E \
             08 00 00 00 00 01 00 08 25 08 00"
        )
    );
}

#[test]
fn nothing_said_is_an_empty_main() {
    for source in [
        "main",
        "main\n",
        "# nothing\n  \t # more\nmain",
        "\u{FEFF}main\r\n",
    ] {
        assert_eq!(program(source), Program::new(), "{source:?}");
    }
}

#[test]
fn every_carried_instruction_has_its_name_and_as_many_operands_as_the_machine_reads() {
    for op in OPS.into_iter().filter(|op| op.is_carried()) {
        let operands = [258, 772];
        let operands = &operands[..op.operands_read()];
        let mut source = (0..=258)
            .map(|n| format!("constant c{n} boolean true\nstruct s{n}\nfunction f{n}\n"))
            .collect::<String>();
        source += &format!("main\n{}", op.to_string());
        let mut code = vec![op as u8];
        for operand in operands {
            source += &format!(" {operand}");
            code.extend(u16::to_le_bytes(*operand));
        }
        assert_eq!(main_code(&source), code, "{source}");
    }
}

#[test]
fn names_stand_for_numbers_wherever_their_lines_are() {
    let source = "
main
  LoadConstant b
  Call g 1
  BuildStructInstance T 2
constant a scalar 1
constant b scalar 2
struct S
struct T
function f
function g";
    assert_eq!(
        main_code(source),
        hex("00 01 00  1C 02 00 01 00  22 01 00 02 00")
    );
    // A constant, a struct, a function and a label may share a name.
    let source =
        "constant x scalar 1\nstruct x\nfunction x\nJump x\nx:\nLoadConstant x\nCall x 0\n\
                  main";
    assert_eq!(
        program(source).functions[1].code,
        hex("1B 00 00  00 00 00  1C 01 00 00 00")
    );
}

#[test]
fn labels_belong_to_their_function() {
    let source = "
main
  Jump on
  Return
on:
  JumpIfFalse end
  Jump end
end:
function f
  Jump on
  Return
  Return
on:";
    let program = program(source);
    assert_eq!(
        program.functions[0].code,
        hex("1B 01 00  25  1A 03 00  1B 00 00")
    );
    assert_eq!(program.functions[1].code, hex("1B 02 00 25 25"));
}

#[test]
fn constants_of_all_kinds() {
    let source = r#"
constant a scalar 0.1            # rounded to nearest
constant b scalar -0
constant c scalar 1e-400         # too small for any other number than 0
constant d scalar 0x7ff0000000000001
constant e boolean true
constant f boolean false
constant g string "a # \"b\" \\ \x00\xfF é"   # a comment
constant h string ""
constant i reference late
constant j reference main
constant k reference "nobody"
function late "its text"
main
"#;
    let text = |text: &[u8]| text.to_vec();
    assert_eq!(
        program(source).constants,
        [
            number(0.1),
            number(-0.0),
            number(0.0),
            Constant::Scalar(0x7FF0_0000_0000_0001),
            Constant::Boolean(true),
            Constant::Boolean(false),
            Constant::String(text(b"a # \"b\" \\ \x00\xFF \xC3\xA9")),
            Constant::String(text(b"")),
            Constant::FunctionReference(text(b"its text")),
            Constant::FunctionReference(MAIN.to_vec()),
            Constant::FunctionReference(text(b"nobody")),
        ]
    );
}

#[test]
fn texts_stand_for_names_in_the_image() {
    let source = "struct a \"Meter 1\"\nstruct b\nfunction old \"f\"\nfunction new \"f\"\nmain\n\
                  Call old 0\nCall new 0";
    let program = program(source);
    assert_eq!(program.structs, [b"Meter 1".to_vec(), b"b".to_vec()]);
    assert_eq!(program.functions[1].name, b"f");
    assert_eq!(program.functions[2].name, b"f");
    assert_eq!(
        program.functions[0].code,
        hex("1C 01 00 00 00 1C 02 00 00 00")
    );
}

#[test]
fn a_place_is_the_line_unless_said() {
    let source = "main\nAdd\n\nGetLocal 0\nplace 4294967295\nAdd\nplace line\nAdd\nbytes 1B 05";
    let program = program(source);
    assert_eq!(program.functions[0].code, hex("08 03 00 00 08 08 1B 05"));
    assert_eq!(program.functions[0].places, [2, 4, 4, 4, u32::MAX, 8, 9, 9]);
}

#[test]
fn every_image_comes_back_from_its_source() {
    let mut sources = 0;
    for index in 0..2_000 {
        if let Some(same) = comes_back(&generate::case(20, index)) {
            assert!(same, "{index}");
            sources += 1;
        }
    }
    assert!(sources > 1_000, "{sources}");
}

#[test]
fn a_source_says_what_no_instruction_says_by_bytes() {
    let said = "constant c0 scalar 1\nconstant c1 scalar 0x7FF8000000000001\n\
                constant c2 string \"a \\\"\\x00\"\nstruct s0 \"\"\nstruct Meter\n\nmain\n\
                place 7\n  LoadConstant c2\n  JumpIfFalse at12\n  Jump 9999\n  \
                bytes FF\n  bytes FF\n  bytes FF\nat12:\n  Call f1 0\n\
                place 8\n  bytes 1C\nplace 9\n  bytes 0C\n\nfunction f1 \"two words\"\n\n\
                function twice\nplace 1\n  Jump at3\nat3:\n";
    let written = source(&program(said));
    assert_eq!(
        written.split_once('\n').map(|(_, rest)| rest),
        Some(said),
        "{written}"
    );
}

#[track_caller]
fn wrong(source: &str, line: usize, words: &str) {
    // A main is put behind those that are about something else.
    let source = if source.contains("main") {
        source.to_owned()
    } else {
        format!("{source}\nmain")
    };
    let errors = assemble(source.as_bytes()).expect_err(&source);
    assert_eq!(
        errors
            .iter()
            .map(|error| (error.line, error.words.as_str()))
            .collect::<Vec<_>>(),
        [(line, words)],
        "{source}"
    );
}

#[test]
fn what_is_wrong_in_a_line() {
    wrong(
        "\n\"text\"",
        2,
        "a line begins with a word, not with a text; see examples/README.md",
    );
    wrong(
        "# first\nmain\nmultiplication x",
        3,
        "`multiplication` is no statement and no instruction; instructions are named as in the listing \
         (docs/RULES.md, Opcodes)",
    );
    wrong(
        "main\nloadconstant 0",
        2,
        "`loadconstant` is not understood; did you mean LoadConstant?",
    );
    wrong(
        "main\nPower",
        2,
        "Power is known and not carried: the machine faults 2 there; write another instruction, \
         or `bytes 0C` if the fault is what you want",
    );
    wrong(
        "Add",
        1,
        "code stands outside every function; put a line `main` or `function NAME` before it",
    );
    wrong(
        "x:",
        1,
        "code stands outside every function; put a line `main` or `function NAME` before it",
    );
    wrong(
        "main\nx: Add",
        2,
        "something follows the label x:; put it on a line of its own",
    );
    wrong(
        "main\n7:",
        2,
        "`7` is no name; a name is a letter, then letters, digits, _ and -",
    );
    wrong(
        "main\nbytes",
        2,
        "bytes is followed by code bytes, two hex digits each: bytes 1B 05",
    );
    wrong(
        "main\nbytes 1B5",
        2,
        "bytes is followed by code bytes, two hex digits each: bytes 1B 05",
    );
    wrong(
        "place -1",
        1,
        "`-1` is no place; write a number below 4294967296, or the word line",
    );
    wrong(
        "place 4294967296",
        1,
        "`4294967296` is no place; write a number below 4294967296, or the word line",
    );
    wrong(
        "place",
        1,
        "place is followed by a number, or by the word line",
    );
    wrong(
        "main <main>",
        1,
        "nothing follows main; its code begins on the next line",
    );
    assert_eq!(
        assemble(b"main\n# caf\xE9").unwrap_err()[0].to_string(),
        "line 2: this is no UTF-8 text; write such bytes of a text as \\xHH"
    );
}

#[test]
fn what_is_wrong_with_operands() {
    wrong(
        "main\nAdd 1",
        2,
        "Add has no operand, and one is given here",
    );
    wrong(
        "main\nLoadConstant",
        2,
        "LoadConstant has one operand (a constant's name or number), and none is given here",
    );
    wrong(
        "main\nCall f 1 2",
        2,
        "Call has two operands (a function's name or number, then a number), and 3 are given here",
    );
    wrong(
        "main\nGetLocal x",
        2,
        "`x` cannot be an operand here; GetLocal takes a number, and a number is at most 65535",
    );
    wrong(
        "main\nBuildList 65536",
        2,
        "`65536` cannot be an operand here; BuildList takes a number, and a number is at most \
         65535",
    );
    wrong(
        "main\nJump -3",
        2,
        "`-3` cannot be an operand here; Jump takes a label, or how many bytes to pass over, and \
         a number is at most 65535",
    );
    wrong(
        "main\nLoadConstant \"no\"",
        2,
        "an operand of LoadConstant stands in quotes; give the text a name by a line `constant \
         NAME string ..` and use that",
    );
    wrong(
        "main\nLoadConstant rate\n",
        2,
        "no constant is named rate; add a line `constant rate ..` or correct the name",
    );
    wrong(
        "main\nCall f 0",
        2,
        "no function is named f; add a line `function f ..` or correct the name",
    );
    wrong(
        "constant f reference f",
        1,
        "no function is named f; add a line `function f`, or put the name in quotes to refer to \
         a function that is not here",
    );
    wrong(
        "main\nJump on\nfunction f\non:",
        2,
        "this function has no label on; add a line `on:` where the jump is to go",
    );
    wrong(
        "main\nback:\nAdd\nJump back",
        4,
        "the label back stands before this jump, and jumps only go forward; put the label below, \
         or repeat by a Call",
    );
}

#[test]
fn what_is_wrong_with_definitions() {
    let shape = "a constant has a name, a kind and a value, as in: constant rate scalar 1.85";
    wrong("constant rate 1.85", 1, shape);
    wrong("constant rate scalar 1 85", 1, shape);
    wrong(
        "constant rate number 1",
        1,
        "`number` is no kind of constant; take scalar, boolean, string or reference",
    );
    for word in ["1,85", "inf", "nan", "-", "+1", ".5", "1x"] {
        wrong(
            &format!("constant rate scalar {word}"),
            1,
            &format!(
                "`{word}` is no scalar; write a decimal number as 42, -0.5 or 1e-3, or 0x and 16 \
                 hex digits"
            ),
        );
    }
    wrong(
        "constant rate scalar 0x40",
        1,
        "`0x40` is no scalar; after 0x write all 16 hex digits of its 64 bits",
    );
    wrong(
        "constant rate scalar 1e309",
        1,
        "1e309 is too large for a binary64 number; infinity is written 0x7FF0000000000000",
    );
    wrong(
        "constant rate scalar \"1\"",
        1,
        "a scalar stands without quotes",
    );
    wrong("constant on boolean 1", 1, "a boolean is true or false");
    wrong(
        "constant no string no",
        1,
        "a string stands in quotes, as in: constant no string \"no\"",
    );
    wrong(
        "constant no string \"no",
        1,
        "a text has no closing quote; end it with \" on its own line",
    );
    wrong(
        r#"constant no string "\n""#,
        1,
        "\\ in a text is followed by \", by \\ or by x and two hex digits (\\x0A)",
    );
    wrong(
        r#"constant no string "a"b""#,
        1,
        "something touches a closing quote; put a space there, or write a quote inside a text as \
         \\\"",
    );
    wrong(
        "constant a scalar 1\nconstant a scalar 1",
        2,
        "another constant has the name a; give this one a name of its own",
    );
    wrong(
        "struct a\nstruct a",
        2,
        "another struct has the name a; give this one a name of its own",
    );
    wrong(
        "struct a\nstruct b \"a\"",
        2,
        "another struct has this text already; in an image all struct names differ, so give this \
         one another text",
    );
    wrong(
        "function main",
        1,
        "another function has the name main; give this one a name of its own",
    );
    wrong(
        "main\nfunction f\nmain",
        3,
        "main began on line 1 already; put all of its code there",
    );
    wrong(
        "main\non:\non:",
        3,
        "this function has a label on already; give this one another name",
    );
    wrong(
        "function \"f\"",
        1,
        "a function has a name, and may have a quoted text after it that stands for it in the \
         image",
    );
    wrong(
        "struct",
        1,
        "a struct has a name, and may have a quoted text after it that stands for it in the image",
    );
    wrong(
        "struct 1st",
        1,
        "`1st` is no name; a name is a letter, then letters, digits, _ and -",
    );
}

#[test]
fn what_no_machine_can_load_is_refused_at_its_line() {
    let code = "main\n".to_owned() + &"Return\n".repeat(65_535);
    assert_eq!(program(&code).functions[0].code.len(), 65_535);
    wrong(
        &(code + "Return"),
        65_537,
        "this function's code now has more bytes than 65535, the machine's limit; take some out",
    );
    let constants: String = (0..65_535)
        .map(|n| format!("constant c{n} boolean true\n"))
        .collect();
    let with_main = |source: &str| program(&(source.to_owned() + "main"));
    assert_eq!(with_main(&constants).constants.len(), 65_535);
    wrong(
        &(constants + "constant c boolean true"),
        65_536,
        "these are more constants than 65535, the machine's limit; take some out",
    );
    // Main is one of the 65,536.
    let functions: String = (0..65_535).map(|n| format!("function f{n}\n")).collect();
    assert_eq!(with_main(&functions).functions.len(), 65_536);
    wrong(
        &(functions + "function f"),
        65_536,
        "these are more functions than 65536, the machine's limit; take some out",
    );
}

#[test]
fn the_examples_are_as_made() {
    let mut rules = 0;
    for entry in std::fs::read_dir(concat!(env!("CARGO_MANIFEST_DIR"), "/../examples")).unwrap() {
        let file = entry.unwrap().file_name().into_string().unwrap();
        let Some(name) = file.strip_suffix(".rule") else {
            continue;
        };
        let program =
            assemble(&example(&file)).unwrap_or_else(|errors| panic!("{file}, {errors:?}"));
        assert_eq!(
            comes_back(&example(&format!("{name}.img"))),
            Some(true),
            "{name}"
        );
        let image = image(&program);
        assert_eq!(parse(&image), Ok(program), "{name}");
        assert_eq!(example(&format!("{name}.img")), image, "{name}");
        assert_eq!(
            example(&format!("{name}.list")),
            print::lister(&image),
            "{name}"
        );
        assert_eq!(
            example(&format!("{name}.out")),
            print::runner(&image).as_bytes(),
            "{name}"
        );
        rules += 1;
    }
    assert!(rules >= 20, "{rules}");
}

#[test]
fn the_p_images_have_document_01s_constants_and_code() {
    let two_lists = "00 00 00 00 01 00 24 02 00 00 00 00 00 01 00 24 02 00 12 25";
    for (name, constants, codes) in [
        ("P1", [42.0, 1.0], vec!["00 00 00 00 01 00 08 25"]),
        ("P1-places-0", [42.0, 1.0], vec!["00 00 00 00 01 00 08 25"]),
        ("P2", [42.0, 1.0], vec!["00 00 00 00 01 00 08 25"]),
        ("P3", [1.0, 0.0], vec!["00 00 00 00 01 00 0B 25"]),
        (
            "P4",
            [1.0, 0.0],
            vec!["00 00 00 25 00 00 00 00 01 00 0B 25"],
        ),
        ("P5", [42.0, 1.0], vec![two_lists]),
        ("P6", [42.0, 1.0], vec!["1C 01 00 00 00", ""]),
        ("P7", [42.0, 1.0], vec!["1B 05 00"]),
        (
            "P8",
            [42.0, 1.0],
            vec!["00 00 00 00 01 00 1C 01 00 00 00 25", "08 25"],
        ),
    ] {
        let program = parse(&example(&format!("{name}.img"))).unwrap();
        assert_eq!(program.constants, constants.map(number), "{name}");
        assert!(program.structs.is_empty(), "{name}");
        let read: Vec<Vec<u8>> = program.functions.into_iter().map(|f| f.code).collect();
        let said: Vec<Vec<u8>> = codes.into_iter().map(hex).collect();
        assert_eq!(read, said, "{name}");
    }
}

#[test]
fn all_that_is_wrong_is_told_at_once_and_nothing_twice() {
    let source = "constant rate scaler 1\nfunction f\nLoadConstant rate\nGreaterOrEqual\n\
                  function 2nd\nAdd\nmain\nCall f\nLoadConstant rte";
    let errors = assemble(source.as_bytes()).unwrap_err();
    let told: Vec<String> = errors.iter().map(ToString::to_string).collect();
    assert_eq!(
        told,
        [
            "line 1: `scaler` is no kind of constant; did you mean scalar?",
            "line 4: `GreaterOrEqual` is not understood; did you mean GreatorOrEqual?",
            "line 5: `2nd` is no name; a name is a letter, then letters, digits, _ and -",
            "line 8: Call has two operands (a function's name or number, then a number), and one \
             is given here",
            "line 9: no constant is named rte; did you mean rate?",
        ]
    );
}

#[test]
fn what_cannot_be_meant_is_refused() {
    let none = "there is no main; add a line `main`, and below it the code of the rule";
    for (source, line) in [("", 1), ("# nothing\n", 2), ("function f\nReturn", 2)] {
        let errors = assemble(source.as_bytes()).unwrap_err();
        assert_eq!(errors.len(), 1, "{source}");
        assert_eq!(
            (errors[0].line, errors[0].words.as_str()),
            (line, none),
            "{source}"
        );
    }
    wrong(
        "constant a scalar 1\nmain\nLoadConstant 1",
        3,
        "there is no constant 1, they go from 0 to 0; correct the number, or write `bytes 00 01 \
         00` if fault 6 is what you want",
    );
    wrong(
        "main\nLoadConstant 0",
        2,
        "there is no constant 0: none is given; add a line `constant NAME ..`, or write `bytes 00 \
         00 00` if fault 6 is what you want",
    );
    wrong(
        "main\nCall 1 2",
        2,
        "there is no function 1, they go from 0 to 0; correct the number, or write `bytes 1C 01 \
         00 02 00` if fault 6 is what you want",
    );
    wrong(
        "main\nBuildStructInstance 7 0",
        2,
        "there is no struct 7: none is given; add a line `struct NAME ..`, or write `bytes 22 07 \
         00 00 00` if fault 6 is what you want",
    );
    for call in ["Call main 0", "Call 0 0"] {
        wrong(
            &format!("main\n{call}"),
            2,
            "a Call of main passes no check (rule 3); put what is to be repeated into a function \
             of its own, or write `bytes 1C 00 00 00 00` if this is what you want",
        );
    }
}

#[test]
fn near_names_are_hinted_at() {
    wrong(
        "function bill\nmain\nCall bil 0",
        3,
        "no function is named bil; did you mean bill?",
    );
    wrong(
        "main\nJump ende\nend:",
        2,
        "this function has no label ende; did you mean end?",
    );
    wrong(
        "function bill\nconstant b reference bil\nmain",
        2,
        "no function is named bil; did you mean bill?",
    );
}
