//! The listing with notes.

use oracle::image::{image, Constant, Function, Program, MAIN};
use oracle::print::{lister, noter};

fn function(name: &[u8], code: &[u8]) -> Function {
    Function {
        name: name.to_vec(),
        code: code.to_vec(),
        places: (10..).take(code.len()).collect(),
    }
}

fn noted(program: &Program) -> String {
    String::from_utf8(noter(&image(program))).unwrap()
}

#[test]
fn an_operand_is_followed_by_what_it_names() {
    let program = Program {
        constants: vec![
            Constant::Scalar(0x7FF0_0000_0000_0001),
            Constant::Boolean(false),
            Constant::String(b"a \"quote\" and 24 bytes: \xC3\xA4".to_vec()),
            Constant::FunctionReference(b"\x00day\x7F".to_vec()),
        ],
        structs: vec![b"exactly 24 bytes of name".to_vec()],
        functions: vec![
            function(
                MAIN,
                &[
                    0, 0, 0, 0, 1, 0, 0, 2, 0, 0, 3, 0, 28, 1, 0, 2, 0, 34, 0, 0, 1, 0, 27, 3, 0, 6,
                ],
            ),
            function(b"day", &[26, 255, 255, 3, 0, 0, 36, 1, 0, 31, 0, 0, 0, 0]),
        ],
    };
    assert_eq!(
        noted(&program),
        "\
.CODE 0 (<main>)
  0000 LoadConstant  0  ; scalar 7FF0000000000001  ; place 10
  0003 LoadConstant  1  ; false  ; place 13
  0006 LoadConstant  2  ; string a \"quote\" and 24 bytes: ..  ; place 16
  0009 LoadConstant  3  ; function .day.  ; place 19
  0012 Call          1 2  ; day  ; place 22
  0017 BuildStructInstance 0 1  ; exactly 24 bytes of name  ; place 27
  0022 Jump          3  ; to 0028  ; place 32
  0025 Negate          ; place 35
.CODE 1 (day)
  0000 JumpIfFalse   65535  ; to 65538  ; place 10
  0003 GetLocal      0  ; place 13
  0006 BuildList     1  ; place 16
  0009 CallCallable  0 0  ; place 19
"
    );
}

#[test]
fn an_unknown_number_is_shown_and_not_refused() {
    let mut program = Program::new();
    program.functions[0] = function(MAIN, &[0, 0, 0, 28, 1, 0, 0, 0, 34, 0, 1, 0, 0]);
    assert_eq!(
        noted(&program),
        "\
.CODE 0 (<main>)
  0000 LoadConstant  0  ; no constant  ; place 10
  0003 Call          1 0  ; no function  ; place 13
  0008 BuildStructInstance 256 0  ; no struct  ; place 18
"
    );
}

#[test]
fn what_the_lister_refuses_is_refused_alike() {
    let mut program = Program::new();
    for code in [&[6, 38][..], &[6, 0, 0]] {
        program.functions[0] = function(MAIN, code);
        let image = image(&program);
        assert_eq!(noter(&image), lister(&image));
        assert!(noter(&image).starts_with(b"refused "));
    }
    assert_eq!(noter(&[]), b"refused 20\n");
    assert_eq!(noter(&[0; 16_385]), b"refused 22\n");
}
