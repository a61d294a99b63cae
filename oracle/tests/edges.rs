//! `oracle tally`: the edges are measured rightly, and all of them are among
//! the generated images.

use oracle::edges::{tally, MOST_TEXT};
use oracle::generate::case;
use oracle::image::{image, numbers, parse, Constant, Program, Role};
use oracle::limits::text;

fn of(bytes: &[u8]) -> Vec<String> {
    let counted = tally(std::iter::once(bytes.to_vec()));
    let found = counted.into_iter().filter(|(_, count)| *count == 1);
    found.map(|(edge, _)| edge).collect()
}

#[test]
fn no_bytes() {
    assert_eq!(of(b""), ["bytes of image 0"]);
}

#[test]
fn a_new_program_has_no_constants_structs_and_code() {
    assert_eq!(
        of(&image(&Program::new())),
        [
            "number of constants 0",
            "number of structs 0",
            "length of a code 0"
        ]
    );
}

/// 256 constants; the last of them is pushed until the stack is full.
#[test]
fn full_stores() {
    let mut program = Program::new();
    program.constants = vec![Constant::Boolean(true); 256];
    program.functions[0].code = [0, 255, 0].repeat(1_024);
    program.functions[0].places = vec![65_536; 3 * 1_024];
    assert_eq!(
        of(&image(&program)),
        [
            "constants 256",
            "values 1024",
            "number of structs 0",
            "place 65536"
        ]
    );
    program.functions[0].code = [0, 255, 0].repeat(1_025);
    program.functions[0].places = vec![0; 3 * 1_025];
    assert!(of(&image(&program)).contains(&"values 1025".to_owned()));
}

#[test]
fn large_numbers_are_found_in_broken_images() {
    let bytes = [0xFF, 0xFF, 0xFF, 0xFF, 0x0F];
    assert_eq!(parse(&bytes), Err(5));
    assert_eq!(of(&bytes), ["number of constants 4294967295"]);
    let found = numbers(&[1, 2, 0xFF, 0xFF, 0x03]);
    let found: Vec<_> = found.iter().map(|n| (n.role, n.offset, n.value)).collect();
    assert_eq!(
        found,
        [
            (Role::Constants, 0, 1),
            (Role::Kind, 1, 2),
            (Role::Text, 2, 65_535)
        ]
    );
}

#[test]
fn no_image_that_is_read_has_more_text() {
    let mut program = Program::new();
    program.constants = vec![Constant::String(vec![b'x'; MOST_TEXT - 6])];
    assert_eq!((image(&program).len(), text(&program)), (16_384, MOST_TEXT));
}

#[test]
fn all_edges_are_among_six_thousand() {
    for (edge, count) in tally((0..6_000).map(|index| case(2, index))) {
        assert!(count > 0, "{edge}");
    }
}
