//! The check of an image before it is installed: each rule, and each point
//! of document 02's sentence that is easily missed.

mod common;

use common::{number, program};
use oracle::check::{self, text};
use oracle::image::{image, Constant, Program};
use oracle::{damage, generate, print};

/// Two constants, two structs, and the codes.
fn checked(codes: &[&str]) -> String {
    text(&image(&of(codes)))
}

fn of(codes: &[&str]) -> Program {
    program(&[number(1.0), Constant::Boolean(true)], codes)
}

#[track_caller]
fn breaks(rule: u32, function: usize, codes: &[&str]) {
    let refused = format!("refused 40 rule {rule} function {function}\n");
    assert_eq!(checked(codes), refused, "{codes:?}");
}

#[track_caller]
fn passes(heights: &[usize], codes: &[&str]) {
    let lines = heights.iter().enumerate();
    let lines = lines.map(|(function, height)| format!("height {function} {height}\n"));
    let passed = format!("passed\n{}", lines.collect::<String>());
    assert_eq!(checked(codes), passed, "{codes:?}");
}

// Loading comes first.

#[test]
fn an_image_that_is_not_loaded() {
    assert_eq!(text(b""), "refused 20 at 0\n");
    // Behind a whole image.
    let mut bytes = image(&of(&["25"]));
    let length = bytes.len();
    bytes.push(0);
    assert_eq!(text(&bytes), format!("refused 20 at {length}\n"));
    // The rules are not looked at.
    let mut bytes = image(&of(&["FF"]));
    bytes.push(0);
    assert!(text(&bytes).starts_with("refused 20 at "));
}

#[test]
fn an_image_too_long_is_not_even_read() {
    assert_eq!(text(&vec![0xFF; 16_384]), "refused 20 at 0\n");
    assert_eq!(text(&vec![0xFF; 16_385]), "refused 22\n");
}

#[test]
fn stores_come_before_rules() {
    let mut full = of(&[""]);
    full.functions[0].code = vec![0xFF; 8_192];
    full.functions[0].places = vec![0; 8_192];
    assert_eq!(text(&image(&full)), "refused 40 rule 1 function 0\n");
    full.functions[0].code.push(0xFF);
    full.functions[0].places.push(0);
    assert_eq!(text(&image(&full)), "refused 21\n");
    let mut many = of(&["FF"]);
    many.constants = vec![Constant::Boolean(true); 257];
    assert_eq!(text(&image(&many)), "refused 21\n");
}

/// 17 comes before 21: there are places for 256 heights, and as many for
/// functions.
#[test]
fn heights_come_before_stores() {
    let codes = vec!["25"; 257];
    assert_eq!(text(&image(&of(&codes))), "refused 17\n");
    let all = text(&image(&of(&codes[..256])));
    assert_eq!(all, "refused 40 rule 6 function 0\n");
}

/// On damaged images and on large ones: where loading refuses, the check does,
/// by the same number and offset; and elsewhere it does not.
#[test]
fn loading_and_the_check_refuse_alike() {
    let damaged = damage::each(7).into_iter();
    for image in damaged.chain((0..500).map(|index| generate::case(2, index))) {
        let loaded = print::loader(&image);
        let said = text(&image);
        if said == "refused 17\n" {
            // More functions than places for heights, and so than places.
            assert_eq!(loaded, "refused 21\n");
        } else if loaded.starts_with("refused") {
            assert_eq!(said.replace(" at ", " "), loaded);
        } else {
            assert!(said.starts_with("passed\n") || said.starts_with("refused 40 rule "));
        }
    }
}

#[test]
fn any_bytes_are_answered() {
    for length in 0..300 {
        for fill in [0, 1, 0x25, 0x7F, 0x80, 0xFF] {
            assert!(text(&vec![fill; length]).ends_with('\n'));
        }
    }
}

// Rule 1

#[test]
fn code_is_a_row_of_whole_carried_instructions() {
    passes(&[0], &[""]);
    // Unknown, and known but not carried: all of them.
    for byte in (38..=255).chain([1, 2, 7, 12, 13, 23, 24, 25, 29, 30, 32, 33]) {
        breaks(1, 0, &[&format!("{byte:02X} 00 00 00 00 00 00")]);
        // Where no path comes, too.
        breaks(1, 1, &["", &format!("00 00 00 25 {byte:02X}")]);
    }
}

#[test]
fn no_instruction_is_cut_off() {
    for code in ["00", "00 00", "1C 01 00 00", "22 00 00 00", "1F 00 00"] {
        breaks(1, 0, &[code, "00 00 00 25"]);
        breaks(1, 1, &["", &format!("00 00 00 25 {code}")]);
    }
}

#[test]
fn operands_are_those_that_the_machine_reads() {
    // CallCallable has two, so this is whole, and rule 3's.
    breaks(3, 0, &["00 00 00 1F 00 00 00 00"]);
    breaks(1, 0, &["00 00 00 1F 00 00"]);
}

// Rule 2

#[test]
fn constant_numbers_are_in_range() {
    passes(&[1], &["00 01 00"]);
    breaks(2, 0, &["00 02 00"]);
    breaks(2, 0, &["00 00 01"]);
    breaks(2, 0, &["00 FF FF"]);
}

#[test]
fn struct_numbers_are_in_range() {
    passes(&[1], &["22 01 00 00 00"]);
    breaks(2, 0, &["22 02 00 00 00"]);
}

#[test]
fn function_numbers_are_in_range() {
    passes(&[1, 1], &["1C 01 00 00 00", "00 00 00 25"]);
    breaks(2, 0, &["1C 02 00 00 00", "00 00 00 25"]);
}

#[test]
fn numbers_are_judged_where_no_path_comes() {
    breaks(2, 0, &["1B 03 00 00 02 00"]);
    breaks(2, 1, &["", "00 00 00 25 00 02 00"]);
}

/// Each sort is judged by how many there are of it, and not of another.
#[test]
fn numbers_of_one_sort_are_not_judged_by_another() {
    let answer = |constants: usize, structs: usize, code: &str| {
        let mut program = of(&[code, "00 00 00 25"]);
        program.constants.resize(constants, number(0.0));
        program.structs = (0..structs).map(|n| vec![b'A' + n as u8]).collect();
        text(&image(&program))
    };
    let broken = "refused 40 rule 2 function 0\n";
    let passed = "passed\nheight 0 1\nheight 1 1\n";
    assert_eq!(answer(3, 1, "00 02 00"), passed);
    assert_eq!(answer(1, 3, "00 02 00"), broken);
    assert_eq!(answer(1, 3, "22 02 00 00 00"), passed);
    assert_eq!(answer(3, 1, "22 02 00 00 00"), broken);
    assert_eq!(answer(3, 3, "1C 02 00 00 00"), broken);
    assert_eq!(answer(1, 0, "1C 01 00 00 00"), passed);
}

/// A reference is no number of a function; the name may be nobody's.
#[test]
fn a_reference_to_nobody_is_no_number() {
    let mut program = of(&["00 00 00 25"]);
    program.constants[0] = Constant::FunctionReference(b"nobody".to_vec());
    assert_eq!(text(&image(&program)), "passed\nheight 0 1\n");
}

/// Counts of structs and lists, offsets, slots and fields are no numbers of
/// anything: no rule before the sixth judges them.
#[test]
fn other_operands_are_not_judged_as_numbers() {
    breaks(6, 0, &["22 01 00 FF FF"]);
    breaks(6, 0, &["24 FF FF"]);
    breaks(6, 0, &["03 FF FF"]);
    passes(&[1], &["04 FF FF"]);
    passes(&[1], &["00 00 00 23 FF FF"]);
    // A struct of more fields than any constant has a number.
    passes(&[3], &["00 00 00 00 00 00 00 00 00 22 00 00 03 00"]);
}

// Rule 3

#[test]
fn no_callable_and_no_call_of_main() {
    breaks(3, 0, &["1C 00 00 00 00"]);
    breaks(3, 1, &["", "1C 00 00 00 00 25"]);
    breaks(3, 1, &["", "00 00 00 25 1F 00 00 00 00"]);
    breaks(3, 0, &["1B 05 00 1C 00 00 00 00"]);
    // Of the two that break it the lower, whichever way.
    breaks(3, 0, &["1C 00 00 00 00", "1F 00 00 00 00"]);
    breaks(3, 0, &["1F 00 00 00 00", "1C 00 00 00 00"]);
}

// Rule 4

#[test]
fn the_called_function_is_named_for_counts() {
    // Function 1 calls function 2 with none and with one.
    breaks(
        4,
        2,
        &["", "1C 02 00 00 00 1C 02 00 01 00 25", "00 00 00 25"],
    );
    // The lowest called function, not the lowest caller.
    let both = "1C 02 00 00 00 1C 02 00 01 00 1C 01 00 01 00";
    breaks(4, 1, &[both, "1C 01 00 02 00 25", "00 00 00 25"]);
}

#[test]
fn counts_are_compared_across_functions_and_where_no_path_comes() {
    breaks(4, 1, &["1C 01 00 00 00", "00 00 00 25 1C 01 00 01 00"]);
    breaks(
        4,
        1,
        &["1B 0A 00 1C 01 00 00 00 1C 01 00 01 00", "00 00 00 25"],
    );
    // A third Call that differs, the first two being alike.
    breaks(
        4,
        1,
        &[
            "1C 01 00 00 00 1C 01 00 00 00 1C 01 00 01 00",
            "00 00 00 25",
        ],
    );
}

/// A Call that no path reaches names its function all the same: it begins at
/// height 1 and may read its slot.
#[test]
fn a_call_that_no_path_reaches_sets_the_count() {
    passes(&[0, 2], &["1B 05 00 1C 01 00 01 00", "03 00 00 25"]);
    breaks(6, 1, &["", "03 00 00 25"]);
    // Its own Call counts too.
    passes(&[0, 2], &["", "03 00 00 25 1C 01 00 01 00"]);
}

#[test]
fn a_function_that_no_call_names_has_no_argument() {
    passes(&[0, 1], &["", "00 00 00 25"]);
    breaks(6, 1, &["", "25"]);
    passes(&[1, 1], &["00 00 00 1C 01 00 01 00", "25"]);
}

// Rule 5

#[test]
fn jumps_land_on_an_instruction() {
    // Over one instruction, and over none.
    passes(&[1], &["1B 03 00 00 00 00 00 01 00"]);
    passes(&[1], &["1B 00 00 00 00 00"]);
    // Into an operand, or past the end.
    for offset in 1..3 {
        breaks(5, 0, &[&format!("1B {offset:02X} 00 00 00 00 05")]);
    }
    breaks(5, 0, &["1B 01 00"]);
    breaks(5, 0, &["1B 05 00"]);
    breaks(5, 0, &["1B FF FF 05"]);
    breaks(5, 0, &["00 01 00 1A 04 00 00 00 00"]);
}

#[test]
fn only_in_main_do_jumps_land_on_the_end() {
    passes(&[0], &["1B 00 00"]);
    passes(&[0], &["1B 03 00 00 00 00"]);
    passes(&[1], &["00 01 00 1A 00 00"]);
    breaks(5, 1, &["", "1B 00 00"]);
    breaks(5, 1, &["", "1B 04 00 00 00 00 25"]);
    breaks(5, 1, &["", "00 01 00 1A 04 00 00 00 00 25"]);
    passes(&[0, 1], &["", "1B 03 00 00 00 00 00 00 00 25"]);
}

#[test]
fn jumps_are_judged_where_no_path_comes() {
    breaks(5, 1, &["", "00 00 00 25 1B 00 00"]);
    breaks(5, 1, &["", "00 00 00 25 1A 01 00 05"]);
    passes(&[0, 1], &["", "00 00 00 25 1A 00 00 05"]);
    breaks(5, 0, &["1B 03 00 1B 01 00"]);
}

/// The offset is unsigned: there is no way back.
#[test]
fn no_jump_goes_back() {
    breaks(5, 0, &["00 00 00 1B FA FF"]);
}

// Rule 6

#[test]
fn no_instruction_pops_below_the_base() {
    for unary in ["06", "16", "1A 00 00", "23 00 00", "25"] {
        breaks(6, 0, &[unary]);
        breaks(
            6,
            1,
            &["00 00 00 1C 01 00 00 00", &format!("{unary} 05 25")],
        );
    }
    for byte in (0x08..=0x0B).chain(0x0E..=0x15) {
        breaks(6, 0, &[&format!("{byte:02X}")]);
        breaks(6, 0, &[&format!("00 00 00 {byte:02X}")]);
        passes(&[2], &[&format!("00 00 00 00 00 00 {byte:02X}")]);
    }
    // What stands below the base is not the function's.
    breaks(6, 1, &["00 00 00 00 00 00 1C 01 00 01 00", "08 25"]);
    passes(&[2, 2], &["00 00 00 00 00 00 1C 01 00 02 00", "08 25"]);
}

#[test]
fn building_pops_as_many_as_it_says() {
    passes(&[1], &["24 00 00"]);
    passes(&[2], &["00 00 00 00 00 00 24 02 00"]);
    breaks(6, 0, &["00 00 00 00 00 00 24 03 00"]);
    passes(&[2], &["00 00 00 00 00 00 22 00 00 02 00"]);
    breaks(6, 0, &["00 00 00 00 00 00 22 00 00 03 00"]);
    // It leaves one, whatever it took.
    passes(&[3], &["00 00 00 00 00 00 24 02 00 00 00 00 00 00 00"]);
    breaks(6, 0, &["00 00 00 00 00 00 24 02 00 08"]);
}

#[test]
fn a_slot_is_below_the_height() {
    breaks(6, 0, &["03 00 00"]);
    passes(&[2], &["00 00 00 03 00 00"]);
    breaks(6, 0, &["00 00 00 03 01 00"]);
    // Counted from the base, arguments first.
    passes(&[1, 2], &["00 00 00 1C 01 00 01 00", "03 00 00 25"]);
    breaks(6, 1, &["00 00 00 1C 01 00 01 00", "03 01 00 25"]);
    // GetUpvalue counts from the bottom of the stack, which is not judged.
    passes(&[1, 1], &["1C 01 00 00 00", "04 09 00 25"]);
}

#[test]
fn a_call_passes_no_more_than_the_height() {
    breaks(6, 0, &["1C 01 00 01 00", "00 00 00 25"]);
    breaks(6, 0, &["00 00 00 1C 01 00 02 00", "00 00 00 25"]);
    // It leaves the values below its arguments, and one more.
    passes(
        &[3, 2],
        &["00 00 00 00 00 00 1C 01 00 01 00 03 01 00", "03 00 00 25"],
    );
    breaks(
        6,
        0,
        &["00 00 00 00 00 00 1C 01 00 01 00 03 02 00", "03 00 00 25"],
    );
    // Passing all is allowed; what is below the base is not one's own.
    passes(
        &[1, 1, 1],
        &["00 00 00 1C 01 00 01 00", "1C 02 00 01 00 25", "25"],
    );
    breaks(
        6,
        1,
        &["00 00 00 1C 01 00 00 00", "1C 02 00 01 00 25", "25"],
    );
}

#[test]
fn return_finds_a_value() {
    breaks(6, 0, &["25"]);
    breaks(6, 1, &["", "25"]);
    // In main it pops and goes on.
    passes(&[1], &["00 00 00 25 00 00 00 25"]);
    breaks(6, 0, &["00 00 00 25 25"]);
    passes(&[2], &["00 00 00 00 00 00 25 25"]);
    // In another function it ends the path, whatever the height.
    passes(&[0, 1], &["", "00 00 00 25 25"]);
    passes(&[0, 2], &["", "00 00 00 00 00 00 25"]);
}

#[test]
fn no_path_reaches_the_end_of_another_function() {
    passes(&[0], &[""]);
    breaks(6, 1, &["", ""]);
    breaks(6, 1, &["", "00 00 00"]);
    // The last instruction can be passed.
    breaks(6, 1, &["", "00 00 00 06"]);
    breaks(6, 1, &["", "00 01 00 1A 04 00 00 00 00 25 00 00 00"]);
    passes(&[0, 1], &["", "00 01 00 1A 04 00 00 00 00 25 00 00 00 25"]);
    // A Call of itself that can never return is passed by a path all the same.
    breaks(6, 1, &["", "1C 01 00 00 00"]);
    passes(&[0, 1], &["", "1C 01 00 00 00 25"]);
}

#[test]
fn every_function_is_looked_at_called_or_not() {
    breaks(6, 2, &["", "00 00 00 25", "06 25"]);
}

#[test]
fn heights_are_the_same_along_every_path() {
    // if true then 1 else 1
    passes(&[1], &["00 01 00 1A 06 00 00 00 00 1B 03 00 00 00 00 25"]);
    // if true then 1, and nothing else
    breaks(6, 0, &["00 01 00 1A 03 00 00 00 00 05"]);
    // if true then 1 else 1, 1
    breaks(
        6,
        0,
        &["00 01 00 1A 06 00 00 00 00 1B 06 00 00 00 00 00 00 00 25"],
    );
    // The join is where a path comes by a jump and another by falling through.
    breaks(6, 1, &["", "00 01 00 1A 03 00 00 00 00 00 00 00 25"]);
}

/// The end of main is a position like another: paths that come there at two
/// heights break the rule.
#[test]
fn the_end_of_main_has_one_height_too() {
    breaks(6, 0, &["00 01 00 1A 03 00 00 00 00"]);
    passes(&[1], &["00 01 00 1A 04 00 00 00 00 25"]);
}

/// A condition's value is not looked at: both ways are paths.
#[test]
fn both_ways_of_a_condition_are_paths() {
    breaks(6, 0, &["00 01 00 1A 00 00 06"]);
    breaks(6, 0, &["00 01 00 1A 03 00 00 00 00 06"]);
}

/// Jump has one way on: what stands behind it is not reached by it.
#[test]
fn an_unconditional_jump_has_one_way_on() {
    passes(&[0], &["1B 01 00 06"]);
    passes(&[0, 1], &["", "1B 02 00 06 08 00 00 00 25"]);
    breaks(6, 0, &["00 01 00 1A 01 00 06"]);
}

#[test]
fn code_that_no_path_reaches_needs_only_the_earlier_rules() {
    // Behind a Return: pops below the base, a slot far out, falling off.
    passes(&[0, 1], &["", "00 00 00 25 08 03 FF FF 24 FF FF 25 06"]);
    // It does not count for the greatest height either.
    passes(&[0, 1], &["", "00 00 00 25 00 00 00 00 00 00 00 00 00"]);
    // A jump from there to what is reached makes no second height: over a
    // dead Jump and a dead Negate, and the dead Jump goes to the same place.
    passes(&[0, 1], &["", "1B 04 00 1B 01 00 06 00 00 00 25"]);
}

#[test]
fn the_greatest_height_is_over_all_reached_positions() {
    // The arguments count, though the function never goes above them.
    passes(
        &[3, 3],
        &["00 00 00 00 00 00 00 00 00 1C 01 00 03 00", "25"],
    );
    // The end of main counts.
    passes(&[2], &["00 00 00 00 00 00"]);
    // The higher of two ways, on the way and not at its end.
    let three = "00 00 00 00 00 00 00 00 00 24 03 00 1B 03 00";
    passes(&[3], &[&format!("00 01 00 1A 0F 00 {three} 00 00 00 25")]);
}

/// No store and no limit is a rule: a function may be taken with as many
/// arguments as an operand can say, and its heights go on from there.
#[test]
fn heights_above_sixteen_bits() {
    let main = "1B 05 00 1C 01 00 FF FF";
    passes(&[0, 65_535], &[main, "25"]);
    passes(&[0, 65_537], &[main, "05 05 08 25"]);
    passes(&[0, 65_536], &[main, "03 FE FF 25"]);
    passes(&[0, 65_537], &[main, "05 03 FF FF 25"]);
    breaks(6, 1, &[main, "03 FF FF 25"]);
    passes(&[0, 65_535], &[main, "24 FF FF 25"]);
    breaks(6, 1, &[main, "06 24 FF FF 24 02 00 25"]);
}

/// It is number 0 that makes a function main, and not the name.
#[test]
fn main_is_function_0() {
    let answer = |codes: &[&str]| {
        let mut program = of(codes);
        program.functions[1].name = b"<main>".to_vec();
        text(&image(&program))
    };
    assert_eq!(answer(&["", ""]), "refused 40 rule 6 function 1\n");
    assert_eq!(answer(&["", "1B 00 00"]), "refused 40 rule 5 function 1\n");
    let called = answer(&["1C 01 00 00 00", "00 00 00 25"]);
    assert_eq!(called, "passed\nheight 0 1\nheight 1 1\n");
}

#[test]
fn recursion() {
    // f(n) = if true then n else f(n + 1)
    let f = "00 01 00 1A 04 00 03 00 00 25 03 00 00 00 00 00 08 1C 01 00 01 00 25";
    passes(&[1, 3], &["00 00 00 1C 01 00 01 00 25", f]);
    // Two that call each other.
    passes(
        &[1, 1, 1],
        &[
            "1C 01 00 00 00 25",
            "1C 02 00 00 00 25",
            "1C 01 00 00 00 25",
        ],
    );
}

/// The examples of document 01. P8 is refused though it runs to 43: function
/// 1 is passed nothing and adds what stands below its base.
#[test]
fn the_examples_of_document_01() {
    passes(&[2], &["00 00 00 00 01 00 08 25"]);
    passes(&[2], &["00 00 00 25 00 00 00 00 01 00 0B 25"]);
    breaks(6, 1, &["1C 01 00 00 00", ""]);
    breaks(5, 0, &["1B 05 00"]);
    breaks(6, 1, &["00 00 00 00 01 00 1C 01 00 00 00 25", "08 25"]);
}

// The order

/// Functions 3, 2, 1 and main break the rules 1, 2, 3 and 5, and function 1
/// rule 4: mended one by one, they come up in the order of the rules.
#[test]
fn the_first_rule_then_the_lowest_function() {
    let main = "1B 09 00 1C 01 00 00 00 1C 01 00 01 00";
    let one = "1F 00 00 00 00 25";
    let two = "00 02 00 25";
    let three = "26";
    let good = "00 00 00 25";
    breaks(1, 3, &[main, one, two, three]);
    breaks(2, 2, &[main, one, two, good]);
    breaks(3, 1, &[main, one, good, good]);
    breaks(4, 1, &[main, good, good, good]);
    let one_count = "1B 09 00 1C 01 00 01 00 1C 01 00 01 00";
    breaks(5, 0, &[one_count, good, good, good]);
    let landing = "1B 0A 00 1C 01 00 01 00 1C 01 00 01 00";
    breaks(6, 3, &[landing, good, good, "06 25"]);
    passes(&[0, 2, 1, 1], &[landing, good, good, good]);
}

#[test]
fn of_two_that_break_the_same_rule_the_lower_is_named() {
    breaks(1, 1, &["", "26", "26"]);
    breaks(2, 1, &["", "00 02 00", "22 02 00 00 00"]);
    breaks(
        4,
        1,
        &[
            "1C 02 00 00 00 1C 02 00 01 00 1C 01 00 00 00 1C 01 00 01 00",
            "",
            "",
        ],
    );
    breaks(5, 1, &["", "1B 00 00", "1B 00 00"]);
    breaks(6, 1, &["", "", ""]);
}

/// The heights that a run can be compared with, position by position.
#[test]
fn heights_are_known_where_paths_come() {
    let passed = check::judge(&of(&["1B 03 00 00 00 00 00 00 00"])).expect("it passes");
    let zero = Some(0);
    assert_eq!(
        passed.heights[0],
        [
            zero,
            None,
            None,
            None,
            None,
            None,
            zero,
            None,
            None,
            Some(1)
        ]
    );
}
