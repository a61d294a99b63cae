//! `oracle console`: each command, its refusals and their order, and what a
//! fault leaves. The texts are those of crates/console.

use oracle::console::play;

fn said(script: &str) -> String {
    let mut out = vec![];
    play(script.as_bytes(), 1, &mut out).expect("the oracle has all that is asked");
    String::from_utf8(out).unwrap()
}

/// The last line of the answer.
fn last(script: &str) -> String {
    said(script).lines().last().unwrap_or_default().to_owned()
}

#[track_caller]
fn ends(script: &str, behind: &str, answer: &str) {
    assert_eq!(last(&format!("{script}\n{behind}")), answer, "{behind}");
}

fn stops(script: &str) -> String {
    play(script.as_bytes(), 1, &mut vec![]).expect_err("the oracle cannot tell")
}

/// A list, a struct, a string, a reference and a number on the stack.
const VALUES: &str = "new
scalar 4045000000000000
string 6162
reference
struct 70
struct 71
op1 0 0 1
op1 0 1 2
op1 36 2 3
op1 4 0 4
op1 0 0 5
op2 34 1 2 6
op1 0 1 7
op1 0 2 8
op1 0 0 9
start
continue 1000";

/// The sample of docs/EVIDENCE.md: every answer of a run in parts.
#[test]
fn the_sample_of_a_run_in_parts() {
    let script = include_str!("parts.script");
    assert_eq!(said(script), include_str!("parts.answers"));
}

#[test]
fn lines_and_comments() {
    assert_eq!(said(""), "");
    assert_eq!(
        said("# no\n\n#! yes, \n#!no\njump 5\n  new\n"),
        "yes, \n? 5\ndone\n"
    );
}

#[test]
fn a_part_of_a_script_keeps_its_line_numbers() {
    let mut out = vec![];
    play(b"#! behind\njump 5\n", 430, &mut out).unwrap();
    assert_eq!(out, b"behind\n? 431\n");
}

#[test]
fn before_a_machine_is_made_nothing_is_in_good_order() {
    for line in [
        "start",
        "start 0",
        "continue 1",
        "continue 1 0",
        "abandon",
        "abandon 0",
        "trace",
        "op 0 0",
        "op 38 0",
        "patch 0 0",
        "scalar 0",
        "struct 70",
        "begin 66",
        "end",
        "offset",
        "find 66",
        "save 0",
        "list 0",
    ] {
        assert_eq!(said(line), "refused 19\n", "{line}");
    }
    assert_eq!(said("last"), "refused 7\n");
    for line in ["stack 0", "header 0", "element 0 0", "text 0 0"] {
        assert_eq!(said(line), "refused 6\n", "{line}");
    }
    assert_eq!(
        said("frame 7\nframe 256\nimage 80 00"),
        "frame 0 0 0 0\nframe 0 0 0 0\nbroken 0\n"
    );
}

#[test]
fn emission_answers_its_numbers() {
    assert_eq!(
        said("new\nscalar 1\nboolean 0\nstring 61\nreference 61\nstruct 61\nstruct 62\nstruct 61"),
        "done\ndone 0\ndone 1\ndone 2\ndone 3\ndone 0\ndone 1\ndone 0\n"
    );
    assert_eq!(
        said("new\nbegin 66\nop 37 9\noffset\nbegin 66\noffset\nend\noffset\nfind 66\nfind 67\nfind 3C6D61696E3E"),
        "done\ndone 1\ndone 0\nnumber 1\ndone 2\nnumber 0\ndone 0\nnumber 0\nnumber 2\nrefused 14\nnumber 0\n"
    );
    assert_eq!(
        said("new\nop3 1 513 2 3 7\nop2 28 1 2 8\nop1 0 1 9\nop 38 0\nsave"),
        "done\ndone 0\ndone 0\ndone 0\nrefused 1\n\
         image 32 000001063C6D61696E3E0F01010202000300\
         1C01000200000100070705080309\n"
    );
}

#[test]
fn a_patch_lies_wholly_inside_the_current_code() {
    let script = "new\nop1 27 0 1\nbegin 66\nop 37 2";
    ends(script, "patch 0 0", "refused 23");
    let main = &format!("{script}\nend");
    ends(main, "patch 1 513", "done 0");
    ends(main, "patch 2 0", "refused 23");
    ends(main, "patch 65535 0", "refused 23");
    ends("new", "patch 0 0", "refused 23");
    let patched = said(&format!("{main}\npatch 1 513\nlist"));
    assert!(patched.ends_with("  0000 Jump          513\n.CODE 1 (f)\n  0000 Return        \n"));
}

/// As often as there is room, and once more.
fn fill(line: impl Fn(usize) -> String, times: usize) -> String {
    let lines: Vec<String> = (0..=times).map(line).collect();
    format!("new\n{}", lines.join("\n"))
}

/// So many bytes of code, in few lines.
fn code(bytes: usize) -> String {
    "op3 0 0 0 0 0\n".repeat(bytes / 7) + &"op 37 0\n".repeat(bytes % 7)
}

#[test]
fn stores_are_filled_exactly_and_not_over() {
    let full = |script: &str| {
        let out = said(script);
        let answers: Vec<&str> = out.lines().collect();
        let (last, before) = answers.split_last().unwrap();
        assert_eq!(*last, "refused 21");
        assert!(before.iter().all(|answer| answer.starts_with("done")));
    };
    full(&fill(|_| "boolean 1".to_owned(), 256));
    full(&fill(|n| format!("struct {n:04X}"), 256));
    full(&fill(|_| "begin".to_owned(), 255));
    full(&format!("new\n{}", code(8_193)));
    full(&format!("new\nbegin\n{}", code(8_193)));
    full(&format!("new\nstring {}\nstring 00", "61".repeat(16_378)));
    full(&format!("new\nstring {}", "61".repeat(16_379)));
    // A known struct name takes no room; an opcode of 38 is looked at last.
    let structs = fill(|n| format!("struct {n:04X}"), 255);
    ends(&structs, "struct 0000", "done 0");
    let main = format!("new\n{}", code(8_192));
    ends(&main, "op 38 0", "refused 21");
    ends(&main, "offset", "number 8192");
    ends(&main, "patch 8190 0", "done 0");
}

#[test]
fn values_are_shown() {
    assert_eq!(
        said(&format!(
            "{VALUES}\nlast\nstack 0\nstack 1\nstack 2\nstack 3\nstack 4\nstack 5"
        ))
        .lines()
        .skip(16)
        .collect::<Vec<_>>(),
        [
            "continue, spent 9, returns 0, stack 5, frames 1",
            "refused 7",
            "shown list 2",
            "shown struct 1 2",
            "shown string 2",
            "shown function 0",
            "shown scalar 4045000000000000",
            "refused 6"
        ]
    );
    ends(VALUES, "header 0", "header 2 0 1");
    ends(VALUES, "header 1", "header 2 1 2");
    ends(VALUES, "header 2", "refused 5");
    ends(VALUES, "header 5", "refused 6");
    ends(VALUES, "element 0 1", "shown string 2");
    // Field 0 is the value popped first.
    ends(VALUES, "element 1 0", "shown scalar 4045000000000000");
    ends(VALUES, "element 1 1", "shown list 2");
    ends(VALUES, "element 1 2", "refused 6");
    ends(VALUES, "element 4 0", "refused 5");
    ends(VALUES, "text 2", "text 2 6162");
    ends(VALUES, "text 2 2", "text 2 6162");
    ends(VALUES, "text 2 1", "refused 17");
    ends(VALUES, "text 3 0", "text 0 ");
    ends(VALUES, "text 4 0", "refused 5");
    ends(VALUES, "text 9 0", "refused 6");
}

#[test]
fn results_need_their_room() {
    let p1 = "new\nscalar 1\nop1 0 0 1\nop 37 2";
    let image = last(&format!("{p1}\nsave"));
    let length: usize = image.split(' ').nth(1).unwrap().parse().unwrap();
    ends(p1, &format!("save {length}"), &image);
    ends(p1, &format!("save {}", length - 1), "refused 17");
    let listing = said(&format!("{p1}\nlist"));
    let length = listing.len() - said(p1).len();
    assert_eq!(said(&format!("{p1}\nlist {length}")), listing);
    ends(p1, &format!("list {}", length - 1), "refused 17");
    ends(
        p1,
        "start 1024\ncontinue 9 256",
        "value scalar 0000000000000001, spent 2, returns 1, stack 0, frames 1",
    );
    ends(p1, "start 1023", "refused 17");
    ends(p1, "start\ncontinue 9 255", "refused 17");
    ends(p1, "start\nabandon 255", "refused 17");
    ends(p1, "trace 1", "at 0 1 0");
    ends(p1, "trace 0", "refused 17");
    // 16 comes behind 17, an opcode or a cut instruction before it.
    ends("new", "trace", "refused 16");
    ends("new", "trace 0", "refused 17");
    ends("new\nop1 27 0 0\npatch 0 38", "list 0", "refused 1");
    ends("new\nop 0 0", "list 0", "refused 3");
    // The console has no more than its own space.
    let long = format!("new\n{}", vec!["op 37 0"; 800].join("\n"));
    ends(&long, "list", "refused 17");
    ends(&long, "list 99999", "refused 17");
}

#[test]
fn frames_are_shown_and_counted() {
    let callee = "new\nbegin 66\nop 37 7\nend\nop2 28 1 0 3";
    assert_eq!(
        said(&format!(
            "{callee}\npatch 1 1\nstart\ncontinue 1\nabandon\nframe 0"
        ))
        .lines()
        .last(),
        Some("frame 0 5 0 0")
    );
    let empty = "new\nbegin 66\nend\nop2 28 1 0 3\nstart\ncontinue 9";
    ends(empty, "frame 1", "frame 1 0 0 1");
    ends(empty, "trace", "refused 16");
    ends(empty, "count frames 1\ntrace", "at 0 3 0");
}

#[test]
fn damaged_frames_are_refused_by_runs_and_backtraces() {
    // Main of 3 bytes, function 1 of 1 byte; the machine has run to its end.
    let made = "new\nscalar 0\nop1 0 0 7\nbegin 66\nop 37 8\nend\nstart\ncontinue 9";
    let both = |damage: &str, run: &str, trace: &str| {
        ends(made, &format!("{damage}\nstart 0"), run);
        ends(made, &format!("{damage}\ntrace 256"), trace);
    };
    let (bad, short) = ("refused 19", "refused 17");
    both("count frames 0", bad, bad);
    both("count frames 257", bad, bad);
    both("frame 0 1 0 0 0", bad, bad);
    both("frame 0 0 0 1 0", bad, bad);
    both("frame 0 0 131070 0 0", short, "refused 16");
    both("frame 0 0 131071 0 0", bad, bad);
    both("frame 0 0 0 0 0", short, "at 0 7 0");
    // Nothing bounds when the root was entered, where no run is under way.
    both("frame 0 0 0 0 9", short, "at 0 7 9");
    let two = |first: &str, second: &str| {
        format!("frame 0 {first} 0\nframe 1 {second} 0\ncount frames 2")
    };
    both(&two("0 0 0", "1 0 0"), bad, bad);
    both(&two("0 1 0", "1 0 0"), short, "at 0 7 0");
    both(&two("0 3 0", "1 1 1024"), short, "at 0 7 0");
    both(&two("0 4 0", "1 0 0"), bad, bad);
    both(&two("0 3 0", "2 0 0"), bad, bad);
    // A backtrace is lent the stack store for its length, 1,024 values.
    both(&two("0 3 0", "1 0 1025"), bad, bad);
    both(&two("0 3 0", "1 0 4294967295"), bad, bad);
    both(&two("0 3 0", "1 0 4294967296"), bad, bad);
    // A base above the stack: nothing to shorten, and the value is pushed.
    ends(
        made,
        &format!("{}\nstart\ncontinue 9", two("0 3 0", "1 0 9")),
        "continue, spent 1, returns 0, stack 1, frames 1",
    );
    // Mended, it runs as it did.
    ends(
        made,
        "count frames 0\nstart\ncount frames 1\nstart",
        "continue, spent 0, returns 0, stack 1, frames 1",
    );
}

/// Readings 6, 7 and 15: 18 and 25 stand right behind 19, loading's and a new
/// machine's 25 before all else; then 17, then 22.
#[test]
fn the_order_of_the_refusals_of_a_part() {
    let made = "new\nscalar 0\nop1 0 0 1\nop1 0 0 2";
    let damaged = "count frames 0";
    ends(made, &format!("{damaged}\ncontinue 1"), "refused 19");
    ends(made, &format!("{damaged}\nabandon 0"), "refused 19");
    ends(made, "continue 1 0", "refused 18");
    ends(made, "continue 18446744073709551615", "refused 18");
    ends(made, "abandon 0", "refused 18");
    let under_way = &format!("{made}\nstart\ncontinue 1");
    ends(under_way, &format!("{damaged}\nstart"), "refused 19");
    ends(under_way, &format!("{damaged}\ncontinue 1 0"), "refused 19");
    ends(under_way, &format!("{damaged}\nabandon"), "refused 19");
    ends(under_way, "start 0", "refused 25");
    for line in ["new", "image 80 00", "image 000001063C6D61696E3E00"] {
        ends(under_way, line, "refused 25");
        ends(under_way, &format!("{damaged}\n{line}"), "refused 25");
    }
    // Emission is not lent the frames.
    for line in ["op 38 0", "patch 65535 0", "struct 41", "begin 66", "end"] {
        ends(under_way, line, "refused 25");
        ends(under_way, &format!("{damaged}\n{line}"), "refused 25");
    }
    ends(under_way, "continue 18446744073709551615 0", "refused 17");
    ends(under_way, "continue 18446744073709551615", "refused 22");
    let end = "continue, spent 2, returns 0, stack 2, frames 1";
    ends(under_way, "continue 18446744073709551614", end);
    // What was refused has changed nothing, and the run is under way.
    ends(
        under_way,
        &format!("{damaged}\ncontinue 1\ncount frames 1\nstart\nnew\nend\nabandon 0\ncontinue 1"),
        end,
    );
}

/// With a run under way the innermost position is below its code length; in a
/// callee too. Frames put in a pause are those with which the run goes on.
#[test]
fn frames_in_a_pause() {
    // Main of 8 bytes, function 1 of 4.
    let made = "new\nscalar 0\nop2 28 1 0 1\nop1 0 0 2\nbegin 66\nop1 0 0 3\nop 37 4\nend";
    let in_callee = &format!("{made}\nstart\ncontinue 1");
    ends(in_callee, "frame 1", "frame 1 0 0 1");
    ends(in_callee, "trace 256", "at 0 1 0");
    for (frame, answer) in [
        (
            "frame 1 1 3 0 1",
            "paused, spent 1, returns 0, stack 0, frames 2",
        ),
        ("frame 1 1 4 0 1", "refused 19"),
        ("frame 1 1 5 0 1", "refused 19"),
        (
            "count frames 1",
            "paused, spent 1, returns 0, stack 0, frames 1",
        ),
        (
            "count frames 1\nframe 0 0 7 0 0",
            "paused, spent 1, returns 0, stack 0, frames 1",
        ),
        ("count frames 1\nframe 0 0 8 0 0", "refused 19"),
        // A caller may be at its end.
        (
            "frame 0 0 8 0 0",
            "paused, spent 1, returns 0, stack 0, frames 2",
        ),
    ] {
        ends(in_callee, &format!("{frame}\ncontinue 0"), answer);
    }
    // No run under way: at the end, or past it, as ever.
    ends(made, "frame 0 0 8 0 0\ntrace", "at 0 2 0");
    ends(made, "frame 0 0 9 0 0\ntrace", "refused 16");
    ends(
        in_callee,
        "count frames 1\ncontinue 9",
        "continue, spent 2, returns 0, stack 1, frames 1",
    );
}

/// Wish 8: the units at which frames were entered never fall from the root
/// inwards and, with a run under way, are at most those spent; equal ones do.
#[test]
fn when_frames_were_entered() {
    // Main of 5 bytes calls function 1, of 8, which calls itself.
    let made = "new\nscalar 0\nop2 28 1 0 1\nbegin 66\nop1 0 0 2\nop2 28 1 0 3\nend";
    let paused = &format!("{made}\nstart\ncontinue 4");
    ends(paused, "frame 0", "frame 0 5 0 0");
    ends(paused, "frame 1", "frame 1 8 0 1");
    ends(paused, "frame 2", "frame 1 3 1 3");
    let told = said(&format!("{paused}\ntrace"));
    assert!(told.ends_with("\nat 1 2 3\nat 1 3 1\nat 0 1 0\n"), "{told}");
    let frames = |entered: [u64; 3]| {
        let [main, caller, callee] = entered;
        format!("frame 0 0 5 0 {main}\nframe 1 1 8 0 {caller}\nframe 2 1 3 1 {callee}")
    };
    let goes_on = "paused, spent 4, returns 0, stack 2, frames 3";
    for (entered, ok_under_way, ok) in [
        ([0, 1, 3], true, true),
        ([0, 0, 0], true, true),
        ([4, 4, 4], true, true),
        ([0, 0, 4], true, true),
        ([0, 0, 5], false, true),
        ([5, 5, 5], false, true),
        ([0, 3, 2], false, false),
        ([2, 1, 3], false, false),
        ([5, 0, 0], false, false),
        ([0, 281_474_976_710_655, 281_474_976_710_655], false, true),
    ] {
        let damaged = frames(entered);
        let answer = if ok_under_way { goes_on } else { "refused 19" };
        ends(paused, &format!("{damaged}\ncontinue 0"), answer);
        // 19 before 17; a backtrace judges nothing of the run.
        let answer = if ok_under_way {
            "refused 17"
        } else {
            "refused 19"
        };
        ends(paused, &format!("{damaged}\nabandon 0"), answer);
        let answer = if ok { "refused 17" } else { "refused 19" };
        ends(paused, &format!("{damaged}\ntrace 0"), answer);
        // No run under way: nothing bounds the numbers.
        let idle = format!("{damaged}\ncount frames 3\nstart 0");
        ends(made, &idle, answer);
    }
    // A beginning sets them to 0, also where the run is over at once; a refused
    // one does not.
    let idle = format!("{}\ncount frames 3", frames([2, 3, 3]));
    ends(made, &format!("{idle}\nstart 0\nframe 2"), "frame 1 3 1 3");
    ends(made, &format!("{idle}\nstart\nframe 2"), "frame 1 3 1 0");
    ends(made, &format!("{idle}\nstart\nframe 0"), "frame 0 5 0 0");
    let at_end = format!("{idle}\nframe 2 1 8 1 3");
    ends(
        made,
        &format!("{at_end}\nstart"),
        "continue, spent 0, returns 0, stack 0, frames 3",
    );
    ends(made, &format!("{at_end}\nstart\nframe 1"), "frame 1 8 0 0");
}

/// A run that has completed a root Return has a last result.
#[test]
fn no_root_return_without_a_last_result() {
    let made = "new\nscalar 0\nop1 0 0 1\nop 37 2\nop1 0 0 3\nop1 0 0 4";
    let before = &format!("{made}\nstart\ncontinue 1");
    ends(before, "count returns 1\ncontinue 0", "refused 19");
    ends(before, "count returns 1\nabandon", "refused 19");
    let behind = &format!("{made}\nstart\ncontinue 3");
    for returns in ["1", "3"] {
        ends(
            behind,
            &format!("count returns {returns}\ncontinue 0"),
            &format!("paused, spent 3, returns {returns}, stack 1, frames 1"),
        );
    }
}

#[test]
fn what_the_rules_do_not_fix_is_not_told() {
    assert!(stops("new\nframe 1").contains("line 2"));
    assert!(stops("new\ncount frames 2\nstart").contains("frame 1"));
    assert!(stops("new\nsum").contains("words"));
    for line in ["poke text 0 1", "result 0 0", "count cells 1"] {
        stops(line);
    }
    assert_eq!(
        said("new\nframe 1 5 6 7 8\nframe 1"),
        "done\nframe 5 6 7 8\n"
    );
}

#[test]
fn a_fault_leaves_the_stack_of_the_start_and_the_last_result_of_the_last_return() {
    // A list stays on the stack; then a Return, and a division by zero.
    let story = "new
scalar 3FF0000000000000
scalar 0
op1 0 0 1
op1 36 1 2
start
continue 9
op1 0 0 3
op1 36 1 4
op 37 5
op1 36 0 6
op1 0 0 7
op1 0 1 8
op 11 9";
    let faulted = &format!("{story}\nstart\ncontinue 99");
    assert!(said(faulted).ends_with("fault 8, spent 7, returns 1, stack 1, frames 1\nat 0 9 0\n"));
    ends(faulted, "last", "shown list 1");
    ends(faulted, "stack 0", "shown list 1");
    ends(faulted, "frame 0", "frame 0 23 0 0");
    ends(
        faulted,
        "start",
        "continue, spent 0, returns 0, stack 1, frames 1",
    );
    // With units for the Return only, and for one less.
    ends(story, "start\ncontinue 3\nlast", "shown list 1");
    ends(story, "start\ncontinue 2\nlast", "refused 7");
    for (units, returns) in [(3, 1), (2, 0)] {
        let told = format!("fault 13, spent {units}, returns {returns}, stack 1, frames 1\n");
        assert!(
            said(&format!("{story}\nstart\ncontinue {units}\nabandon")).contains(&told),
            "{units}"
        );
    }
}

/// Each run builds a list of 1,000 and faults behind it: the cells come back
/// if no Return was completed, and stay taken if one was.
#[test]
fn cells_come_back_to_the_mark() {
    let filling = |returning: bool| {
        let mut script = "new\nscalar 0\nbegin 66\n".to_owned();
        script += &"op1 0 0 1\n".repeat(1_000);
        script += "op1 36 1000 2\nop 37 3\nend\n";
        for _ in 0..3 {
            script += "op2 28 1 0 4\n";
            script += if returning { "op 37 5\n" } else { "" };
            script += "op 38 6\nop 1 7\nstart\ncontinue 5000\n";
        }
        let out = said(&script);
        let faults: Vec<String> = out
            .lines()
            .filter(|line| line.starts_with("fault"))
            .map(|line| line[..8].trim_end_matches(',').to_owned())
            .collect();
        faults
    };
    assert_eq!(filling(false), ["fault 2", "fault 2", "fault 2"]);
    assert_eq!(filling(true), ["fault 2", "fault 2", "fault 11"]);
}

#[test]
fn a_broken_image_leaves_the_machine() {
    let made = "new\nscalar 0\nop1 0 0 7\nstart\ncontinue 9";
    ends(made, "image 00\nstack 0", "shown scalar 0000000000000000");
    ends(made, "image 000001063C6D61696E3E00\nstack 0", "refused 6");
    ends("new", &format!("image {}", "00".repeat(16_385)), "? 2");
    ends("new", &format!("image {}", "00".repeat(16_384)), "broken 2");
}
