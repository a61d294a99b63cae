//! `oracle calls`: what its scripts have in them, and that the oracle can
//! play them.

use std::collections::BTreeSet;

use oracle::calls::script;
use oracle::calls::tally::tally;
use oracle::console::play;

const SEEDS: u64 = 8;
const BYTES: usize = 48_000;

/// What the scripts of some seeds are answered, line by line.
fn answers() -> Vec<String> {
    let mut out = vec![];
    for seed in 0..SEEDS {
        play(script(seed, BYTES).as_bytes(), 1, &mut out)
            .expect("no script asks what is not fixed");
    }
    let text = String::from_utf8_lossy(&out);
    text.lines().map(str::to_owned).collect()
}

#[test]
fn a_seed_is_a_script_of_so_many_bytes() {
    for seed in 0..SEEDS {
        let one = script(seed, BYTES);
        assert_eq!(one, script(seed, BYTES));
        assert!((BYTES - 1_000..=BYTES).contains(&one.len()), "{seed}");
    }
    assert_ne!(script(1, 5_000), script(2, 5_000));
    assert!(script(0, 5_000).len() <= 5_000);
    assert_eq!(script(0, 0), "");
}

#[test]
fn every_command_comes_up() {
    let scripts: String = (0..SEEDS).map(|seed| script(seed, BYTES)).collect();
    let words: BTreeSet<String> = scripts
        .lines()
        .map(|line| {
            let words: Vec<&str> = line.split(' ').filter(|word| !word.is_empty()).collect();
            format!("{} {}", words.first().unwrap_or(&""), words.len())
        })
        .collect();
    for command in [
        "new 1",
        "image 2",
        "strict 2",
        "start 1",
        "start 2",
        "continue 2",
        "continue 3",
        "abandon 1",
        "abandon 2",
        "trace 1",
        "trace 2",
        "op 3",
        "op1 4",
        "op2 5",
        "op3 6",
        "patch 3",
        "scalar 2",
        "boolean 2",
        "string 1",
        "string 2",
        "reference 2",
        "struct 2",
        "begin 2",
        "end 1",
        "offset 1",
        "find 1",
        "find 2",
        "save 1",
        "save 2",
        "list 1",
        "list 2",
        "frame 2",
        "frame 6",
        "count 3",
        "last 1",
        "stack 2",
        "header 2",
        "element 3",
        "text 2",
        "text 3",
        " 0",
    ] {
        assert!(words.contains(command), "{command}");
    }
}

#[test]
fn every_fault_and_refusal_comes_up() {
    let answers = answers();
    let has = |start: &str| answers.iter().any(|answer| answer.starts_with(start));
    for fault in (1..=14).chain([26]) {
        assert!(has(&format!("fault {fault},")), "fault {fault}");
    }
    for refused in [1, 3, 5, 6, 7, 14, 16, 17, 18, 19, 21, 22, 23, 25] {
        let refused = format!("refused {refused}");
        assert!(answers.contains(&refused), "{refused}");
    }
    for start in [
        "value scalar",
        "value true",
        "value list",
        "value struct",
        "continue",
        "paused",
        "broken",
        "? ",
        "shown scalar",
        "shown true",
        "shown string",
        "shown function",
        "shown list",
        "shown struct",
        "header",
        "text",
        "number",
        "image",
        ".CODE",
        "frame",
        "at ",
    ] {
        assert!(has(start), "{start}");
    }
}

#[test]
fn every_edge_comes_up() {
    let scripts = (0..SEEDS).map(|seed| script(seed, BYTES));
    for (edge, count) in tally(scripts) {
        assert!(count > 0, "{edge}");
    }
    // The script that the gate replays has all of them by itself.
    for (edge, count) in tally(std::iter::once(script(7, BYTES))) {
        assert!(count > 0, "seed 7: {edge}");
    }
}

/// Edges of one story each, and of a story that has none.
#[test]
fn edges_are_counted_where_they_are() {
    let found = |story: &str| -> Vec<String> {
        let counted = tally(std::iter::once(story.to_owned()));
        let found = counted.into_iter().filter(|(_, count)| *count > 0);
        found.map(|(edge, _)| edge).collect()
    };
    assert!(
        found("new\nscalar 0\nop1 0 0 1\nstart\ncontinue 9\nop 37 1\nstart\ncontinue 9\nlast")
            .is_empty()
    );
    // The name is known before, but no run lies between.
    let anew = "begin 66\nop1 0 0 1\nop 37 2\nend";
    let call = "op1 0 1 3\nop2 31 0 0 4\nop 37 5\nstart\ncontinue 99";
    let start = "new\nscalar 0\nreference 66";
    assert!(found(&format!("{start}\n{anew}\n{anew}\n{call}")).is_empty());
    assert_eq!(
        found(&format!("{start}\n{anew}\n{call}\n{anew}\n{call}")),
        [
            "a function defined anew after a run",
            "a function defined anew after a run, called by name"
        ]
    );
    let built = "op2 34 0 0 1\nstart\ncontinue 9";
    assert!(found(&format!("new\nstruct 41\n{built}")).is_empty());
    assert_eq!(
        found(&format!("new\n{built}\nstruct 41\n{built}")),
        ["fault 6", "a struct added after a run, built"]
    );
    let callee = "new\nscalar 0\nop2 28 1 0 1\nbegin 66";
    assert_eq!(
        found(&format!(
            "{callee}\nop1 0 0 2\nstart\ncontinue 9\nstart\ncontinue 9"
        )),
        [
            "refused 18",
            "a run over at once in a callee",
            "a run begun over frames that an earlier one entered",
            "refused 18, continuing"
        ]
    );
    assert_eq!(
        found(&format!(
            "{callee}\nop1 27 1 2\nstart\ncontinue 9\nop1 0 0 3\nop 37 4\nstart\ncontinue 9"
        )),
        [
            "fault 6",
            "a run that goes on in a callee whose code grew",
            "such a run that enters the new code in its middle",
            "a run begun over frames that an earlier one entered"
        ]
    );
    let image = "image 000001063C6D61696E3E00";
    assert_eq!(
        found(&format!("new\n{image}\nstart")),
        ["a run over at once at the end of main"]
    );
    assert_eq!(
        found(&format!(
            "new\nop1 36 0 1\nstart\ncontinue 9\nimage 00\n{image}"
        )),
        [
            "refused 20",
            "an image loaded over values on the stack",
            "an image loaded over cells that are taken",
            "a broken image refused by a machine that has run"
        ]
    );
}

/// Stack and frames are left exactly full, and a list of the greatest depth.
#[test]
fn stores_come_up_exactly_full() {
    let answers = answers();
    let ends = |end: &str| answers.iter().any(|answer| answer.ends_with(end));
    assert!(answers.iter().any(|answer| answer.contains("stack 1024,")));
    assert!(ends("frames 256"));
    assert!(ends(" 64") && answers.iter().any(|a| a.starts_with("header 1 0 64")));
    for full in ["done 255", "number 8192"] {
        assert!(answers.contains(&full.to_owned()), "{full}");
    }
}

/// The edges of runs in parts: in each pause another.
#[test]
fn edges_of_parts_are_counted_where_they_are() {
    let found = |story: &str| -> Vec<String> {
        let counted = tally(std::iter::once(story.to_owned()));
        let found = counted.into_iter().filter(|(_, count)| *count > 0);
        found.map(|(edge, _)| edge).collect()
    };
    // Returns 1, then compares two lists of one element: 2 and 6 units.
    let rule = "new\nscalar 0\nop1 0 0 1\nop 37 2
op1 0 0 3\nop1 36 1 4\nop1 0 0 5\nop1 36 1 6\nop 18 7\nstart";
    assert_eq!(
        found(&format!("{rule}\ncontinue 0\ncontinue 8")),
        [
            "paused with no unit left",
            "continued with no units, and paused again"
        ]
    );
    assert_eq!(
        found(&format!("{rule}\ncontinue 7\ncontinue 1")),
        [
            "paused with units left, before a comparison",
            "a run that was paused came to its end",
            "a value that an earlier part had returned"
        ]
    );
    assert_eq!(
        found(&format!("{rule}\ncontinue 7\nabandon\nstart")),
        [
            "fault 13",
            "a fault behind a root Return",
            "paused with units left, before a comparison",
            "abandoned with units left",
            "abandoned behind a root Return",
            "a run over at once at the end of main",
            "a run begun behind one that was abandoned"
        ]
    );
    assert_eq!(
        found(&format!(
            "{rule}\nop 37 1\npatch 0 0\nend\nnew\nimage\nstart\nsave\nabandon"
        )),
        [
            "fault 13",
            "refused 25",
            "abandoned with nothing given",
            "a listing, an image or a backtrace in a pause",
            "refused 25, emitting",
            "refused 25, patching",
            "refused 25, ending a function",
            "refused 25, loading",
            "refused 25, a new machine",
            "refused 25, beginning a run"
        ]
    );
    // Main is 17 bytes long: at 17 nothing is under way, at 16 a comparison is.
    // A backtrace judges the frames, and not the run.
    assert_eq!(
        found(&format!(
            "{rule}\nframe 0 0 17 0 0\nabandon\ntrace\nframe 0 0 16 0 0\ncontinue 9"
        )),
        [
            "fault 4",
            "refused 19",
            "a run continued with frames put in a pause",
            "refused 19, an end of code at which no run can be under way",
            "a listing, an image or a backtrace in a pause"
        ]
    );
    // More units are said to be spent than were given; then more to be given.
    assert_eq!(
        found(&format!(
            "{rule}\ncontinue 1\ncount spent 2\ncontinue 7\ncount given 2\ncontinue 7"
        )),
        [
            "refused 19",
            "paused with no unit left",
            "a run that was paused came to its end",
            "refused 19, a damaged word of a run",
            "a run continued with a word that was damaged in good order"
        ]
    );
}

/// The edges of when frames were entered.
#[test]
fn edges_of_entered_frames_are_counted_where_they_are() {
    let found = |story: &str| -> Vec<String> {
        let counted = tally(std::iter::once(story.to_owned()));
        let found = counted.into_iter().filter(|(_, count)| *count > 0);
        found.map(|(edge, _)| edge).collect()
    };
    // Main calls f with its first unit, f negates what is not there.
    let rule = "new\nop2 28 1 0 1\nbegin 66\nop 6 2\nstart\ncontinue 1";
    assert_eq!(
        found(&format!("{rule}\ncontinue 1")),
        [
            "fault 4",
            "paused with no unit left",
            "paused in a callee",
            "a run that was paused faulted",
            "a fault's backtrace with calls at some units"
        ]
    );
    // Entered at 2 of 1 units spent: the host's backtrace judges nothing of a run.
    assert_eq!(
        found(&format!("{rule}\nframe 1 1 0 0 2\ntrace\ncontinue 1")),
        [
            "refused 19",
            "paused with no unit left",
            "paused in a callee",
            "refused 19, a frame entered at more units than are spent",
            "a listing, an image or a backtrace in a pause"
        ]
    );
    // The caller at 1 and the callee at 0: not in order for a backtrace either.
    assert_eq!(
        found(&format!(
            "{rule}\nframe 0 0 5 0 1\nframe 1 1 0 0 0\ntrace\ncontinue 1"
        )),
        [
            "refused 19",
            "paused with no unit left",
            "paused in a callee",
            "refused 19, a frame entered before its caller"
        ]
    );
}

/// The edges of strict machines.
#[test]
fn edges_of_strict_machines_are_counted_where_they_are() {
    let found = |story: &str| -> Vec<String> {
        let counted = tally(std::iter::once(story.to_owned()));
        let found = counted.into_iter().filter(|(_, count)| *count > 0);
        found.map(|(edge, _)| edge).collect()
    };
    let rule = "new\nscalar 7FE0000000000000\nop1 0 0 1\nop1 0 0 2\nop 8 3\nstart";
    assert!(found(&format!("{rule}\ncontinue 9\nstrict 1\nstrict 0")).is_empty());
    assert_eq!(
        found(&format!("{rule}\nstrict 1\ncontinue 9\nstrict 1\nimage 80")),
        [
            "refused 20",
            "refused 25",
            "a broken image refused by a machine that has run",
            "refused 25, making strict or not strict",
            "a broken image refused by a strict machine that has run"
        ]
    );
    let again = "strict 1\nop1 0 0 4\nop1 0 0 5\nop 8 6\nstart\ncontinue 9";
    let image = "image 000001063C6D61696E3E00";
    assert_eq!(
        found(&format!("{rule}\ncontinue 9\n{again}\n{image}")),
        [
            "fault 26",
            "an image loaded over values on the stack",
            "an image loaded over a strict machine"
        ]
    );
}
