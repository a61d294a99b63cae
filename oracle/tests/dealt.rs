//! `oracle dealt`: what it makes has all that it is to compare, and nothing
//! differs.

use oracle::console::play;
use oracle::dealt::runs;
use oracle::dealt::scripts::scripted;
use oracle::script::MAX_SCRIPT;

#[test]
fn dealt_runs_are_those_of_the_sum() {
    let counted = runs(7, 10_000);
    assert_eq!(counted.differences, Vec::<String>::new());
    let words: Vec<&str> = counted.seen.keys().map(|(_, w)| w.as_str()).collect();
    let faults = (1..=14).filter(|fault| *fault != 13);
    for fault in faults.chain([26]) {
        let ended = format!("runs that ended in fault {fault}");
        assert!(words.contains(&ended.as_str()), "{ended}");
    }
    for seen in [
        "runs that ended in a value",
        "runs that ended in continue",
        "runs that were abandoned, fault 13",
        "runs that are over at once",
        "runs that find values on the stack, and a last result",
        "runs on a strict machine",
        "runs that find frames of an earlier run, entered at some units",
        "parts of no units",
        "pauses with units left, before a comparison",
        "pauses compared with those of a run given all at once",
        "ends behind the part of the last root Return",
        "calls refused 22 in a pause",
        "calls refused 25 in a pause",
    ] {
        assert!(words.contains(&seen), "{seen}");
    }
}

/// The answers are those of undivided runs; the console makes runs in parts.
#[test]
fn scripts_of_dealt_runs_are_answered_by_the_undivided_run() {
    let mut answers = String::new();
    let mut runs = 0;
    for seed in 0..8 {
        let told = scripted(seed, MAX_SCRIPT);
        assert!((MAX_SCRIPT - 6_000..=MAX_SCRIPT).contains(&told.script.len()));
        let mut out = vec![];
        play(told.script.as_bytes(), 1, &mut out).expect("the oracle can tell");
        assert_eq!(String::from_utf8_lossy(&out), told.answers, "seed {seed}");
        let starts = told.script.lines().filter(|line| *line == "start").count();
        assert_eq!(starts as u64, told.runs);
        answers += &told.answers;
        runs += told.runs;
    }
    assert!(runs > 1_000, "{runs}");
    // A stack or cells that are full come up in one of some twenty scripts.
    let faults = (1..=14).filter(|fault| ![9, 11].contains(fault));
    for fault in faults.chain([26]) {
        let fault = format!("fault {fault},");
        assert!(
            answers.lines().any(|line| line.starts_with(&fault)),
            "{fault}"
        );
    }
    for start in ["value ", "continue,", "paused,", "shown ", "frame "] {
        assert!(
            answers.lines().any(|line| line.starts_with(start)),
            "{start}"
        );
    }
}

#[test]
fn a_seed_gives_the_same_runs() {
    assert_eq!(runs(3, 200).seen, runs(3, 200).seen);
    assert_ne!(runs(3, 200).seen, runs(4, 200).seen);
}
