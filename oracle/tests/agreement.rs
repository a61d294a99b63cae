//! The two machines against each other on generated images.

use std::collections::BTreeSet;

use oracle::generate;
use oracle::limits::Answer;
use oracle::plain::{self, quietly, Ending};
use oracle::print::{self, Ran};
use oracle::value::Value;
use oracle::vm::Vm;

fn same_values(left: &[Value], right: &[Value]) -> bool {
    left.len() == right.len() && left.iter().zip(right).all(|(l, r)| l.same(r))
}

fn same_last(left: &Option<Value>, right: &Option<Value>) -> bool {
    match (left, right) {
        (Some(left), Some(right)) => left.same(right),
        (None, None) => true,
        _ => false,
    }
}

/// Stack, frames and last result are the same in both.
fn same_state(ran: &Ran, vm: &Vm) -> bool {
    let frames_agree = ran.machine.frames.len() == vm.frames.len()
        && ran
            .machine
            .frames
            .iter()
            .zip(&vm.frames)
            .all(|(l, r)| (l.function, l.position, l.base) == (r.function_idx, r.ip, r.fp));
    same_values(&ran.machine.stack, &vm.stack)
        && frames_agree
        && same_last(&ran.machine.last_result, &vm.last_result)
}

#[test]
fn where_no_limit_comes_in_the_machines_agree() {
    let mut compared = 0;
    for index in 0..6_000 {
        let image = generate::case(21, index);
        let Ok(ran) = print::run(&image) else {
            continue;
        };
        // 9 to 13 are document 01's own limits; 000 knows none of them.
        if matches!(ran.report.answer, Answer::Fault(9..=13)) {
            continue;
        }
        let mut vm = Vm::from_program(&ran.machine.program);
        let ending = plain::run(&mut vm);
        let agree = match (&ran.report.answer, &ending) {
            (Answer::Value(left), Ending::Value(right)) => {
                left.same(right) && same_state(&ran, &vm)
            }
            (Answer::Continue, Ending::Continue) => same_state(&ran, &vm),
            (Answer::Fault(8), Ending::Error(error)) => {
                let functions = &ran.machine.program.functions;
                let backtrace: Vec<_> = ran
                    .report
                    .backtrace
                    .iter()
                    .map(|entry| (functions[entry.function].name.clone(), entry.place))
                    .collect();
                error.backtrace == backtrace && same_state(&ran, &vm)
            }
            (Answer::Fault(1), Ending::UndefinedCast(_)) => true,
            (Answer::Fault(2), Ending::NotCarried(_)) => true,
            // The panic leaves the plain machine as it stood; only the last
            // result is what document 01 says.
            (Answer::Fault(3..=7 | 14), Ending::Panicked(_)) => {
                same_last(&ran.machine.last_result, &vm.last_result)
            }
            _ => false,
        };
        assert!(
            agree,
            "seed 21, case {index}: {:?} against {ending:?}",
            ran.report.answer
        );
        compared += 1;
    }
    assert!(compared > 4_000, "only {compared} compared");
}

#[test]
fn the_listings_agree() {
    let mut compared = 0;
    for index in 0..2_000 {
        let image = generate::case(22, index);
        let Ok(ran) = print::run(&image) else {
            continue;
        };
        if !print::is_listed_by_000(&ran.machine.program) {
            continue;
        }
        compared += 1;
        let vm = Vm::from_program(&ran.machine.program);
        let listing = print::lister(&image);
        match quietly(|| vm.disassemble()) {
            Ok(expected) => assert_eq!(listing, expected, "seed 22, case {index}"),
            Err(payload) => {
                let words = plain::message(&*payload);
                let number = if words.starts_with("UndefinedCast") {
                    1
                } else {
                    3
                };
                let refused = format!("refused {number}\n").into_bytes();
                assert_eq!(listing, refused, "seed 22, case {index}");
            }
        }
    }
    assert!(compared > 500, "only {compared} compared");
}

#[test]
fn a_run_cut_into_two_budgets_ends_where_it_must() {
    // With one unit less than it spent, a run that ended ends in 13, having
    // spent all; with exactly as many it ends as before.
    for index in 0..1_500 {
        let image = generate::case(23, index);
        let Ok(ran) = print::run(&image) else {
            continue;
        };
        if matches!(ran.report.answer, Answer::Fault(13)) || ran.report.spent == 0 {
            continue;
        }
        let load = || oracle::limits::Machine::load(&image, oracle::limits::Stores::RUNNER);
        let spent = ran.report.spent;
        let mut machine = load().unwrap();
        let report = machine.run(spent - 1);
        assert!(matches!(report.answer, Answer::Fault(13)), "case {index}");
        assert_eq!(report.spent, spent - 1);
        let mut machine = load().unwrap();
        let report = machine.run(spent);
        let again = Ran { report, machine };
        assert_eq!(print::ran_text(&again), print::ran_text(&ran));
    }
}

#[test]
fn a_sample_of_a_thousand_meets_every_ending() {
    let mut endings = BTreeSet::new();
    for index in 0..1_000 {
        let text = print::runner(&generate::case(1, index));
        let first = text.lines().next().unwrap();
        let words = if first.starts_with("value") {
            "value"
        } else {
            first
        };
        endings.insert(words.to_owned());
    }
    let mut wanted = vec!["value".to_owned(), "continue".to_owned()];
    wanted.extend((1..=14).map(|number| format!("fault {number}")));
    wanted.extend((20..=22).map(|number| format!("refused {number}")));
    for ending in wanted {
        assert!(endings.contains(&ending), "no {ending}");
    }
}

#[test]
fn a_seed_gives_the_same_images_again() {
    for index in 0..200 {
        assert_eq!(generate::case(5, index), generate::case(5, index));
    }
    assert_ne!(generate::case(5, 0), generate::case(6, 0));
}

#[test]
fn the_edges_of_the_runner_are_met_on_both_sides() {
    let mut image_lengths = BTreeSet::new();
    let mut spent = BTreeSet::new();
    let mut stacks = BTreeSet::new();
    let mut cells = BTreeSet::new();
    let mut frames = BTreeSet::new();
    for index in 0..6_000 {
        let image = generate::case(24, index);
        image_lengths.insert(image.len());
        if let Ok(ran) = print::run(&image) {
            if matches!(ran.report.answer, Answer::Fault(_)) {
                frames.insert(ran.report.backtrace.len());
            } else {
                spent.insert(ran.report.spent);
                stacks.insert(ran.machine.stack.len());
                cells.insert(ran.machine.cells_used);
            }
        }
    }
    assert!(image_lengths.contains(&16_384) && image_lengths.contains(&16_385));
    assert!(spent.contains(&999_999) && spent.contains(&1_000_000));
    assert!(stacks.contains(&1_024) && !stacks.contains(&1_025));
    assert!(cells.contains(&2_048) && !cells.contains(&2_049));
    assert!(frames.contains(&256) && !frames.contains(&257));
}
