//! The story of docs/RETRY.md in Rust: story STORY.img. A fault behind a Return has counted; before it, it has not.
use chaffwheel::{Answer, Machine, Outcome, Refused, Value};

fn told(outcome: Outcome) -> String {
    let answer = match outcome.answer {
        Answer::Value(value) => format!("value {value:?}"),
        Answer::Continue => "continue".to_owned(),
        Answer::Fault(number) => format!("fault {number}"),
        Answer::Paused => "paused".to_owned(),
    };
    let Outcome { spent, returns, .. } = outcome;
    format!("{answer}, spent {spent}, returns {returns}")
}

fn last(machine: &Machine) -> String {
    match machine.last_result() {
        Some(Value::Scalar(number)) => number.to_string(),
        other => format!("{other:?}"),
    }
}

fn main() -> Result<(), Refused> {
    let path = std::env::args().nth(1).expect("story STORY.img");
    let image = std::fs::read(path).expect("the image can be read");
    let mut machine = Machine::load(&image)?;
    let outcome = machine.whole_run(1_000_000)?;
    println!("{}, last result {}", told(outcome), last(&machine));
    println!("run again: {}", told(machine.whole_run(1_000_000)?));
    let mut parts = Machine::load(&image)?;
    println!("begun: {}", told(parts.begin()?));
    for (units, words) in [(5, "given 5 units"), (4, "given 4 more")] {
        let outcome = told(parts.continue_run(units)?);
        println!("{words}: {outcome}, last result {}", last(&parts));
    }
    let mut fresh = Machine::load(&image)?;
    let outcome = told(fresh.whole_run(5)?);
    println!(
        "given 5 units and abandoned: {outcome}, last result {}",
        last(&fresh)
    );
    if let Err(Refused(number)) = fresh.abandon() {
        println!("refused {number}");
    }
    if let Err(Refused(number)) = Machine::load(b"no image") {
        println!("refused {number}");
    }
    Ok(())
}
