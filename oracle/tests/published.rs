//! `oracle published` and `oracle published-calls`: no difference, and every
//! sort of comparison is made.

use oracle::published::{calls, images, Count};

fn none_differs(counted: &Count, compared: &[&str]) {
    assert_eq!(counted.differences, [""; 0]);
    for what in compared {
        assert!(counted.compared.contains_key(what), "{what}");
    }
}

#[test]
fn the_published_rust_runs_and_lists_images_as_the_oracle_says() {
    none_differs(
        &images(31, 1_500),
        &[
            "images refused 20",
            "listings",
            "runs compared with document 01's machine",
            "runs not finished: too much to copy",
            "runs not made: too many steps, or too deep",
            "runs stopped before an opcode that is not carried",
            "runs stopped before an undefined cast",
            "runs that compared a shared list with a NaN (difference 2)",
            "runs that ended in a value",
            "runs that ended in an error",
            "runs that ended in continue",
            "runs that panicked",
            "runs that pass a limit of document 01",
        ],
    );
}

#[test]
fn the_published_rust_takes_a_hosts_calls_as_the_oracle_says() {
    none_differs(
        &calls(0, 8),
        &[
            "calls of emission",
            "runs compared with document 01's machine",
            "runs that ended in a value",
            "runs that ended in an error",
            "runs that ended in continue",
            "runs that panicked",
        ],
    );
}
