//! `value.rs` as published.

// What it names of other crates.
use crate::crates::{compact_str, itertools, jiff};

include!("../published/value.rs");
