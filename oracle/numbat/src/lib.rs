//! numbat's `vm.rs`, `list.rs` and `value.rs` as published, so that the
//! machine that was ported can itself be run.
//!
//! The three files lie in `published/`, unchanged. What they name of the rest
//! of numbat is in `neighbours`, what they name of other people's crates in
//! `crates`: stand-ins, no larger than the three files need. A quantity is an
//! `f64` without a unit. There are no dates, prefixes and foreign functions,
//! so that the opcodes that need them find nothing.
//!
//! The fields of a machine are private in `vm.rs`. [`vm`] takes the file in by
//! `include!` and adds, behind it, what it takes to set a machine up, to run
//! it under guard, and to look at it.

mod crates;
mod neighbours;

#[allow(dead_code)]
#[path = "../published/list.rs"]
#[rustfmt::skip]
pub mod list;
#[allow(dead_code, clippy::default_constructed_unit_structs)]
pub mod value;
#[allow(
    dead_code,
    clippy::default_constructed_unit_structs,
    clippy::new_without_default,
    clippy::useless_conversion
)]
pub mod vm;

// The names by which the published files know their neighbours.
pub(crate) use neighbours::{
    datetime, ffi, markup, math, number, prefix, prefix_transformer, pretty_print, typechecker,
    unit, unit_registry,
};
pub use neighbours::{interpreter, quantity, span, typed_ast};
