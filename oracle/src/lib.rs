//! The oracle of Chaffwheel.
//!
//! Two machines stand side by side here, each written for itself:
//!
//! - [`vm::Vm`] is source document 000 (numbat's `vm.rs`) with an `f64` where
//!   it has a quantity. Only the carried arms are there, written line by line
//!   as they stand in 000, panics included.
//! - [`limits::Machine`] is the machine of document 01: the same steps, but
//!   with lent stores, units, cells, depth, and a number for every fault.
//!
//! [`published`] is their judge: it runs 000 itself, as published (`numbat/`),
//! and compares.
//!
//! Both read programs from the rule image ([`image`]). [`print`] holds what
//! the runner and the lister print, [`generate`] and [`damage`] make images to
//! compare on, [`edges`] counts those at which a size or number is the largest,
//! [`asm`] makes an image of a rule that a person wrote, [`source`] such a rule
//! of an image.
//!
//! [`dealt`] runs generated images in parts and at once, and compares.
//!
//! [`check`] judges an image before it is installed (document 02, Wish 2),
//! [`generate_checked`] makes images for it, and [`checked_runs`] runs those
//! that pass, to see whether they keep what a pass promises.
//!
//! [`console`] makes a host's calls from a script and prints each answer:
//! [`script`] and [`command`] read the lines, [`frames`] are the call frames as
//! a host holds them, [`run_record`] is the run under way likewise, [`readers`]
//! is what it reads. [`calls`] makes scripts.

pub mod asm;
pub mod calls;
pub mod check;
pub mod checked_runs;
pub mod command;
pub mod console;
pub mod damage;
pub mod dealt;
pub mod edges;
pub mod frames;
pub mod generate;
pub mod generate_checked;
pub mod image;
pub mod limits;
mod near;
pub mod op;
pub mod plain;
pub mod print;
pub mod published;
pub mod readers;
pub mod run_record;
pub mod script;
pub mod source;
pub mod value;
pub mod vm;
