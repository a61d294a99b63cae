//! Runs the plain machine and says how it ended, panics included.

use std::any::Any;
use std::cell::Cell;
use std::panic::{catch_unwind, AssertUnwindSafe};
use std::sync::Once;

use crate::op::Op;
use crate::value::Value;
use crate::vm::{InterpreterResult, Outside, RuntimeError, Vm};

#[derive(Clone, Debug)]
pub enum Ending {
    Value(Value),
    Continue,
    Error(RuntimeError),
    Panicked(String),
    UndefinedCast(u8),
    NotCarried(Op),
    /// A bound of this program was passed; 000 would have gone on.
    Bound(&'static str),
}

thread_local! {
    static QUIET: Cell<bool> = const { Cell::new(false) };
}

/// Calls `f`, catching a panic without the usual words on standard error.
/// Panics elsewhere are reported as ever.
pub fn quietly<T>(f: impl FnOnce() -> T) -> Result<T, Box<dyn Any + Send>> {
    static INSTALL: Once = Once::new();
    INSTALL.call_once(|| {
        let usual = std::panic::take_hook();
        std::panic::set_hook(Box::new(move |info| {
            if !QUIET.with(Cell::get) {
                usual(info);
            }
        }));
    });
    let before = QUIET.with(|quiet| quiet.replace(true));
    let result = catch_unwind(AssertUnwindSafe(f));
    QUIET.with(|quiet| quiet.set(before));
    result
}

/// The words of a panic.
pub fn message(payload: &(dyn Any + Send)) -> String {
    if let Some(text) = payload.downcast_ref::<&str>() {
        (*text).to_owned()
    } else if let Some(text) = payload.downcast_ref::<String>() {
        text.clone()
    } else if let Some(outside) = payload.downcast_ref::<Outside>() {
        format!("{outside:?}")
    } else {
        "no words".to_owned()
    }
}

/// One call of `run`. After a panic the machine is left as it then stood,
/// as 000 would leave it.
pub fn run(vm: &mut Vm) -> Ending {
    match quietly(|| vm.run()) {
        Ok(Ok(InterpreterResult::Value(value))) => Ending::Value(value),
        Ok(Ok(InterpreterResult::Continue)) => Ending::Continue,
        Ok(Err(error)) => Ending::Error(*error),
        Err(payload) => match payload.downcast_ref::<Outside>() {
            Some(Outside::UndefinedCast(byte)) => Ending::UndefinedCast(*byte),
            Some(Outside::NotCarried(op)) => Ending::NotCarried(*op),
            Some(Outside::Bound(which)) => Ending::Bound(which),
            None => Ending::Panicked(message(&*payload)),
        },
    }
}
