//! What a host reads of a machine. Nothing is lent here but the room for a
//! text, so 19 does not occur.

use crate::limits::{Machine, Refused};
use crate::value::Value;

/// The header of a list or struct; a list's struct number is 0.
#[derive(Clone, Copy, Debug, PartialEq, Eq)]
pub struct Header {
    pub count: usize,
    pub number: usize,
    pub depth: usize,
}

pub fn last_result(machine: &Machine) -> Result<&Value, Refused> {
    machine.last_result.as_ref().ok_or(Refused::NoLastResult)
}

/// The value at a place, counted from the bottom of the stack.
pub fn stack_value(machine: &Machine, i: usize) -> Result<&Value, Refused> {
    machine.stack.get(i).ok_or(Refused::Number)
}

pub fn block_header(value: &Value) -> Result<Header, Refused> {
    let (number, elements) = match value {
        Value::List(elements) => (0, elements),
        Value::StructInstance(number, fields) => (*number, fields),
        _ => return Err(Refused::Kind),
    };
    Ok(Header {
        count: elements.items().len(),
        number,
        depth: value.depth(),
    })
}

/// An element of a list, or a field of a struct, by its number.
pub fn element(value: &Value, j: usize) -> Result<&Value, Refused> {
    match value {
        Value::List(elements) | Value::StructInstance(_, elements) => {
            elements.items().get(j).ok_or(Refused::Number)
        }
        _ => Err(Refused::Kind),
    }
}

/// The bytes of a string or a function reference, if there is room for them.
pub fn text_bytes(value: &Value, room: usize) -> Result<&[u8], Refused> {
    match value {
        Value::String(text) | Value::FunctionReference(text) if text.len() > room => {
            Err(Refused::ResultStore)
        }
        Value::String(text) | Value::FunctionReference(text) => Ok(text),
        _ => Err(Refused::Kind),
    }
}
