//! Values of the published machine taken over, and values handed over to it.

use std::collections::{HashMap, VecDeque};
use std::rc::Rc;

use numbat_published::quantity::Quantity;
use numbat_published::value::{FunctionReference, Value as Theirs};
use numbat_published::vm::{self as their, Vm as Published};

use crate::image::Constant;
use crate::value::{Elements, Value};

/// Text is UTF-8 there and bytes here. Each byte becomes the character of its
/// number, so that texts are equal there exactly where they are here.
pub(super) fn text(bytes: &[u8]) -> String {
    bytes.iter().copied().map(char::from).collect()
}

pub(super) fn bytes(text: &str) -> Vec<u8> {
    text.chars()
        .map(|c| u8::try_from(c).expect("each character stands for a byte"))
        .collect()
}

pub(super) fn their_constant(constant: &Constant) -> their::Constant {
    match constant {
        Constant::Scalar(bits) => their::Constant::Scalar(f64::from_bits(*bits)),
        Constant::Boolean(boolean) => their::Constant::Boolean(*boolean),
        Constant::String(string) => their::Constant::String(text(string)),
        Constant::FunctionReference(name) => {
            their::Constant::FunctionReference(FunctionReference::Normal(text(name)))
        }
    }
}

/// Values taken over from the published machine; lists that are shared there
/// are shared here.
pub(super) struct Taken<'a> {
    vm: &'a Published,
    /// By the place of a list's first element, which shared lists have in
    /// common.
    lists: HashMap<*const Theirs, Rc<Elements>>,
}

impl Taken<'_> {
    pub(super) fn from(vm: &Published) -> Taken<'_> {
        let lists = HashMap::new();
        Taken { vm, lists }
    }

    pub(super) fn value(&mut self, value: &Theirs) -> Value {
        match value {
            Theirs::Quantity(quantity) => Value::Scalar(quantity.unsafe_value().to_f64()),
            Theirs::Boolean(boolean) => Value::Boolean(*boolean),
            Theirs::String(string) => Value::String(bytes(string).into()),
            Theirs::FunctionReference(FunctionReference::Normal(name)) => {
                Value::FunctionReference(bytes(name).into())
            }
            Theirs::StructInstance(info, fields) => {
                let number = self.vm.get_structinfo_idx(&info.name);
                let fields = fields.iter().map(|field| self.value(field)).collect();
                let number = number.expect("a struct of this machine");
                Value::StructInstance(number, Elements::new(fields))
            }
            Theirs::List(list) => Value::List(self.elements(&their::elements(list))),
            other => panic!("no constant or carried opcode makes {other:?}"),
        }
    }

    fn elements(&mut self, list: &[&Theirs]) -> Rc<Elements> {
        let Some(first) = list.first().map(|first| *first as *const Theirs) else {
            return Elements::new(vec![]);
        };
        if let Some(elements) = self.lists.get(&first) {
            return elements.clone();
        }
        let elements = list.iter().map(|element| self.value(element)).collect();
        let elements = Elements::new(elements);
        self.lists.insert(first, elements.clone());
        elements
    }
}

/// Values handed over to the published machine, sharing their lists.
#[derive(Default)]
pub(super) struct Given {
    lists: HashMap<*const Elements, Theirs>,
}

impl Given {
    pub(super) fn value(&mut self, value: &Value, structs: &Published) -> Theirs {
        match value {
            Value::Scalar(scalar) => Theirs::Quantity(Quantity::from_scalar(*scalar)),
            Value::Boolean(boolean) => Theirs::Boolean(*boolean),
            Value::String(string) => Theirs::String(text(string)),
            Value::FunctionReference(name) => {
                Theirs::FunctionReference(FunctionReference::Normal(text(name)))
            }
            Value::StructInstance(number, fields) => {
                let items = fields.items().iter();
                let fields = items.map(|field| self.value(field, structs)).collect();
                structs.instance(*number, fields)
            }
            Value::List(elements) => {
                if let Some(list) = self.lists.get(&Rc::as_ptr(elements)) {
                    return list.clone();
                }
                let items = elements.items().iter();
                let list: VecDeque<Theirs> =
                    items.map(|element| self.value(element, structs)).collect();
                let list = Theirs::from(list);
                self.lists.insert(Rc::as_ptr(elements), list.clone());
                list
            }
        }
    }
}

#[cfg(test)]
mod tests {
    use super::*;
    use crate::generate::Rng;
    use crate::image::Program;
    use crate::published::machine;

    /// Values, some of which share elements.
    fn values(rng: &mut Rng, program: &Program) -> Vec<Value> {
        let mut values: Vec<Value> = vec![];
        for _ in 0..12 {
            let count = rng.below(values.len().min(3) + 1);
            let items = (0..count).map(|_| values[rng.below(values.len())].clone());
            let items = Elements::new(items.collect());
            values.push(match rng.below(6) {
                0 => Value::Scalar(rng.pick(&[f64::NAN, 0.0, -0.0, 1.0])),
                1 => Value::String(rng.pick(&[&b"a"[..], b"\xE4", b""]).into()),
                2 => Value::StructInstance(rng.below(program.structs.len()), items),
                _ => Value::List(items),
            });
        }
        values
    }

    /// list.rs and value.rs themselves, against the equality written here.
    #[test]
    fn values_are_equal_as_published() {
        let mut program = Program::new();
        program.structs = vec![b"A".to_vec(), b"B".to_vec()];
        let vm = machine(&program);
        let (mut equal, mut shared) = (0, 0);
        for index in 0..2_000 {
            let ours = values(&mut Rng::new(3, index), &program);
            let mut given = Given::default();
            let theirs: Vec<Theirs> = ours.iter().map(|v| given.value(v, &vm)).collect();
            for (left, their_left) in ours.iter().zip(&theirs) {
                for (right, their_right) in ours.iter().zip(&theirs) {
                    let published = their_left == their_right;
                    assert_eq!(published, left.equal_if_shared(right), "{left:?} {right:?}");
                    equal += u64::from(published);
                    shared += u64::from(published && left != right);
                }
            }
        }
        assert!(equal > 24_000 && shared > 500, "{equal} {shared}");
    }
}
