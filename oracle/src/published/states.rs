//! What a machine is between runs.

use numbat_published::vm::{self as their, Vm as Published};

use super::values::{Given, Taken};
use crate::limits::{Frame, Machine};
use crate::value::Value;
use crate::vm::{CallFrame, Vm};

/// What a machine is between runs, beside its program. The Rust does not know
/// when a frame was entered: here all were at 0.
#[derive(Clone, Debug)]
pub struct State {
    pub stack: Vec<Value>,
    pub frames: Vec<Frame>,
    pub last_result: Option<Value>,
}

impl State {
    pub fn of_published(vm: &Published) -> State {
        let mut taken = Taken::from(vm);
        let frames = vm.frames().into_iter();
        State {
            stack: vm.stack().iter().map(|value| taken.value(value)).collect(),
            frames: frames
                .map(|frame| Frame {
                    function: frame.function,
                    position: frame.position,
                    base: frame.base,
                    entered: 0,
                })
                .collect(),
            last_result: vm.last_result().map(|value| taken.value(value)),
        }
    }

    pub(super) fn of_plain(vm: &Vm) -> State {
        let frames = vm.frames.iter();
        State {
            stack: vm.stack.clone(),
            frames: frames
                .map(|frame| Frame {
                    function: frame.function_idx,
                    position: frame.ip,
                    base: frame.fp,
                    entered: 0,
                })
                .collect(),
            last_result: vm.last_result.clone(),
        }
    }

    pub(super) fn of_machine(machine: &Machine) -> State {
        let frames = machine.frames.iter().cloned();
        State {
            stack: machine.stack.clone(),
            frames: frames
                .map(|frame| Frame {
                    entered: 0,
                    ..frame
                })
                .collect(),
            last_result: machine.last_result.clone(),
        }
    }

    pub(super) fn put_into_plain(&self, vm: &mut Vm) {
        let frames = self.frames.iter();
        vm.stack = self.stack.clone();
        vm.frames = frames
            .map(|frame| CallFrame {
                function_idx: frame.function,
                ip: frame.position,
                fp: frame.base,
            })
            .collect();
        vm.last_result = self.last_result.clone();
    }

    pub(super) fn put_into_published(&self, vm: &mut Published) {
        let mut given = Given::default();
        let stack = self.stack.iter().map(|v| given.value(v, vm)).collect();
        let last = self.last_result.as_ref().map(|v| given.value(v, vm));
        let frames = self.frames.iter().map(|frame| their::Frame {
            function: frame.function,
            position: frame.position,
            base: frame.base,
        });
        vm.put(stack, &frames.collect::<Vec<_>>(), last);
    }

    pub(super) fn same(&self, other: &State) -> bool {
        self.stack.len() == other.stack.len()
            && self.stack.iter().zip(&other.stack).all(|(l, r)| l.same(r))
            && self.frames == other.frames
            && same_last(&self.last_result, &other.last_result)
    }
}

pub(super) fn same_last(left: &Option<Value>, right: &Option<Value>) -> bool {
    match (left, right) {
        (Some(left), Some(right)) => left.same(right),
        (None, None) => true,
        _ => false,
    }
}
