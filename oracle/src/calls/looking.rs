//! What a story looks at.

use super::Story;
use crate::generate::some_text;
use crate::print::listing;
use crate::script::in_hex as hex;
use crate::value::Value;

impl Story<'_> {
    /// Everything, or some of it.
    pub(super) fn look(&mut self) {
        let height = self.machine().stack.len();
        if self.machine().last_result.is_some() || self.rng.chance(30) {
            self.line("last");
        }
        for place in 0..height.min(3) {
            self.look_at(place);
        }
        if height > 3 {
            self.look_at(height - 1);
        }
        if self.rng.chance(40) {
            let past = self
                .rng
                .pick(&["stack #", "header #", "text #", "element # 0"]);
            self.line(past.replace('#', &height.to_string()));
        }
        self.look_at_frames();
        match self.rng.below(6) {
            0 => {
                self.saved();
            }
            1 => self.listed(),
            2 => {
                self.line("offset");
            }
            3 => self.find(),
            _ => {}
        }
    }

    pub(super) fn look_at(&mut self, i: usize) {
        self.line(format!("stack {i}"));
        match self.machine().stack[i].clone() {
            Value::List(elements) | Value::StructInstance(_, elements) => {
                self.line(format!("header {i}"));
                let count = elements.items().len();
                for element in 0..count.min(2) {
                    self.line(format!("element {i} {element}"));
                }
                if self.rng.chance(40) {
                    self.line(format!("element {i} {count}"));
                }
                if self.rng.chance(10) {
                    self.line(format!("text {i} 0"));
                }
            }
            Value::String(text) | Value::FunctionReference(text) => {
                self.line(format!("text {i}"));
                if self.rng.chance(40) {
                    self.line(format!("text {i} {}", text.len()));
                }
                if self.rng.chance(40) && !text.is_empty() {
                    self.line(format!("text {i} {}", text.len() - 1));
                }
                if self.rng.chance(10) {
                    self.line(format!("element {i} 0"));
                }
            }
            Value::Scalar(_) | Value::Boolean(_) => {
                if self.rng.chance(20) {
                    let line = self.rng.pick(&["header #", "element # 0", "text #"]);
                    self.line(line.replace('#', &i.to_string()));
                }
            }
        }
    }

    pub(super) fn look_at_frames(&mut self) {
        let frames = self.machine().frames.len();
        self.line("frame 0");
        if frames > 1 {
            self.line(format!("frame {}", frames - 1));
        }
        match self.rng.below(4) {
            0 if frames < 20 => {
                self.line("trace");
            }
            1 if frames < 20 => {
                self.line(format!("trace {frames}"));
            }
            2 => {
                self.line(format!("trace {}", frames - 1));
            }
            _ => {}
        }
    }

    /// The image, into a store that is just long enough or one short.
    pub(super) fn saved(&mut self) {
        let length = self.machine().save().len();
        self.room("save", length);
    }

    pub(super) fn listed(&mut self) {
        let listing = listing(&self.machine().program);
        self.room("list", listing.map_or(9, |listing| listing.len()));
    }

    pub(super) fn room(&mut self, command: &str, length: usize) {
        match self.rng.below(3) {
            0 => self.line(command),
            1 => self.line(format!("{command} {length}")),
            _ => self.line(format!("{command} {}", length - 1)),
        };
    }

    /// A name that a function has, or one that none has.
    pub(super) fn find(&mut self) {
        let functions = &self.machine().program.functions;
        let names: Vec<Vec<u8>> = functions.iter().map(|f| f.name.clone()).collect();
        let name = if self.rng.chance(60) {
            names[self.rng.below(names.len())].clone()
        } else {
            some_text(self.rng, 3)
        };
        self.line(format!("find {}", hex(&name)));
    }
}
