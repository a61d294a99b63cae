//! A run in parts: what it is given, and what a host does in the pauses.

use super::Story;
use crate::limits::Stores;
use crate::script::in_hex as hex;

impl Story<'_> {
    /// Begins a run, perhaps after a try with too short a copy store, and perhaps
    /// on a machine that was made strict, or not strict again.
    pub(super) fn start(&mut self) {
        if self.rng.chance(10) {
            self.set_strict();
        }
        match self.rng.below(8) {
            0 => {
                let room = self.rng.pick(&[0, 1, Stores::RUNNER.values - 1]);
                self.line(format!("start {room}"));
                self.line("start");
            }
            1 => {
                let room = Stores::RUNNER.values + self.rng.below(2);
                self.line(format!("start {room}"));
            }
            _ => {
                self.line("start");
            }
        }
        self.no_run();
    }

    pub(super) fn go_on(&mut self, units: u64) {
        self.line(format!("continue {units}"));
    }

    /// Units for the run under way, at once or in parts, with pauses between.
    pub(super) fn deal(&mut self, units: u64) {
        let mut left = units;
        let parts = match self.rng.below(8) {
            0..=3 => 0,
            4 => {
                self.part(0);
                0
            }
            5 => self.rng.between(3, 6),
            _ => self.rng.between(1, 3),
        };
        for _ in 0..parts {
            let units = match self.rng.below(4) {
                0 => 0,
                1 => 1,
                2 => self.rng.below(9) as u64,
                _ => self.rng.draw() % (left / 2 + 1),
            };
            let units = units.min(left);
            self.part(units);
            left -= units;
        }
        self.part(left);
    }

    /// One part, if a run is under way, and perhaps a pause behind it.
    fn part(&mut self, units: u64) {
        if !self.is_under_way() {
            return;
        }
        if self.rng.chance(5) {
            let room = self.rng.pick(&[0, 1, Stores::RUNNER.frames - 1]);
            self.line(format!("continue {units} {room}"));
        }
        match self.rng.below(16) {
            0 => self.line(format!("continue {units} {}", Stores::RUNNER.frames)),
            _ => self.line(format!("continue {units}")),
        };
        if self.is_under_way() && self.rng.chance(30) {
            self.pause();
        }
        self.no_run();
    }

    /// Something in a pause: a look, or what is refused.
    pub(super) fn pause(&mut self) {
        match self.rng.below(5) {
            0 => self.look_in_pause(),
            1 => self.too_many_units(),
            2 => self.go_on(0),
            _ => self.refused_in_pause(),
        }
    }

    fn look_in_pause(&mut self) {
        match self.rng.below(6) {
            0 => self.saved(),
            1 => self.listed(),
            2 => self.find(),
            3 => {
                self.line("offset");
            }
            _ => self.look(),
        }
    }

    /// One unit more than 64 bits, or as many as there can be.
    pub(super) fn too_many_units(&mut self) {
        let given = self.machine().under_way.as_ref().map_or(0, |run| run.given);
        if given > 0 {
            let units = self.rng.pick(&[u64::MAX - given + 1, u64::MAX]);
            self.go_on(units);
        }
    }

    /// A call that is refused 25, whatever else would be wrong with it.
    pub(super) fn refused_in_pause(&mut self) {
        let image = hex(&self.machine().save());
        const LINES: [&str; 21] = [
            "new",
            "strict 0",
            "strict 1",
            "image",
            "image 00",
            "start",
            "start 0",
            "op 37 1",
            "op 38 1",
            "op1 0 0 1",
            "op2 28 0 0 1",
            "op3 29 0 0 0 1",
            "patch 0 0",
            "patch 65535 0",
            "scalar 0",
            "boolean 1",
            "string 61",
            "reference 66",
            "struct 53",
            "begin 66",
            "end",
        ];
        match self.rng.below(LINES.len() + 1) {
            index if index < LINES.len() => self.line(LINES[index]),
            // Not a long one: it would be refused as well.
            _ if image.len() < 400 => self.line(format!("image {image}")),
            _ => self.line("new"),
        };
    }

    /// A run that is over, or never was, cannot be continued or abandoned.
    fn no_run(&mut self) {
        if !self.is_under_way() && self.rng.chance(10) {
            let line = self.rng.pick(&[
                "continue 0",
                "continue 9",
                "continue 18446744073709551615 0",
                "abandon",
                "abandon 0",
            ]);
            self.line(line);
        }
    }

    /// Abandons the run under way, if there is one.
    pub(super) fn give_up(&mut self) {
        if !self.is_under_way() {
            return;
        }
        if self.rng.chance(10) {
            self.line(format!("abandon {}", Stores::RUNNER.frames - 1));
        }
        self.line("abandon");
        if self.is_under_way() {
            self.mend();
            self.line("abandon");
        }
        // Begun again, it is over at once.
        if self.rng.chance(20) {
            self.line("start");
        }
        self.no_run();
    }

    /// Puts back the frames with which the run under way was last left.
    pub(super) fn mend(&mut self) {
        let frames = self.machine().frames.clone();
        for (index, frame) in frames.iter().enumerate() {
            self.line(format!(
                "frame {index} {} {} {} {}",
                frame.function, frame.position, frame.base, frame.entered
            ));
        }
        self.line(format!("count frames {}", frames.len()));
    }
}
