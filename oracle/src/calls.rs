//! Scripts of host calls for the console, made by chance and repeatable: many
//! short stories, each begun by `new` or `image`.

mod between;
mod dealing;
mod emitting;
mod entering;
mod filling;
mod looking;
mod parts;
mod running;
mod stories;
mod strictness;
pub mod tally;

use crate::console::Console;
use crate::generate::Rng;
use crate::limits::Machine;

/// Stories that are too long for what is left, one after the other, before a
/// script is done.
const PATIENCE: usize = 20;
/// A long story is told at the beginning of a script that has room for it.
const LONG: usize = 40_000;
/// One story of each sort but emitted programs comes first, then any.
const SORTS: usize = 33;
const ANY: usize = 43;

/// A script of at most `most` bytes.
pub fn script(seed: u64, most: usize) -> String {
    let mut told = Told {
        console: Console::new(),
        text: String::new(),
        most,
    };
    if most >= LONG {
        told.tell(&mut Rng::new(seed, u64::MAX), |story| story.long(seed));
    }
    let mut too_long = 0;
    for index in 0.. {
        let mut rng = Rng::new(seed, index);
        let sort = match index as usize {
            sort if sort < SORTS => sort,
            _ => rng.below(ANY),
        };
        if told.tell(&mut rng, |story| story.short(sort)) {
            too_long = 0;
        } else {
            too_long += 1;
        }
        if too_long == PATIENCE {
            break;
        }
    }
    told.text
}

/// What has been told so far.
struct Told {
    console: Console,
    text: String,
    most: usize,
}

impl Told {
    /// Tells a story if there is room for it.
    fn tell(&mut self, rng: &mut Rng, tell: impl Fn(&mut Story)) -> bool {
        let mut story = Story {
            rng,
            console: self.console.clone(),
            text: String::new(),
        };
        tell(&mut story);
        let fits = self.text.len() + story.text.len() <= self.most;
        if fits {
            self.text += &story.text;
            self.console = story.console;
        }
        fits
    }
}

/// A story as it is told: each line is played, so that the next can be chosen
/// by what the machine then is.
struct Story<'a> {
    rng: &'a mut Rng,
    console: Console,
    text: String,
}

impl Story<'_> {
    /// Writes a line; gives what it is answered.
    fn line(&mut self, line: impl AsRef<str>) -> String {
        let line = line.as_ref();
        self.text += line;
        self.text.push('\n');
        let said = self.console.obey(0, line.as_bytes());
        let said = said.expect("no story asks for what is not fixed");
        String::from_utf8_lossy(&said).into_owned()
    }

    fn lines(&mut self, lines: &[&str]) {
        for line in lines {
            self.line(line);
        }
    }

    fn machine(&self) -> &Machine {
        self.console.machine().expect("a story begins with one")
    }

    fn short(&mut self, sort: usize) {
        match sort {
            0..=9 => self.faulted([1, 2, 3, 4, 5, 6, 7, 8, 13, 14][sort]),
            10..=12 => self.descent(["stack", "frames", "cells"][sort - 10]),
            13 => self.deep(),
            14 => self.built(),
            15 | 16 => self.damaged(),
            17 => self.named(),
            18 => self.patched(),
            19 => self.not_understood(),
            20 => self.loaded(),
            21 => self.redefined(),
            22 => self.struct_added(),
            23 => self.grown(),
            24 => self.framed(),
            25 => self.reloaded(),
            26 => self.dealt(),
            27 => self.abandoned(),
            28 => self.paused(),
            29 => self.begun_in_a_callee(),
            30 => self.run_damaged(),
            31 => self.calls_inside_calls(),
            32 => self.strict(),
            _ => self.emitted(),
        }
        // The next story begins with a machine of its own.
        self.give_up();
    }

    /// A store filled exactly, and one over; another one for each of four
    /// seeds.
    fn long(&mut self, seed: u64) {
        match seed % 4 {
            0 => self.full_text(),
            1 => self.full_code(false),
            2 => self.full_code(true),
            _ => self.full_counts(),
        }
    }
}
