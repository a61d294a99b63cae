//! The long stories: a store filled exactly, and one over.

use super::Story;
use crate::limits::Stores;

impl Story<'_> {
    /// Texts of each sort that fill their store, with main's name; the last
    /// of them is first tried with a byte too many.
    pub(super) fn full_text(&mut self) {
        self.lines(&["#! The text store is filled", "new"]);
        let sorts = ["reference", "struct", "begin"];
        let last = self.rng.below(3);
        let rest = [(); 3].map(|()| self.rng.between(1, 3));
        let long = Stores::RUNNER.text - 6 - rest.iter().sum::<usize>();
        self.line(format!("string {}", "78".repeat(long)));
        for index in [last + 1, last + 2, last].map(|index| index % 3) {
            if index == last {
                let over = "79".repeat(rest[index] + 1);
                for sort in sorts.iter().chain(&["string"]) {
                    self.line(format!("{sort} {over}"));
                }
            }
            self.line(format!("{} {}", sorts[index], "79".repeat(rest[index])));
        }
        self.lines(&["string 00", "reference 00", "struct 00", "begin 00", "end"]);
        self.lines(&["string", "struct", "begin", "end", "op1 0 0 1"]);
        self.lines(&["start", "continue 9"]);
        self.line(format!("text 0 {}", long - 1));
        self.line("save");
    }

    /// Code that fills its store, main's or the others'.
    pub(super) fn full_code(&mut self, others: bool) {
        let room = Stores::RUNNER.main_code;
        self.lines(&["#! A code store is filled", "new", "boolean 1"]);
        let mut taken = 0;
        if others {
            // The others share one store.
            self.lines(&["begin 66", "op1 0 0 1", "op 37 2", "begin 67"]);
            taken = 4;
        }
        while taken + 7 <= room {
            self.line("op3 29 0 0 0 0");
            taken += 7;
        }
        // As much as fits, then each length once more.
        while taken < room {
            self.line("op 37 5");
            taken += 1;
            self.line("op3 0 0 0 0 0");
        }
        self.lines(&["op 37 1", "op1 0 0 1", "op2 28 0 0 1", "op 38 1", "offset"]);
        let end = self.machine().current_offset();
        for at in [end - 3, end - 2, end - 1, end] {
            self.line(format!("patch {at} 0"));
        }
        self.lines(&["patch 0 27", "patch 1 65535", "end"]);
        if others {
            self.lines(&["op2 28 2 0 1", "begin 68", "op 37 1", "end"]);
        }
        self.lines(&["start", "continue 99", "trace", "frame 0", "list"]);
        self.line("save");
    }

    /// As many constants, structs and functions as there is room for.
    pub(super) fn full_counts(&mut self) {
        self.lines(&[
            "#! Constants, structs and functions fill their stores",
            "new",
        ]);
        for number in 0..=Stores::RUNNER.constants {
            self.line(format!("boolean {}", number % 2));
        }
        self.line("string 00");
        for number in 0..=Stores::RUNNER.structs {
            self.line(format!("struct {number:04X}"));
        }
        // A known name takes no room.
        self.lines(&["struct 0000", "struct 00FF"]);
        for number in 1..=Stores::RUNNER.functions {
            self.line(if number % 2 == 0 { "begin 66" } else { "begin" });
        }
        self.lines(&["op1 0 255 7", "op 37 8", "find 66", "find", "end"]);
        self.lines(&["op2 34 255 0 1", "op2 28 255 0 2", "start"]);
        self.lines(&["continue 9", "trace", "last"]);
        self.look();
    }
}
