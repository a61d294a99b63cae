"""Chaffwheel for a host in Python, over the shared object that `./chaffwheel install DIR` makes (x86-64 Linux).

    machine = Machine("DIR/lib/libchaffwheel.so", open("rule.img", "rb").read())
    outcome = machine.whole_run(1_000_000)

or in parts, with something else done in the pauses: machine.begin(), then machine.continue_run(units) while the outcome is "paused", or
machine.abandon(). Only loading, running and the last result are here; include/chaffwheel.h has the other functions, and each is called the same way. The machine is
proved to keep its written rules; this page is not proved.
"""
import ctypes
import struct
from ctypes import c_bool, c_size_t, c_uint8, c_uint32, c_uint64

NUMBERS = {5: "a value has the wrong kind", 7: "there is no last result", 8: "a division by zero", 13: "the units are spent",
           18: "no run is under way that could be continued or abandoned",
           20: "the image breaks a rule of its format", 21: "a store has too little room for the program",
           25: "a run is under way, and until it is over the program stays and no other is begun",
           26: "on a strict machine finite numbers gave a result that is not finite"}


class Refused(Exception):
    """A call that was not begun: nothing has changed. Its number is in docs/NUMBERS.md."""

    def __init__(self, number):
        super().__init__(f"refused {number}: {NUMBERS.get(number, 'docs/NUMBERS.md')}")
        self.number = number


class Outcome:
    """What a part of a run answered: kind is "value", "continue" or "fault", and the run is over; or "paused", and it is under way. spent and returns are the
    whole run's, so far. Whether it has counted is told by returns alone (docs/RETRY.md)."""

    def __init__(self, answer):
        outcome, self.spent, self.returns, first, second = answer
        self.kind = {1: "value", 2: "continue", 3: "fault", 4: "paused"}[outcome]
        self.value = value_of(first, second) if outcome == 1 else None
        self.fault = first if outcome == 3 else None
        self.entries = second if outcome == 3 else 0


def value_of(kind, payload):
    """A number or a boolean; of all else the two words, which the readers of chaffwheel.h take."""
    if kind == 0:
        return struct.unpack("<d", struct.pack("<Q", payload))[0]
    return bool(payload) if kind == 1 else (kind, payload)


class Machine:
    """A rule that was loaded, over stores of the runner's sizes that this object owns."""

    def __init__(self, library, image):
        self.library = ctypes.CDLL(library)
        self.vm, self.answer = (c_uint64 * 17)(), (c_uint64 * 5)()  # zeros: no run is under way
        self.program = [(c_uint64 * 512)(), (c_uint64 * 512)(), (c_uint64 * 512)(), (c_uint8 * 16384)(),
                        (c_uint8 * 8192)(), (c_uint32 * 8192)(), (c_uint8 * 8192)(), (c_uint32 * 8192)()]
        self.stack, self.cells, self.frames = (c_uint64 * 2048)(), (c_uint64 * 4096)(), (c_uint64 * 1024)()
        self.copy, self.trace = (c_uint64 * 2048)(), (c_uint64 * 768)()
        image = (c_uint8 * max(len(image), 1)).from_buffer_copy(image or b"\0"), len(image)
        self.call("load", image, self.vm, *self.program, self.framed(), self.answer)

    def framed(self):
        return self.frames, 256  # a frame is four words

    def call(self, name, *arguments):
        """Lends each store with its count; other arguments go as they are."""
        words = []
        for argument in arguments:
            store, count = argument if isinstance(argument, tuple) else (argument, None)
            words += [store] if isinstance(store, (c_uint64, c_bool)) else [store, c_size_t(len(store) if count is None else count)]
        number = getattr(self.library, "chaffwheel_" + name)(*words)
        if number:
            raise Refused(number)

    def set_strict(self, strict):
        """On a strict machine finite numbers that give infinity or NaN are fault 26. A machine is not strict as it is loaded."""
        self.call("set_strict", c_bool(strict), self.vm, *self.program, self.stack, self.cells, self.framed(), self.copy)

    def begin(self):
        """Begins a run; it takes no units."""
        return self.part("begin", self.vm, *self.program, self.stack, self.cells, self.framed(), self.copy, self.answer)

    def continue_run(self, units):
        """Gives the run under way so many units more."""
        return self.part("continue", c_uint64(units), self.vm, *self.program, self.stack, self.cells, self.framed(), self.copy, self.trace, self.answer)

    def abandon(self):
        """Ends the run under way: fault 13."""
        return self.part("abandon", self.vm, *self.program, self.stack, self.cells, self.framed(), self.copy, self.trace, self.answer)

    def part(self, name, *arguments):
        self.call(name, *arguments)
        return Outcome(list(self.answer))

    def backtrace(self, outcome):
        """Of a fault: function, place, and the units that the run had spent when the frame was entered, the innermost frame first."""
        return [tuple(self.trace[3 * i:3 * i + 3]) for i in range(outcome.entries)]

    def whole_run(self, units):
        """Begun, continued once, and abandoned where it is then paused."""
        outcome = self.begin()
        if outcome.kind == "paused":
            outcome = self.continue_run(units)
        return self.abandon() if outcome.kind == "paused" else outcome

    def last_result(self):
        """None before the first root Return."""
        return None if self.vm[8] == 7 else value_of(self.vm[8], self.vm[9])
