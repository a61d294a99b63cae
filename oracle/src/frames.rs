//! The call frames as a host holds them between calls, and may damage them.

use crate::image::Program;
use crate::limits::{Frame, Refused};

/// The greatest position: a jump of 65,535 from the end of 65,535 bytes.
pub const MOST_POSITION: usize = 131_070;

/// The frame store, and how many of its frames are taken. What stands in a
/// slot past those is not fixed by the rules once a call has been made: none,
/// until the host puts a frame there.
#[derive(Clone)]
pub struct FrameStore {
    slots: Vec<Option<Frame>>,
    taken: usize,
}

/// It would take a frame that the rules do not fix to go on.
#[derive(Clone, Copy, Debug, PartialEq, Eq)]
pub struct NotFixed(pub usize);

impl FrameStore {
    /// A store of zeros of which nothing is taken.
    pub fn new(places: usize) -> FrameStore {
        FrameStore {
            slots: vec![Some(Frame::root(0)); places],
            taken: 0,
        }
    }

    /// What a call has left.
    pub fn leave(&mut self, frames: &[Frame]) {
        self.taken = frames.len();
        self.slots.fill(None);
        for (slot, frame) in self.slots.iter_mut().zip(frames) {
            *slot = Some(frame.clone());
        }
    }

    /// Frame `i`; one of zeros where there is no such slot.
    pub fn show(&self, i: usize) -> Result<Frame, NotFixed> {
        match self.slots.get(i) {
            Some(slot) => slot.clone().ok_or(NotFixed(i)),
            None => Ok(Frame::root(0)),
        }
    }

    pub fn put(&mut self, i: usize, frame: Frame) {
        if let Some(slot) = self.slots.get_mut(i) {
            *slot = Some(frame);
        }
    }

    /// All frames as if they had been entered at 0.
    pub fn unenter(&mut self) {
        for frame in self.slots.iter_mut().flatten() {
            frame.entered = 0;
        }
    }

    pub fn count(&mut self, taken: usize) {
        self.taken = taken;
    }

    /// The frames that are taken; 19 if they do not all have a slot.
    pub fn taken(&self) -> Result<Result<Vec<Frame>, Refused>, NotFixed> {
        if self.taken > self.slots.len() {
            return Ok(Err(Refused::Order));
        }
        let frames: Result<Vec<Frame>, NotFixed> = (0..self.taken).map(|i| self.show(i)).collect();
        frames.map(Ok)
    }
}

/// The frames' good order: at least one; the first frame function 0, base 0;
/// function numbers known; bases within the stack store; positions at most
/// 131,070, and in all but the innermost frame from 1 to the code length; the
/// units at which they were entered never fall from the root inwards. With a
/// run under way, which has spent so many units, the innermost position is below
/// its code length, and no frame was entered at more units than those.
pub fn in_order(
    frames: &[Frame],
    program: &Program,
    values: usize,
    under_way: Option<u64>,
) -> bool {
    let Some((innermost, callers)) = frames.split_last() else {
        return false;
    };
    let code = |frame: &Frame| program.functions.get(frame.function).map(|f| f.code.len());
    frames[0].function == 0
        && frames[0].base == 0
        && frames.iter().all(|frame| frame.base <= values)
        && callers
            .iter()
            .all(|frame| code(frame).is_some_and(|length| (1..=length).contains(&frame.position)))
        && innermost.position <= MOST_POSITION
        && code(innermost).is_some_and(|length| under_way.is_none() || innermost.position < length)
        && frames.is_sorted_by_key(|frame| frame.entered)
        && under_way.is_none_or(|spent| innermost.entered <= spent)
}
