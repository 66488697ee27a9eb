//! Frames whose bytes come in bursts: a skip of one struct that keeps its place between them.
use crate::{check_version, ffi, Refusal, TConfiguration};

/// How many numbers the state has: its layout stands in host/tagrumzil.h.
const NUMBERS: usize = 268;
/// What a call answers that waits for more.
const MORE: u8 = 255;

/// What is told of a frame so far.
#[derive(Clone, Copy, Debug, PartialEq, Eq)]
pub enum Progress {
    /// More bytes are waited for.
    More,
    /// The struct has ended; so many of the frame's bytes were used. Final.
    Done(usize),
    /// The bytes were refused. Final; but BAD STATE, for limits out of range, leaves the state as it was.
    Refused(Refusal),
}

/// A skip of one struct whose bytes come in bursts, up to an announced length. It keeps no bytes of them, and its nesting in fixed room.
///
/// ```
/// use tagrumzil::{FrameSkip, Progress, TConfiguration};
///
/// // Field 1, an i32 of 2 bytes; field 2, a string of 3; the stop.
/// let frame = [0x15, 0x80, 0x01, 0x18, 0x03, b'a', b'b', b'c', 0x00];
/// let mut skip = FrameSkip::announce(frame.len(), TConfiguration::default());
/// assert_eq!(skip.take(&frame[..2]), Progress::More);
/// assert_eq!(skip.take(&[]), Progress::More);
/// assert_eq!(skip.take(&frame[2..]), Progress::Done(9));
/// ```
#[derive(Clone, Debug, PartialEq, Eq)]
pub struct FrameSkip {
    row: [u64; NUMBERS],
}

impl FrameSkip {
    /// A frame of an announced length, of which nothing has come. The ceiling counts from its first byte. Every call refuses limits out of range, BAD STATE.
    #[must_use]
    pub fn announce(length: usize, limits: TConfiguration) -> FrameSkip {
        check_version();
        let mut row = [0; NUMBERS];
        // SAFETY: the pointer and the length are those of a live borrow. Refused limits leave a row of zeros, which holds no state that a call takes.
        unsafe { ffi::tagrumzil_frame_announce(row.as_mut_ptr(), NUMBERS, length, limits.depth, limits.string, limits.container, limits.message) };
        FrameSkip { row }
    }

    /// A burst, which may be empty. Its bytes are taken up to the frame's end; those behind it have no say. After a final answer nothing changes.
    #[inline]
    pub fn take(&mut self, burst: &[u8]) -> Progress {
        let mut used = 0;
        // SAFETY: the pointers and lengths are those of live borrows, and no two of them overlap.
        let number = unsafe { ffi::tagrumzil_frame_take(self.row.as_mut_ptr(), NUMBERS, burst.as_ptr(), burst.len(), &mut used) };
        progress(number, used)
    }

    /// No more bytes come: END, unless the frame has its answer.
    pub fn close(&mut self) -> Progress {
        let mut used = 0;
        // SAFETY: as above.
        let number = unsafe { ffi::tagrumzil_frame_close(self.row.as_mut_ptr(), NUMBERS, &mut used) };
        progress(number, used)
    }

    /// The state as numbers, to be put by.
    pub fn numbers(&self) -> &[u64; NUMBERS] {
        &self.row
    }

    /// A state that was put by. Numbers that are none are refused by every call, BAD STATE.
    pub fn from_numbers(row: [u64; NUMBERS]) -> FrameSkip {
        FrameSkip { row }
    }
}

fn progress(number: u8, used: usize) -> Progress {
    match number {
        0 => Progress::Done(used),
        MORE => Progress::More,
        why => Progress::Refused(Refusal::from_number(why)),
    }
}
