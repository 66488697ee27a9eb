//! A day's messages in one file: a count, the offsets, and the messages one after another.
use crate::{ffi, told, Refusal};
#[cfg(feature = "alloc")]
use alloc::{vec, vec::Vec};

/// A day file, checked whole once. Its messages are parts of the borrowed bytes; what stands in them is checked only when they are read.
///
/// ```
/// use tagrumzil::{Day, DayWriter, TCompactInputProtocol};
///
/// let mut writer = DayWriter::new();
/// writer.push(&[0x82, 0x21, 0x01, 0x01, b't', 0x00]);
/// let file = writer.finish()?;
///
/// for message in Day::new(&file)? {
///     let mut input = TCompactInputProtocol::new(message);
///     assert_eq!(input.read_message_begin()?.name, "t");
/// }
/// # Ok::<(), tagrumzil::Refusal>(())
/// ```
#[derive(Clone, Copy, Debug)]
pub struct Day<'a> {
    bytes: &'a [u8],
    count: usize,
}

impl<'a> Day<'a> {
    /// Checks the file's rules: BAD DAY where one is broken.
    pub fn new(bytes: &'a [u8]) -> Result<Day<'a>, Refusal> {
        let mut count = 0;
        // SAFETY: the pointers and lengths are those of live borrows.
        told(unsafe { ffi::tagrumzil_check_day(bytes.as_ptr(), bytes.len(), &mut count) })?;
        Ok(Day { bytes, count })
    }

    /// How many messages there are.
    pub fn len(&self) -> usize {
        self.count
    }

    /// Whether there is none.
    pub fn is_empty(&self) -> bool {
        self.count == 0
    }

    /// Message `k`, counted from 0: BAD DAY where there are not so many.
    pub fn message(&self, k: usize) -> Result<&'a [u8], Refusal> {
        let (mut start, mut end) = (0, 0);
        // SAFETY: as above.
        told(unsafe { ffi::tagrumzil_day_message(self.bytes.as_ptr(), self.bytes.len(), k, &mut start, &mut end) })?;
        Ok(&self.bytes[start..end])
    }

    /// All messages, the first one first.
    pub fn messages(&self) -> Messages<'a> {
        Messages { day: *self, next: 0 }
    }
}

impl<'a> IntoIterator for Day<'a> {
    type Item = &'a [u8];
    type IntoIter = Messages<'a>;

    fn into_iter(self) -> Messages<'a> {
        self.messages()
    }
}

/// The messages of a [`Day`], one after the other.
#[derive(Clone, Debug)]
pub struct Messages<'a> {
    day: Day<'a>,
    next: usize,
}

impl<'a> Iterator for Messages<'a> {
    type Item = &'a [u8];

    fn next(&mut self) -> Option<&'a [u8]> {
        let message = self.day.message(self.next).ok()?;
        self.next += 1;
        Some(message)
    }

    fn size_hint(&self) -> (usize, Option<usize>) {
        let left = self.day.count - self.next;
        (left, Some(left))
    }
}

impl ExactSizeIterator for Messages<'_> {}

/// Writes the day of the messages that stand one behind the other in `bytes`, each up to its end, into a lent buffer, and answers the file's length. BAD DAY where
/// one is empty, there are more than 4,096 or the file would have more than 4,294,967,295 bytes; then NO ROOM. A refused call leaves the buffer as it was.
pub fn write_day(buffer: &mut [u8], bytes: &[u8], ends: &[usize]) -> Result<usize, Refusal> {
    let mut length = 0;
    // SAFETY: as above.
    told(unsafe { ffi::tagrumzil_write_day(buffer.as_mut_ptr(), buffer.len(), bytes.as_ptr(), bytes.len(), ends.as_ptr(), ends.len(), &mut length) })?;
    Ok(length)
}

/// Gathers messages for a day file.
#[cfg(feature = "alloc")]
#[derive(Clone, Debug, Default)]
pub struct DayWriter {
    bytes: Vec<u8>,
    ends: Vec<usize>,
}

#[cfg(feature = "alloc")]
impl DayWriter {
    /// No messages yet.
    pub fn new() -> DayWriter {
        DayWriter::default()
    }

    /// One more message. Whether the messages make a day is told by [`DayWriter::finish`].
    pub fn push(&mut self, message: &[u8]) {
        self.bytes.extend_from_slice(message);
        self.ends.push(self.bytes.len());
    }

    /// The file: BAD DAY where a message is empty, there are more than 4,096 or the file would have more than 4,294,967,295 bytes.
    pub fn finish(&self) -> Result<Vec<u8>, Refusal> {
        // BAD DAY comes before NO ROOM, so that no buffer is made for what is no day.
        match write_day(&mut [], &self.bytes, &self.ends) {
            Err(why) if why != Refusal::NO_ROOM => return Err(why),
            _ => (),
        }
        let mut file = vec![0; 4 * self.ends.len() + 8 + self.bytes.len()];
        let length = write_day(&mut file, &self.bytes, &self.ends)?;
        debug_assert_eq!(length, file.len());
        Ok(file)
    }
}
