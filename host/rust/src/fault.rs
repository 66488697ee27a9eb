//! Where and why a struct is refused.
use crate::{ffi, Refusal, TCompactInputProtocol, ROW};
use core::fmt;

/// The most steps of a path: one for each level.
const MOST: usize = 64;

/// One step of the path to a fault.
#[derive(Clone, Copy, Debug, PartialEq, Eq, Hash)]
pub enum Step {
    /// Into the field of an id.
    Field(i16),
    /// Into an element of a list or set, counted from 0.
    Element(u32),
    /// Into a map's key, counted from 0.
    Key(u32),
    /// Into a map's value, counted from 0.
    Value(u32),
}

impl Step {
    // The numbers are in their ranges by the call's contract.
    fn from_row(row: &[i64]) -> Step {
        match row[0] {
            0 => Step::Field(row[1] as i16),
            1 => Step::Element(row[1] as u32),
            2 => Step::Key(row[1] as u32),
            _ => Step::Value(row[1] as u32),
        }
    }
}

impl fmt::Display for Step {
    fn fmt(&self, f: &mut fmt::Formatter<'_>) -> fmt::Result {
        match self {
            Step::Field(id) => write!(f, "field {id}"),
            Step::Element(i) => write!(f, "element {i}"),
            Step::Key(i) => write!(f, "key {i}"),
            Step::Value(i) => write!(f, "value {i}"),
        }
    }
}

/// Why a struct is refused, and where: the refusal, the offset of the last byte that was read before it, and the path from outside in.
///
/// ```
/// use tagrumzil::{Step, TCompactInputProtocol};
///
/// // Field 1 is a list of two structs; the second one has a field whose type has no code.
/// let reader = TCompactInputProtocol::new(&[0x19, 0x2c, 0x13, 0x07, 0x00, 0x1e, 0x00, 0x00]);
/// let fault = reader.why().unwrap();
/// assert_eq!((fault.refusal().number(), fault.offset()), (4, 5));
/// assert_eq!(fault.path(), [Step::Field(1), Step::Element(1)]);
/// assert_eq!(fault.to_string(), "refused 4 BAD TYPE at byte 5, in field 1, element 1");
/// ```
#[derive(Clone, Copy, PartialEq, Eq, Hash)]
pub struct Fault {
    refusal: Refusal,
    offset: usize,
    steps: [Step; MOST],
    count: usize,
}

impl Fault {
    /// Why it is refused.
    pub fn refusal(&self) -> Refusal {
        self.refusal
    }

    /// The place, in the input, of the last byte that was read before the refusal: the struct's start where none was, the input's end where a single byte was missing. A
    /// double, a uuid or a string's bytes cut short count as unread.
    pub fn offset(&self) -> usize {
        self.offset
    }

    /// The fields, elements, keys and values around it, from outside in.
    pub fn path(&self) -> &[Step] {
        &self.steps[..self.count]
    }
}

impl fmt::Display for Fault {
    fn fmt(&self, f: &mut fmt::Formatter<'_>) -> fmt::Result {
        write!(f, "refused {} {} at byte {}", self.refusal.number(), self.refusal.name(), self.offset)?;
        for (k, step) in self.path().iter().enumerate() {
            write!(f, ", {}{step}", if k == 0 { "in " } else { "" })?;
        }
        Ok(())
    }
}

impl fmt::Debug for Fault {
    fn fmt(&self, f: &mut fmt::Formatter<'_>) -> fmt::Result {
        write!(f, "Fault({self})")
    }
}

impl core::error::Error for Fault {}

impl TCompactInputProtocol<'_> {
    /// Why a [`skip`](Self::skip) of the struct at the reader's place is refused, and where; `None` where it is accepted. The reader stays.
    pub fn why(&self) -> Option<Fault> {
        let (input, row) = self.input_and_row();
        let (mut numbers, mut offset, mut count) = ([0; 2 * MOST], 0, 0);
        // SAFETY: the pointers and lengths are those of live borrows, and no two of them overlap.
        let number = unsafe { ffi::tagrumzil_why(input.as_ptr(), input.len(), row.as_ptr(), ROW, numbers.as_mut_ptr(), numbers.len(), &mut offset, &mut count) };
        if number == 0 {
            return None;
        }
        let mut steps = [Step::Field(0); MOST];
        for (step, row) in steps.iter_mut().zip(numbers.chunks_exact(2)).take(count) {
            *step = Step::from_row(row);
        }
        Some(Fault { refusal: Refusal::from_number(number), offset, steps, count })
    }
}
