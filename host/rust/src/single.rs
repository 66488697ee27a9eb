//! Which of a struct's doubles an `f32` holds.
use crate::{ffi, told, Refusal, TCompactInputProtocol, ROW};

/// How many of a struct's doubles an `f32` holds, how many it does not, and how many are not a number.
#[derive(Clone, Copy, Debug, Default, PartialEq, Eq, Hash)]
pub struct F32Counts {
    /// An `f32` holds the very number: zeros and infinities too.
    pub yes: u64,
    /// It does not.
    pub no: u64,
    /// Not a number.
    pub nan: u64,
}

impl F32Counts {
    /// All the doubles of the struct.
    pub fn all(&self) -> u64 {
        self.yes + self.no + self.nan
    }
}

/// Whether an `f32` holds the very number of one double.
#[derive(Clone, Copy, Debug, PartialEq, Eq, Hash)]
pub enum F32Answer {
    /// It does.
    Yes,
    /// It does not.
    No,
    /// The double is not a number.
    NotANumber,
}

impl F32Answer {
    /// The answer that stands in a row of [`f32_answers`](TCompactInputProtocol::f32_answers).
    pub fn from_number(number: u8) -> F32Answer {
        match number {
            0 => F32Answer::Yes,
            1 => F32Answer::No,
            _ => F32Answer::NotANumber,
        }
    }
}

impl TCompactInputProtocol<'_> {
    /// Counts the doubles of the struct at the reader's place, in map keys and inner structs too, by whether an `f32` holds the very number. The reader moves behind the struct,
    /// as [`skip`](Self::skip) of it does.
    ///
    /// ```
    /// use tagrumzil::{F32Counts, TCompactInputProtocol};
    ///
    /// // Field 1 is 0.5, field 2 is 16,777,217.
    /// let bytes = [0x17, 0, 0, 0, 0, 0, 0, 0xe0, 0x3f, 0x17, 0, 0, 0, 0x10, 0, 0, 0x70, 0x41, 0];
    /// assert_eq!(TCompactInputProtocol::new(&bytes).f32_counts()?, F32Counts { yes: 1, no: 1, nan: 0 });
    /// # Ok::<(), tagrumzil::Refusal>(())
    /// ```
    pub fn f32_counts(&mut self) -> Result<F32Counts, Refusal> {
        let (input, row) = self.input_and_row_mut();
        let mut counts = F32Counts::default();
        // SAFETY: the pointers and lengths are those of live borrows, and no two of them overlap.
        told(unsafe { ffi::tagrumzil_f32_counts(input.as_ptr(), input.len(), row.as_mut_ptr(), ROW, &mut counts.yes, &mut counts.no, &mut counts.nan) })?;
        Ok(counts)
    }

    /// An answer for each of them, in the order of the bytes, at the front of `answers`: 0 yes, 1 no, 2 not a number ([`F32Answer::from_number`]); and how many there are.
    /// NO ROOM where `answers` is too short, and nothing is written then.
    pub fn f32_answers(&mut self, answers: &mut [u8]) -> Result<usize, Refusal> {
        let (input, row) = self.input_and_row_mut();
        let mut count = 0;
        // SAFETY: the pointers and lengths are those of live borrows, and no two of them overlap.
        told(unsafe { ffi::tagrumzil_f32_answers(input.as_ptr(), input.len(), row.as_mut_ptr(), ROW, answers.as_mut_ptr(), answers.len(), &mut count) })?;
        Ok(count)
    }
}
