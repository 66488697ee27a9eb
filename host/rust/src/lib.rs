//! Thrift's compact protocol over slices: a reader, a writer, skip, a field picker and the day file, each call proved to meet its contract in the core that this crate links.
//!
//! The names are those of the crate `thrift`. A reader borrows its input and hands out parts of it, a writer borrows its buffer; neither allocates.
//! A refused call hands back a [`Refusal`] with its number and leaves reader, writer and buffer as they were, so it may be tried again.
//!
//! ```
//! use tagrumzil::{TCompactInputProtocol, TCompactOutputProtocol, TType};
//!
//! let mut buffer = [0; 64];
//! let mut out = TCompactOutputProtocol::new(&mut buffer);
//! out.write_struct_begin()?;
//! out.write_field_begin(TType::I32, 1)?;
//! out.write_i32(-1)?;
//! out.write_field_stop()?;
//! out.write_struct_end()?;
//! let bytes = out.written();
//!
//! let mut input = TCompactInputProtocol::new(bytes);
//! input.read_struct_begin()?;
//! let field = input.read_field_begin()?;
//! assert_eq!((field.field_type, field.id), (TType::I32, Some(1)));
//! assert_eq!(input.read_i32()?, -1);
//! # Ok::<(), tagrumzil::Refusal>(())
//! ```
#![no_std]
#![warn(missing_docs)]

#[cfg(feature = "alloc")]
extern crate alloc;

mod day;
mod fault;
mod ffi;
mod frame;
mod number;
mod reader;
mod refusal;
mod single;
mod types;
mod writer;

#[cfg(feature = "alloc")]
pub use day::DayWriter;
pub use day::{write_day, Day, Messages};
pub use frame::{FrameSkip, Progress};
pub use fault::{Fault, Step};
pub use number::{i32_to_zigzag, i64_to_zigzag, read_i16, read_le64, read_varint32, read_varint64, varint_len, write_varint, zigzag_to_i32, zigzag_to_i64};
pub use reader::{skip, Picked, PickedField, TCompactInputProtocol};
pub use refusal::Refusal;
pub use single::{F32Answer, F32Counts};
pub use types::{TConfiguration, TFieldIdentifier, TListIdentifier, TMapIdentifier, TMessageIdentifier, TMessageType, TType};
#[cfg(feature = "alloc")]
pub use writer::GrowingOutputProtocol;
pub use writer::{Buffer, CompactWriter, TCompactOutputProtocol};

/// How many numbers a state's row has: place, last id with what waits, depth, the limit on depth with the ceiling, the two on sizes, where the message began.
pub(crate) const ROW: usize = 6;
/// How many ids of outer structs it can keep.
pub(crate) const IDS: usize = 64;

/// The row of a new state under these limits.
pub(crate) fn new_row(limits: TConfiguration) -> [u64; ROW] {
    let both = |high: u32, low: u32| (high as u64) << 32 | low as u64;
    [0, 0, 0, both(limits.message, limits.depth), both(limits.container, limits.string), 0]
}

/// The number of the archive that this crate was written for.
const VERSION: u32 = 1;

/// The number of the archive that is linked: it changes with every change of a row's layout or of what a call means.
#[must_use]
pub fn version() -> u32 {
    // SAFETY: it takes nothing and answers a number.
    unsafe { ffi::tagrumzil_version() }
}

/// Whoever makes a reader, a writer or a frame asks this first: rows of another layout would be misread.
#[inline]
pub(crate) fn check_version() {
    assert!(version() == VERSION, "the archive linked is not the one that this crate was written for");
}

/// Ok where the number is 0.
pub(crate) fn told(number: u8) -> Result<(), Refusal> {
    if number == 0 {
        Ok(())
    } else {
        Err(Refusal::from_number(number))
    }
}
