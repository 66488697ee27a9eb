//! The bare numbers. Each read answers the value and the place behind it; a place past the end is BAD_STATE.
use crate::{ffi, told, Refusal};

macro_rules! read {
    ($(#[$doc:meta])* $name:ident, $export:ident, $value:ty) => {
        $(#[$doc])*
        pub fn $name(input: &[u8], at: usize) -> Result<($value, usize), Refusal> {
            let (mut value, mut end) = (0, 0);
            // SAFETY: the pointers and lengths are those of live borrows.
            told(unsafe { ffi::$export(input.as_ptr(), input.len(), at, &mut value, &mut end) })?;
            Ok((value, end))
        }
    };
}

read!(/// A 32-bit varint at a place.
    read_varint32, tagrumzil_varint32, u32);
read!(/// A 64-bit varint at a place.
    read_varint64, tagrumzil_varint64, u64);
read!(/// An i16 at a place: a 32-bit zigzag number, RANGE where it is outside -32,768 to 32,767.
    read_i16, tagrumzil_i16, i16);
read!(/// The bits of eight bytes at a place, lowest first.
    read_le64, tagrumzil_le64, u64);

/// Writes a number in the fewest bytes at a place of the buffer, and answers the place behind it.
pub fn write_varint(buffer: &mut [u8], at: usize, n: u64) -> Result<usize, Refusal> {
    let mut end = 0;
    // SAFETY: as above.
    told(unsafe { ffi::tagrumzil_put_varint(buffer.as_mut_ptr(), buffer.len(), at, n, &mut end) })?;
    Ok(end)
}

/// How many bytes a number takes.
pub fn varint_len(n: u64) -> usize {
    // SAFETY: numbers in, a number out.
    unsafe { ffi::tagrumzil_varint_len(n) }
}

/// From zigzag, 32 bits.
pub fn zigzag_to_i32(n: u32) -> i32 {
    unsafe { ffi::tagrumzil_zigzag_to_i32(n) }
}

/// From zigzag, 64 bits.
pub fn zigzag_to_i64(n: u64) -> i64 {
    unsafe { ffi::tagrumzil_zigzag_to_i64(n) }
}

/// To zigzag, 32 bits.
pub fn i32_to_zigzag(n: i32) -> u32 {
    unsafe { ffi::tagrumzil_i32_to_zigzag(n) }
}

/// To zigzag, 64 bits.
pub fn i64_to_zigzag(n: i64) -> u64 {
    unsafe { ffi::tagrumzil_i64_to_zigzag(n) }
}
