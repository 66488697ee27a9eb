//! STAND-IN, NOT the published crate `varint-rs`, and written without seeing it.
//!
//! thrift 0.25.0's compact.rs says `use varint_rs::VarintWriter;` and calls
//! write_u32_varint, write_i16_varint, write_i32_varint, write_i64_varint on a
//! `Cursor<&mut [u8]>`.  Written from Apache Thrift's compact protocol document
//! ("ZigZag encoding", "Varint encoding"): ULEB128, fewest bytes; signed = zigzag first.
//! So every varint *the crate writes here* is this file's answer, not the crate's.
use std::io;

pub trait VarintWriter: io::Write {
    fn write_u32_varint(&mut self, value: u32) -> io::Result<()> {
        uleb128(self, u64::from(value))
    }
    fn write_i16_varint(&mut self, value: i16) -> io::Result<()> {
        uleb128(self, u64::from(((value << 1) ^ (value >> 15)) as u16))
    }
    fn write_i32_varint(&mut self, value: i32) -> io::Result<()> {
        uleb128(self, u64::from(((value << 1) ^ (value >> 31)) as u32))
    }
    fn write_i64_varint(&mut self, value: i64) -> io::Result<()> {
        uleb128(self, ((value << 1) ^ (value >> 63)) as u64)
    }
}

impl<W: io::Write + ?Sized> VarintWriter for W {}

fn uleb128<W: io::Write + ?Sized>(w: &mut W, mut v: u64) -> io::Result<()> {
    loop {
        let low = (v & 0x7f) as u8;
        v >>= 7;
        if v == 0 {
            return w.write_all(&[low]);
        }
        w.write_all(&[low | 0x80])?;
    }
}
