//! The exports as the archive has them: a slice is a pointer and a length, a lent number a pointer. `../../tagrumzil.h` says what each does.
#![allow(missing_docs)]

extern "C" {
    pub fn tagrumzil_version() -> u32;
    pub fn tagrumzil_varint32(s: *const u8, n: usize, at: usize, value: *mut u32, end: *mut usize) -> u8;
    pub fn tagrumzil_varint64(s: *const u8, n: usize, at: usize, value: *mut u64, end: *mut usize) -> u8;
    pub fn tagrumzil_i16(s: *const u8, n: usize, at: usize, value: *mut i16, end: *mut usize) -> u8;
    pub fn tagrumzil_le64(s: *const u8, n: usize, at: usize, value: *mut u64, end: *mut usize) -> u8;
    pub fn tagrumzil_put_varint(buf: *mut u8, n: usize, at: usize, value: u64, end: *mut usize) -> u8;
    pub fn tagrumzil_varint_len(n: u64) -> usize;
    pub fn tagrumzil_zigzag_to_i32(n: u32) -> i32;
    pub fn tagrumzil_zigzag_to_i64(n: u64) -> i64;
    pub fn tagrumzil_i32_to_zigzag(n: i32) -> u32;
    pub fn tagrumzil_i64_to_zigzag(n: i64) -> u64;

    pub fn tagrumzil_read_message_begin(s: *const u8, n: usize, row: *mut u64, m: usize, kind: *mut u8, sequence: *mut i32, start: *mut usize, end: *mut usize) -> u8;
    pub fn tagrumzil_read_struct_begin(s: *const u8, n: usize, row: *mut u64, m: usize, ids: *mut i16, k: usize) -> u8;
    pub fn tagrumzil_read_struct_end(s: *const u8, n: usize, row: *mut u64, m: usize, ids: *const i16, k: usize) -> u8;
    pub fn tagrumzil_read_field_begin(s: *const u8, n: usize, row: *mut u64, m: usize, kind: *mut u8, id: *mut i16) -> u8;
    pub fn tagrumzil_read_bool(s: *const u8, n: usize, row: *mut u64, m: usize, value: *mut bool) -> u8;
    pub fn tagrumzil_read_i8(s: *const u8, n: usize, row: *mut u64, m: usize, value: *mut i8) -> u8;
    pub fn tagrumzil_read_i16(s: *const u8, n: usize, row: *mut u64, m: usize, value: *mut i16) -> u8;
    pub fn tagrumzil_read_i32(s: *const u8, n: usize, row: *mut u64, m: usize, value: *mut i32) -> u8;
    pub fn tagrumzil_read_i64(s: *const u8, n: usize, row: *mut u64, m: usize, value: *mut i64) -> u8;
    pub fn tagrumzil_read_double(s: *const u8, n: usize, row: *mut u64, m: usize, bits: *mut u64) -> u8;
    pub fn tagrumzil_read_uuid(s: *const u8, n: usize, row: *mut u64, m: usize, start: *mut usize, end: *mut usize) -> u8;
    pub fn tagrumzil_read_bytes(s: *const u8, n: usize, row: *mut u64, m: usize, start: *mut usize, end: *mut usize) -> u8;
    pub fn tagrumzil_read_string(s: *const u8, n: usize, row: *mut u64, m: usize, start: *mut usize, end: *mut usize) -> u8;
    pub fn tagrumzil_read_list_begin(s: *const u8, n: usize, row: *mut u64, m: usize, kind: *mut u8, count: *mut u32) -> u8;
    pub fn tagrumzil_read_set_begin(s: *const u8, n: usize, row: *mut u64, m: usize, kind: *mut u8, count: *mut u32) -> u8;
    pub fn tagrumzil_read_map_begin(s: *const u8, n: usize, row: *mut u64, m: usize, key: *mut u8, value: *mut u8, count: *mut u32) -> u8;
    pub fn tagrumzil_skip(s: *const u8, n: usize, row: *mut u64, m: usize, kind: u8) -> u8;
    pub fn tagrumzil_pick(s: *const u8, n: usize, row: *mut u64, m: usize, wanted: *const i16, k: usize, kinds: *const u8, j: usize, found: *mut usize, i: usize) -> u8;

    pub fn tagrumzil_why(s: *const u8, n: usize, row: *const u64, m: usize, path: *mut i64, j: usize, offset: *mut usize, steps: *mut usize) -> u8;

    pub fn tagrumzil_f32_counts(s: *const u8, n: usize, row: *mut u64, m: usize, yes: *mut u64, no: *mut u64, nan: *mut u64) -> u8;
    pub fn tagrumzil_f32_answers(s: *const u8, n: usize, row: *mut u64, m: usize, answers: *mut u8, j: usize, count: *mut usize) -> u8;

    pub fn tagrumzil_write_message_begin(buf: *mut u8, n: usize, row: *mut u64, m: usize, kind: u8, sequence: i32, name: *const u8, k: usize) -> u8;
    pub fn tagrumzil_write_struct_begin(buf: *mut u8, n: usize, row: *mut u64, m: usize, ids: *mut i16, k: usize) -> u8;
    pub fn tagrumzil_write_struct_end(buf: *mut u8, n: usize, row: *mut u64, m: usize, ids: *const i16, k: usize) -> u8;
    pub fn tagrumzil_write_field_begin(buf: *mut u8, n: usize, row: *mut u64, m: usize, kind: u8, id: i16) -> u8;
    pub fn tagrumzil_write_field_stop(buf: *mut u8, n: usize, row: *mut u64, m: usize) -> u8;
    pub fn tagrumzil_write_bool(buf: *mut u8, n: usize, row: *mut u64, m: usize, truth: bool) -> u8;
    pub fn tagrumzil_write_i8(buf: *mut u8, n: usize, row: *mut u64, m: usize, value: i8) -> u8;
    pub fn tagrumzil_write_i16(buf: *mut u8, n: usize, row: *mut u64, m: usize, value: i16) -> u8;
    pub fn tagrumzil_write_i32(buf: *mut u8, n: usize, row: *mut u64, m: usize, value: i32) -> u8;
    pub fn tagrumzil_write_i64(buf: *mut u8, n: usize, row: *mut u64, m: usize, value: i64) -> u8;
    pub fn tagrumzil_write_double(buf: *mut u8, n: usize, row: *mut u64, m: usize, bits: u64) -> u8;
    pub fn tagrumzil_write_uuid(buf: *mut u8, n: usize, row: *mut u64, m: usize, uuid: *const u8) -> u8;
    pub fn tagrumzil_write_bytes(buf: *mut u8, n: usize, row: *mut u64, m: usize, blob: *const u8, k: usize) -> u8;
    pub fn tagrumzil_write_string(buf: *mut u8, n: usize, row: *mut u64, m: usize, text: *const u8, k: usize) -> u8;
    pub fn tagrumzil_write_list_begin(buf: *mut u8, n: usize, row: *mut u64, m: usize, kind: u8, count: i32) -> u8;
    pub fn tagrumzil_write_set_begin(buf: *mut u8, n: usize, row: *mut u64, m: usize, kind: u8, count: i32) -> u8;
    pub fn tagrumzil_write_map_begin(buf: *mut u8, n: usize, row: *mut u64, m: usize, key: u8, value: u8, count: i32) -> u8;

    pub fn tagrumzil_check_day(file: *const u8, n: usize, count: *mut usize) -> u8;
    pub fn tagrumzil_day_message(file: *const u8, n: usize, k: usize, start: *mut usize, end: *mut usize) -> u8;
    pub fn tagrumzil_write_day(out: *mut u8, n: usize, bytes: *const u8, k: usize, ends: *const usize, m: usize, length: *mut usize) -> u8;

    pub fn tagrumzil_frame_announce(row: *mut u64, m: usize, length: usize, depth: u32, string: u32, container: u32, message: u32) -> u8;
    pub fn tagrumzil_frame_take(row: *mut u64, m: usize, burst: *const u8, n: usize, used: *mut usize) -> u8;
    pub fn tagrumzil_frame_close(row: *mut u64, m: usize, used: *mut usize) -> u8;
}
