/* Every call of the header once with an answer, every number that it writes distinct from the others, so that no two can change places unseen. What is
 * expected was worked by hand from the protocol's document. From the repository's root, after `tools/archive`:
 *     cc -I host host/c/exports.c target/staticlib/libtagrumzil.a -o /tmp/exports && /tmp/exports
 */
#include <stdio.h>
#include <string.h>
#include "tagrumzil.h"
#include "expect.h"

static uint64_t row[TAGRUMZIL_ROW];
static int16_t ids[TAGRUMZIL_IDS];

/* A new state at a place. */
static void stand(size_t at)
{
    tagrumzil_row(row, 5, 100, 90, 1000);
    row[0] = row[5] = at;
}

#define ROW row, TAGRUMZIL_ROW
#define BYTES(...) (const uint8_t[]) {__VA_ARGS__}, sizeof (const uint8_t[]) {__VA_ARGS__}

static void numbers(void)
{
    uint32_t v32 = 0;
    uint64_t v64 = 0;
    int16_t v16 = 0;
    size_t end = 0;
    uint8_t buf[4] = {9, 9, 9, 9};

    expect("version", TAGRUMZIL_VERSION, tagrumzil_version());
    expect("varint32", 0, tagrumzil_varint32(BYTES(7, 0xac, 0x02), 1, &v32, &end));
    expect("  value", 300, v32);
    expect("  end", 3, (unsigned) end);
    expect("varint64", 0, tagrumzil_varint64(BYTES(7, 7, 0x81, 0x01), 2, &v64, &end));
    expect("  value", 129, (unsigned) v64);
    expect("  end", 4, (unsigned) end);
    expect("i16", 0, tagrumzil_i16(BYTES(7, 0x13), 1, &v16, &end));
    expect("  value", (uint16_t) -10, (uint16_t) v16);
    expect("  end", 2, (unsigned) end);
    expect("le64", 0, tagrumzil_le64(BYTES(7, 1, 2, 0, 0, 0, 0, 0, 0), 1, &v64, &end));
    expect("  value", 513, (unsigned) v64);
    expect("  end", 9, (unsigned) end);
    expect("put varint", 0, tagrumzil_put_varint(buf, 4, 1, 300, &end));
    expect("  bytes", 0, (unsigned) memcmp(buf, "\x09\xac\x02\x09", 4));
    expect("  end", 3, (unsigned) end);
    expect("varint len", 2, (unsigned) tagrumzil_varint_len(300));
    expect("zigzag to i32", (uint32_t) -2, (uint32_t) tagrumzil_zigzag_to_i32(3));
    expect("zigzag to i64", (uint32_t) -3, (uint32_t) tagrumzil_zigzag_to_i64(5));
    expect("i32 to zigzag", 7, tagrumzil_i32_to_zigzag(-4));
    expect("i64 to zigzag", 9, (unsigned) tagrumzil_i64_to_zigzag(-5));
}

static void reader(void)
{
    uint8_t kind = 99, other = 99;
    int32_t sequence = 0, v32 = 0;
    size_t start = 99, end = 99;
    int16_t id = 99, v16 = 0;
    bool truth = false;
    int8_t v8 = 0;
    int64_t v64 = 0;
    uint64_t bits = 0;
    uint32_t count = 99;

    stand(1);
    expect("message", 0, tagrumzil_read_message_begin(BYTES(7, 0x82, 0x41, 5, 2, 'h', 'i'), ROW, &kind, &sequence, &start, &end));
    expect("  kind", 2, kind);
    expect("  sequence", 5, (unsigned) sequence);
    expect("  start", 5, (unsigned) start);
    expect("  end", 7, (unsigned) end);
    expect("  refused, its place being past the end", TAGRUMZIL_BAD_STATE, tagrumzil_read_struct_begin(BYTES(7), ROW, ids, TAGRUMZIL_IDS));

    stand(1);
    expect("struct", 0, tagrumzil_read_struct_begin(BYTES(7, 0x25, 8), ROW, ids, TAGRUMZIL_IDS));
    expect("  depth", 1, (unsigned) row[2]);
    expect("field", 0, tagrumzil_read_field_begin(BYTES(7, 0x25, 8), ROW, &kind, &id));
    expect("  kind", 5, kind);
    expect("  id", 2, (unsigned) id);
    expect("i32", 0, tagrumzil_read_i32(BYTES(7, 0x25, 8), ROW, &v32));
    expect("  value", 4, (unsigned) v32);
    expect("struct end", 0, tagrumzil_read_struct_end(BYTES(7, 0x25, 8), ROW, ids, TAGRUMZIL_IDS));
    expect("  depth", 0, (unsigned) row[2]);
    expect("  last id", 0, (uint16_t) row[1]);

    stand(1);
    expect("bool", 0, tagrumzil_read_bool(BYTES(7, 1), ROW, &truth));
    expect("  value", 1, truth);
    stand(1);
    expect("i8", 0, tagrumzil_read_i8(BYTES(7, 0xfe), ROW, &v8));
    expect("  value", (uint8_t) -2, (uint8_t) v8);
    stand(1);
    expect("i16", 0, tagrumzil_read_i16(BYTES(7, 0x0b), ROW, &v16));
    expect("  value", (uint16_t) -6, (uint16_t) v16);
    stand(1);
    expect("i64", 0, tagrumzil_read_i64(BYTES(7, 0x0d), ROW, &v64));
    expect("  value", (uint32_t) -7, (uint32_t) v64);
    stand(1);
    expect("double", 0, tagrumzil_read_double(BYTES(7, 0, 0, 0, 0, 0, 0, 0xf0, 0x3f), ROW, &bits));
    expect("  high half", 0x3ff00000, (unsigned) (bits >> 32));
    expect("  place", 9, (unsigned) row[0]);
    stand(1);
    expect("uuid", 0, tagrumzil_read_uuid(BYTES(7, 0, 1, 2, 3, 4, 5, 6, 7, 8, 9, 10, 11, 12, 13, 14, 15), ROW, &start, &end));
    expect("  start", 1, (unsigned) start);
    expect("  end", 17, (unsigned) end);
    stand(1);
    expect("bytes", 0, tagrumzil_read_bytes(BYTES(7, 3, 0xff, 0xff, 0xff), ROW, &start, &end));
    expect("  start", 2, (unsigned) start);
    expect("  end", 5, (unsigned) end);
    stand(2);
    expect("string", 0, tagrumzil_read_string(BYTES(7, 7, 2, 'a', 'b'), ROW, &start, &end));
    expect("  start", 3, (unsigned) start);
    expect("  end", 5, (unsigned) end);
    stand(1);
    expect("list", 0, tagrumzil_read_list_begin(BYTES(7, 0x24, 0, 0), ROW, &kind, &count));
    expect("  kind", 4, kind);
    expect("  count", 2, count);
    stand(1);
    expect("set", 0, tagrumzil_read_set_begin(BYTES(7, 0x15, 0), ROW, &kind, &count));
    expect("  kind", 5, kind);
    expect("  count", 1, count);
    stand(1);
    expect("map", 0, tagrumzil_read_map_begin(BYTES(7, 3, 0x58, 0, 0, 0, 0, 0, 0), ROW, &kind, &other, &count));
    expect("  key", 5, kind);
    expect("  value", 8, other);
    expect("  count", 3, count);
    stand(1);
    expect("skip", 0, tagrumzil_skip(BYTES(7, 0x35, 8, 0), ROW, 12));
    expect("  place", 4, (unsigned) row[0]);
}

static void whole_structs(void)
{
    size_t found[7] = {9, 9, 9, 9, 9, 9, 77};
    int64_t path[4] = {99, 99, 99, 99};
    size_t offset = 99, steps = 99;

    stand(1);
    expect("pick", 0, tagrumzil_pick(BYTES(7, 0x35, 8, 0x11, 0), ROW, (const int16_t[]) {4, 3}, 2, (const uint8_t[]) {1, 5}, 2, found, 7));
    expect("  field 4", TAGRUMZIL_TRUE, (unsigned) found[0]);
    expect("  start", 0, (unsigned) found[1]);
    expect("  field 3", TAGRUMZIL_HERE, (unsigned) found[3]);
    expect("  start", 2, (unsigned) found[4]);
    expect("  end", 3, (unsigned) found[5]);
    expect("  behind", 77, (unsigned) found[6]);
    stand(1);
    expect("why", TAGRUMZIL_BAD_BOOL, tagrumzil_why(BYTES(7, 0x69, 0x31, 1, 2, 3, 0), ROW, path, 4, &offset, &steps));
    expect("  offset", 5, (unsigned) offset);
    expect("  steps", 2, (unsigned) steps);
    expect("  path", TAGRUMZIL_FIELD, (unsigned) path[0]);
    expect("  path", 6, (unsigned) path[1]);
    expect("  path", TAGRUMZIL_ELEMENT, (unsigned) path[2]);
    expect("  path", 2, (unsigned) path[3]);
}

/* A struct with the doubles 0.5 (yes), 16,777,217 (no) twice and a NaN. */
static void singles(void)
{
    static const uint8_t doubles[] = {
        7, 0x39, 0x47, 0, 0, 0, 0, 0, 0, 0xe0, 0x3f, 0, 0, 0, 0x10, 0, 0, 0x70, 0x41, 0, 0, 0, 0x10, 0, 0, 0x70, 0x41, 1, 0, 0, 0, 0, 0, 0xf8, 0x7f, 0};
    uint64_t yes = 99, no = 99, nan = 99;
    uint8_t answers[5] = {77, 77, 77, 77, 77};
    size_t count = 99;

    stand(1);
    expect("f32 counts", 0, tagrumzil_f32_counts(doubles, sizeof doubles, ROW, &yes, &no, &nan));
    expect("  yes and nan", 1, (unsigned) (yes == nan ? yes : 99));
    expect("  no", 2, (unsigned) no);
    expect("  place", sizeof doubles, (unsigned) row[0]);
    stand(1);
    expect("f32 answers", 0, tagrumzil_f32_answers(doubles, sizeof doubles, ROW, answers, 5, &count));
    expect("  count", 4, (unsigned) count);
    expect("  answers", 0, (unsigned) memcmp(answers, "\0\1\1\2M", 5));
}

/* A struct with a double that an f32 holds, and two that are not a number. */
static void nans(void)
{
    static const uint8_t doubles[] = {0x39, 0x37, 0, 0, 0, 0, 0, 0, 0xe0, 0x3f, 1, 0, 0, 0, 0, 0, 0xf8, 0x7f, 1, 0, 0, 0, 0, 0, 0xf8, 0x7f, 0};
    uint64_t yes = 99, no = 99, nan = 99;

    stand(0);
    expect("f32 counts", 0, tagrumzil_f32_counts(doubles, sizeof doubles, ROW, &yes, &no, &nan));
    expect("  yes", 1, (unsigned) yes);
    expect("  no", 0, (unsigned) no);
    expect("  nan", 2, (unsigned) nan);
}

/* What a call of the writer at place 1 of a buffer leaves there. */
static uint8_t buf[24];

static void writes(const char *what, uint8_t answer, const char *bytes, size_t n)
{
    expect(what, 0, answer);
    expect("  place", (unsigned) (1 + n), (unsigned) row[0]);
    expect("  bytes", 0, (unsigned) (memcmp(buf + 1, bytes, n) != 0 || buf[0] != 0x55 || buf[1 + n] != 0x55));
    memset(buf, 0x55, sizeof buf);
    stand(1);
}

#define BUF buf, sizeof buf, row, TAGRUMZIL_ROW
#define WRITES(what, answer, bytes) writes(what, answer, bytes, sizeof bytes - 1)

static void writer(void)
{
    memset(buf, 0x55, sizeof buf);
    stand(1);
    WRITES("write message", tagrumzil_write_message_begin(BUF, 3, 6, (const uint8_t *) "ho", 2), "\x82\x61\x06\x02ho");
    expect("write struct", 0, tagrumzil_write_struct_begin(BUF, ids, TAGRUMZIL_IDS));
    expect("  depth", 1, (unsigned) row[2]);
    expect("write field", 0, tagrumzil_write_field_begin(BUF, 6, 7));
    expect("  last id", 7, (uint16_t) row[1]);
    expect("write struct end", 0, tagrumzil_write_struct_end(BUF, ids, TAGRUMZIL_IDS));
    expect("  last id", 0, (uint16_t) row[1]);
    WRITES("  all of it", 0, "\x76");
    WRITES("write stop", tagrumzil_write_field_stop(BUF), "\x00");
    WRITES("write bool", tagrumzil_write_bool(BUF, false), "\x02");
    WRITES("write i8", tagrumzil_write_i8(BUF, -2), "\xfe");
    WRITES("write i16", tagrumzil_write_i16(BUF, -6), "\x0b");
    WRITES("write i32", tagrumzil_write_i32(BUF, 150), "\xac\x02");
    WRITES("write i64", tagrumzil_write_i64(BUF, -7), "\x0d");
    WRITES("write double", tagrumzil_write_double(BUF, 0x3ff0000000000002), "\x02\0\0\0\0\0\xf0\x3f");
    WRITES("write uuid", tagrumzil_write_uuid(BUF, (const uint8_t *) "0123456789abcdef"), "0123456789abcdef");
    WRITES("write bytes", tagrumzil_write_bytes(BUF, (const uint8_t *) "\xff\xfe\xfd", 2), "\x02\xff\xfe");
    WRITES("write string", tagrumzil_write_string(BUF, (const uint8_t *) "abc", 2), "\x02" "ab");
    WRITES("write list", tagrumzil_write_list_begin(BUF, 4, 2), "\x24");
    WRITES("write set", tagrumzil_write_set_begin(BUF, 5, 3), "\x35");
    WRITES("write map", tagrumzil_write_map_begin(BUF, 5, 8, 3), "\x03\x58");
}

static void days_and_frames(void)
{
    static const uint8_t file[] = {2, 0, 0, 0, 16, 0, 0, 0, 17, 0, 0, 0, 19, 0, 0, 0, 'a', 'b', 'c'};
    uint8_t out[24] = {0};
    size_t count = 99, start = 99, end = 99, length = 99, used = 99;
    uint64_t frame[TAGRUMZIL_FRAME] = {0};

    expect("check day", 0, tagrumzil_check_day(file, sizeof file, &count));
    expect("  count", 2, (unsigned) count);
    expect("day message", 0, tagrumzil_day_message(file, sizeof file, 1, &start, &end));
    expect("  start", 17, (unsigned) start);
    expect("  end", 19, (unsigned) end);
    expect("write day", 0, tagrumzil_write_day(out, sizeof out, (const uint8_t *) "abc", 3, (const size_t[]) {1, 3}, 2, &length));
    expect("  length", sizeof file, (unsigned) length);
    expect("  bytes", 0, (unsigned) memcmp(out, file, sizeof file));
    expect("announce", 0, tagrumzil_frame_announce(frame, TAGRUMZIL_FRAME, 11, 5, 100, 90, 1000));
    expect("  left", 11, (unsigned) frame[0]);
    expect("take", TAGRUMZIL_MORE, tagrumzil_frame_take(frame, TAGRUMZIL_FRAME, BYTES(0x35, 8), &used));
    expect("  taken", 2, (unsigned) frame[1]);
    expect("take", 0, tagrumzil_frame_take(frame, TAGRUMZIL_FRAME, BYTES(0, 7), &used));
    expect("  used", 3, (unsigned) used);
    expect("announce", 0, tagrumzil_frame_announce(frame, TAGRUMZIL_FRAME, 11, 5, 100, 90, 1000));
    expect("close", TAGRUMZIL_END, tagrumzil_frame_close(frame, TAGRUMZIL_FRAME, &used));
}

int main(void)
{
    numbers();
    reader();
    whole_structs();
    singles();
    nans();
    writer();
    days_and_frames();
    return failed;
}
