/* A reader and a writer that hold input or buffer, state and ids together, over the calls of tagrumzil.h and with their answers: 0, or the number of a refusal,
 * which changes nothing. Names of refusals for people; doubles as doubles; parts of the input as a pointer and a length. All of it is inline: there is nothing more to
 * link. host/c/easy.c reads a trial with it.
 */
#ifndef TAGRUMZIL_EASY_H
#define TAGRUMZIL_EASY_H

#include <string.h>
#include "tagrumzil.h"

#ifdef __cplusplus
extern "C" {
#endif

typedef struct {
    const uint8_t *bytes;
    size_t length;
    uint64_t row[TAGRUMZIL_ROW];
    int16_t ids[TAGRUMZIL_IDS];
} tagrumzil_reader;

typedef struct {
    uint8_t *bytes;
    size_t length;
    uint64_t row[TAGRUMZIL_ROW];
    int16_t ids[TAGRUMZIL_IDS];
} tagrumzil_writer;

/* A part of the input: a string, a binary, a uuid, a message's name. It ends with no zero. */
typedef struct {
    const uint8_t *bytes;
    size_t length;
} tagrumzil_part;

static inline const char *tagrumzil_refusal_name(uint8_t number)
{
    static const char *const names[] = {
        "NONE", "END", "BAD VERSION", "BAD MESSAGE TYPE", "BAD TYPE", "BAD BOOL", "LONG VARINT", "FIELD ID", "SIZE LIMIT", "NEGATIVE SIZE", "DEPTH", "BAD UTF-8",
        "OUT OF TURN", "UNKNOWN", "NO ROOM", "BAD STATE", "BAD LIST", "RANGE", "BAD DAY", "MESSAGE SIZE"};
    return number < sizeof names / sizeof names[0] ? names[number] : "UNKNOWN";
}

/* A reader at the start of its input and a writer at the start of its buffer, with the default limits; for others put tagrumzil_row over `row`. */
static inline tagrumzil_reader tagrumzil_reader_of(const uint8_t *bytes, size_t length)
{
    tagrumzil_reader r = {bytes, length, {0}, {0}};
    tagrumzil_default_row(r.row);
    return r;
}

static inline tagrumzil_writer tagrumzil_writer_of(uint8_t *bytes, size_t length)
{
    tagrumzil_writer w = {bytes, length, {0}, {0}};
    tagrumzil_default_row(w.row);
    return w;
}

/* How many bytes were read, and were written. */
static inline size_t tagrumzil_reader_place(const tagrumzil_reader *r)
{
    return (size_t) r->row[0];
}

static inline size_t tagrumzil_writer_place(const tagrumzil_writer *w)
{
    return (size_t) w->row[0];
}

/* ---- The reader. */

#define TAGRUMZIL_IN r->bytes, r->length, r->row, TAGRUMZIL_ROW

TAGRUMZIL_LOOK static inline uint8_t tagrumzil_get_message(tagrumzil_reader *r, uint8_t *kind, int32_t *sequence, tagrumzil_part *name)
{
    size_t start, end;
    uint8_t number = tagrumzil_read_message_begin(TAGRUMZIL_IN, kind, sequence, &start, &end);
    if (number == 0)
        *name = (tagrumzil_part) {r->bytes + start, end - start};
    return number;
}

TAGRUMZIL_LOOK static inline uint8_t tagrumzil_enter(tagrumzil_reader *r)
{
    return tagrumzil_read_struct_begin(TAGRUMZIL_IN, r->ids, TAGRUMZIL_IDS);
}

TAGRUMZIL_LOOK static inline uint8_t tagrumzil_leave(tagrumzil_reader *r)
{
    return tagrumzil_read_struct_end(TAGRUMZIL_IN, r->ids, TAGRUMZIL_IDS);
}

/* A field's header; TAGRUMZIL_T_STOP at the struct's end. */
TAGRUMZIL_LOOK static inline uint8_t tagrumzil_get_field(tagrumzil_reader *r, uint8_t *kind, int16_t *id)
{
    return tagrumzil_read_field_begin(TAGRUMZIL_IN, kind, id);
}

TAGRUMZIL_LOOK static inline uint8_t tagrumzil_get_bool(tagrumzil_reader *r, bool *value)
{
    return tagrumzil_read_bool(TAGRUMZIL_IN, value);
}

TAGRUMZIL_LOOK static inline uint8_t tagrumzil_get_i8(tagrumzil_reader *r, int8_t *value)
{
    return tagrumzil_read_i8(TAGRUMZIL_IN, value);
}

TAGRUMZIL_LOOK static inline uint8_t tagrumzil_get_i16(tagrumzil_reader *r, int16_t *value)
{
    return tagrumzil_read_i16(TAGRUMZIL_IN, value);
}

TAGRUMZIL_LOOK static inline uint8_t tagrumzil_get_i32(tagrumzil_reader *r, int32_t *value)
{
    return tagrumzil_read_i32(TAGRUMZIL_IN, value);
}

TAGRUMZIL_LOOK static inline uint8_t tagrumzil_get_i64(tagrumzil_reader *r, int64_t *value)
{
    return tagrumzil_read_i64(TAGRUMZIL_IN, value);
}

TAGRUMZIL_LOOK static inline uint8_t tagrumzil_get_double(tagrumzil_reader *r, double *value)
{
    uint64_t bits;
    uint8_t number = tagrumzil_read_double(TAGRUMZIL_IN, &bits);
    if (number == 0)
        memcpy(value, &bits, sizeof bits);
    return number;
}

/* A string (which is UTF-8), a binary, a uuid: a part of the input. */
TAGRUMZIL_LOOK static inline uint8_t tagrumzil_get_part(tagrumzil_reader *r, uint8_t (*read)(const uint8_t *, size_t, uint64_t *, size_t, size_t *, size_t *), tagrumzil_part *part)
{
    size_t start, end;
    uint8_t number = read(TAGRUMZIL_IN, &start, &end);
    if (number == 0)
        *part = (tagrumzil_part) {r->bytes + start, end - start};
    return number;
}

TAGRUMZIL_LOOK static inline uint8_t tagrumzil_get_string(tagrumzil_reader *r, tagrumzil_part *part)
{
    return tagrumzil_get_part(r, tagrumzil_read_string, part);
}

TAGRUMZIL_LOOK static inline uint8_t tagrumzil_get_bytes(tagrumzil_reader *r, tagrumzil_part *part)
{
    return tagrumzil_get_part(r, tagrumzil_read_bytes, part);
}

TAGRUMZIL_LOOK static inline uint8_t tagrumzil_get_uuid(tagrumzil_reader *r, tagrumzil_part *part)
{
    return tagrumzil_get_part(r, tagrumzil_read_uuid, part);
}

TAGRUMZIL_LOOK static inline uint8_t tagrumzil_get_list(tagrumzil_reader *r, uint8_t *kind, uint32_t *count)
{
    return tagrumzil_read_list_begin(TAGRUMZIL_IN, kind, count);
}

TAGRUMZIL_LOOK static inline uint8_t tagrumzil_get_set(tagrumzil_reader *r, uint8_t *kind, uint32_t *count)
{
    return tagrumzil_read_set_begin(TAGRUMZIL_IN, kind, count);
}

TAGRUMZIL_LOOK static inline uint8_t tagrumzil_get_map(tagrumzil_reader *r, uint8_t *key, uint8_t *value, uint32_t *count)
{
    return tagrumzil_read_map_begin(TAGRUMZIL_IN, key, value, count);
}

/* Passes over one value of a type. */
TAGRUMZIL_LOOK static inline uint8_t tagrumzil_pass(tagrumzil_reader *r, uint8_t kind)
{
    return tagrumzil_skip(TAGRUMZIL_IN, kind);
}

#undef TAGRUMZIL_IN

/* ---- The writer. */

#define TAGRUMZIL_OUT w->bytes, w->length, w->row, TAGRUMZIL_ROW

TAGRUMZIL_LOOK static inline uint8_t tagrumzil_put_message(tagrumzil_writer *w, uint8_t kind, int32_t sequence, const char *name)
{
    return tagrumzil_write_message_begin(TAGRUMZIL_OUT, kind, sequence, (const uint8_t *) name, strlen(name));
}

TAGRUMZIL_LOOK static inline uint8_t tagrumzil_begin(tagrumzil_writer *w)
{
    return tagrumzil_write_struct_begin(TAGRUMZIL_OUT, w->ids, TAGRUMZIL_IDS);
}

/* The byte that ends a struct's fields, and then the struct itself. It writes that byte or, refused, changes nothing: a struct that was begun can be ended. */
TAGRUMZIL_LOOK static inline uint8_t tagrumzil_end(tagrumzil_writer *w)
{
    if (w->row[2] == 0)
        return tagrumzil_write_struct_end(TAGRUMZIL_OUT, w->ids, TAGRUMZIL_IDS);
    uint8_t number = tagrumzil_write_field_stop(TAGRUMZIL_OUT);
    return number != 0 ? number : tagrumzil_write_struct_end(TAGRUMZIL_OUT, w->ids, TAGRUMZIL_IDS);
}

TAGRUMZIL_LOOK static inline uint8_t tagrumzil_put_field(tagrumzil_writer *w, uint8_t kind, int16_t id)
{
    return tagrumzil_write_field_begin(TAGRUMZIL_OUT, kind, id);
}

TAGRUMZIL_LOOK static inline uint8_t tagrumzil_put_bool(tagrumzil_writer *w, bool truth)
{
    return tagrumzil_write_bool(TAGRUMZIL_OUT, truth);
}

TAGRUMZIL_LOOK static inline uint8_t tagrumzil_put_i8(tagrumzil_writer *w, int8_t value)
{
    return tagrumzil_write_i8(TAGRUMZIL_OUT, value);
}

TAGRUMZIL_LOOK static inline uint8_t tagrumzil_put_i16(tagrumzil_writer *w, int16_t value)
{
    return tagrumzil_write_i16(TAGRUMZIL_OUT, value);
}

TAGRUMZIL_LOOK static inline uint8_t tagrumzil_put_i32(tagrumzil_writer *w, int32_t value)
{
    return tagrumzil_write_i32(TAGRUMZIL_OUT, value);
}

TAGRUMZIL_LOOK static inline uint8_t tagrumzil_put_i64(tagrumzil_writer *w, int64_t value)
{
    return tagrumzil_write_i64(TAGRUMZIL_OUT, value);
}

TAGRUMZIL_LOOK static inline uint8_t tagrumzil_put_double(tagrumzil_writer *w, double value)
{
    uint64_t bits;
    memcpy(&bits, &value, sizeof bits);
    return tagrumzil_write_double(TAGRUMZIL_OUT, bits);
}

TAGRUMZIL_LOOK static inline uint8_t tagrumzil_put_string(tagrumzil_writer *w, const char *text)
{
    return tagrumzil_write_string(TAGRUMZIL_OUT, (const uint8_t *) text, strlen(text));
}

TAGRUMZIL_LOOK static inline uint8_t tagrumzil_put_bytes(tagrumzil_writer *w, const uint8_t *blob, size_t length)
{
    return tagrumzil_write_bytes(TAGRUMZIL_OUT, blob, length);
}

TAGRUMZIL_LOOK static inline uint8_t tagrumzil_put_uuid(tagrumzil_writer *w, const uint8_t uuid[16])
{
    return tagrumzil_write_uuid(TAGRUMZIL_OUT, uuid);
}

TAGRUMZIL_LOOK static inline uint8_t tagrumzil_put_list(tagrumzil_writer *w, uint8_t kind, int32_t count)
{
    return tagrumzil_write_list_begin(TAGRUMZIL_OUT, kind, count);
}

TAGRUMZIL_LOOK static inline uint8_t tagrumzil_put_set(tagrumzil_writer *w, uint8_t kind, int32_t count)
{
    return tagrumzil_write_set_begin(TAGRUMZIL_OUT, kind, count);
}

TAGRUMZIL_LOOK static inline uint8_t tagrumzil_put_map(tagrumzil_writer *w, uint8_t key, uint8_t value, int32_t count)
{
    return tagrumzil_write_map_begin(TAGRUMZIL_OUT, key, value, count);
}

#undef TAGRUMZIL_OUT

#ifdef __cplusplus
}
#endif

#endif
