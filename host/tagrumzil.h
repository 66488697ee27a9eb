/* Thrift's compact protocol: a reader, a writer, skip, a field picker, the day file and frames over lent memory, each function proved to meet its contract.
 *
 * Link with target/staticlib/libtagrumzil.a, which `tools/archive` makes, for x86-64 Linux. It needs memcpy and memset, and nothing else. It has no data of
 * its own that changes: calls on different rows and buffers may be made at the same time from different threads.
 * tagrumzil_easy.h has a reader and a writer over these calls that hold input, state and ids together.
 *
 * Every function answers 0, or the number of a refusal (the enum below). A refused call changes nothing that was lent to it, so it may be made again; the
 * calls of a frame alone keep a refusal, which is its answer.
 * An input or a buffer is a pointer and a length; any pointer will do with length 0. What a call writes through its pointers (value, kind, ..) is
 * written only where it answers 0, and the pointers must not be null. No two of the things lent to one call may overlap, a shared input apart.
 *
 * THE STATE of a reader or a writer is a row of TAGRUMZIL_ROW numbers, lent to each call:
 *   row[0]  the place of the next byte in the input or buffer
 *   row[1]  in the low 16 bits the last field id, in two's complement; above them what waits. Reader: 0 nothing, 1 a bool field's true, 2 its false. Writer:
 *           0 nothing, or 1 more than the 16 bits of the id of the bool field whose header is to be written with its value
 *   row[2]  how many structs are open
 *   row[3]  in the low 32 bits the limit on depth, 0 to 64, in the high 32 bits the ceiling, the most bytes that a message may have, 0 to 2147483647
 *   row[4]  in the low 32 bits the limit on the length of a string or binary, in the high 32 bits the limit on the count of a container; each 0 to 2147483647
 *   row[5]  the place where the message began: of its header's first byte, which the message calls set, or before any message where the state was made
 * A new one has zeros and its limits (tagrumzil_row below makes it; at another place than 0 it has that place in row[0] and in row[5]), and
 * (int16_t) (uint16_t) row[1] is the last id of any. The ids of the structs around stand
 * in a row of TAGRUMZIL_IDS numbers of their own, which only the struct calls take. A row of another length, or with a number out of these ranges, holds no
 * state: TAGRUMZIL_BAD_STATE; so does one whose place lies before row[5], or more bytes behind it than the ceiling. TAGRUMZIL_LAYOUT is the number of this
 * layout: it changes when a row of one layout no longer reads as the same state.
 *
 * THE CEILING. Reading acts as if the input ended at row[5] plus the ceiling: a byte missed there, with input behind it, is TAGRUMZIL_MESSAGE_SIZE. A writer's
 * call whose bytes would end behind it is refused so, before TAGRUMZIL_NO_ROOM.
 *
 * Types go by number: 0 stop, 1 bool, 3 i8, 4 i16, 5 i32, 6 i64, 7 double, 8 string or binary, 9 list, 10 set, 11 map, 12 struct, 13 uuid. Any other number
 * is TAGRUMZIL_BAD_TYPE. Messages: 1 call, 2 reply, 3 exception, 4 oneway; any other is TAGRUMZIL_BAD_MESSAGE_TYPE.
 */
#ifndef TAGRUMZIL_H
#define TAGRUMZIL_H

#include <stdbool.h>
#include <stddef.h>
#include <stdint.h>

#ifdef __cplusplus
extern "C" {
#endif

#define TAGRUMZIL_LAYOUT 2

/* What this header is for; tagrumzil_version answers the archive's own. It changes with every change of a row's layout or of what a call means, so a program that
 * finds them unequal was compiled for another archive than it was linked with. */
#define TAGRUMZIL_VERSION 1
uint32_t tagrumzil_version(void);

/* An answer that nobody looks at is a refusal that nobody sees. */
#if defined(__GNUC__) || defined(__clang__)
#define TAGRUMZIL_LOOK __attribute__((warn_unused_result))
#else
#define TAGRUMZIL_LOOK
#endif

enum { TAGRUMZIL_ROW = 6, TAGRUMZIL_IDS = 64 };

enum {
    TAGRUMZIL_END = 1,              /* a byte needed lies past the input, or a container's elements can't be in what is left of it */
    TAGRUMZIL_BAD_VERSION = 2,      /* the first message byte is not 0x82, or the version is not 1 */
    TAGRUMZIL_BAD_MESSAGE_TYPE = 3, /* a message type out of 1 to 4 */
    TAGRUMZIL_BAD_TYPE = 4,         /* a code without a type; stop where a value's type is asked */
    TAGRUMZIL_BAD_BOOL = 5,         /* an element bool is not 0, 1 or 2 */
    TAGRUMZIL_LONG_VARINT = 6,      /* a varint of more bytes than its width allows */
    TAGRUMZIL_FIELD_ID = 7,         /* the last id plus the delta is over 32767 */
    TAGRUMZIL_SIZE_LIMIT = 8,       /* a length or count over its limit */
    TAGRUMZIL_NEGATIVE_SIZE = 9,    /* a count below 0 */
    TAGRUMZIL_DEPTH = 10,           /* a struct or a container beyond the depth limit */
    TAGRUMZIL_BAD_UTF8 = 11,        /* a string or a message name that is not UTF-8 */
    TAGRUMZIL_OUT_OF_TURN = 12,     /* a bool waits for the bool call; or a struct is ended that was not begun */
    TAGRUMZIL_NO_ROOM = 14,         /* the buffer is too short for this call's bytes */
    TAGRUMZIL_BAD_STATE = 15,       /* the rows hold no state; a limit out of its range; a place past the end, before the message's beginning or past its
                                       ceiling; a depth over its limit */
    TAGRUMZIL_BAD_LIST = 16,        /* wanted ids and types differ in number, over 64 of them, an id twice, or a type that no field can have */
    TAGRUMZIL_RANGE = 17,           /* an i16, as value or field id, outside -32768 to 32767 */
    TAGRUMZIL_BAD_DAY = 18,         /* a day file that breaks a rule; a message number that it has not; messages that make no day file */
    TAGRUMZIL_MESSAGE_SIZE = 19     /* a byte needed lies past the message's ceiling, with input behind it; a call's bytes would pass it */
};

/* Types and kinds of message, by number. */
enum {
    TAGRUMZIL_T_STOP = 0,
    TAGRUMZIL_T_BOOL = 1,
    TAGRUMZIL_T_I8 = 3,
    TAGRUMZIL_T_I16 = 4,
    TAGRUMZIL_T_I32 = 5,
    TAGRUMZIL_T_I64 = 6,
    TAGRUMZIL_T_DOUBLE = 7,
    TAGRUMZIL_T_STRING = 8, /* a string, or a binary */
    TAGRUMZIL_T_LIST = 9,
    TAGRUMZIL_T_SET = 10,
    TAGRUMZIL_T_MAP = 11,
    TAGRUMZIL_T_STRUCT = 12,
    TAGRUMZIL_T_UUID = 13
};

enum { TAGRUMZIL_CALL = 1, TAGRUMZIL_REPLY = 2, TAGRUMZIL_EXCEPTION = 3, TAGRUMZIL_ONEWAY = 4 };

/* A new state under these limits, and under those of the crate thrift: depth 64, strings of 100 MiB, any count, messages of 100 MiB. */
static inline void tagrumzil_row(uint64_t row[TAGRUMZIL_ROW], uint32_t depth, uint32_t string, uint32_t container, uint32_t message)
{
    row[0] = row[1] = row[2] = row[5] = 0;
    row[3] = (uint64_t) message << 32 | depth;
    row[4] = (uint64_t) container << 32 | string;
}

static inline void tagrumzil_default_row(uint64_t row[TAGRUMZIL_ROW])
{
    tagrumzil_row(row, 64, 104857600, 2147483647, 104857600);
}

/* ---- Numbers, which need no state. `*end` is the place behind what was read or written. A place past the end, at > n, is BAD_STATE. */

/* A varint of 32 bits, and of 64, at a place. Longer forms than needed are read; bits past the width are dropped. END, LONG_VARINT. */
TAGRUMZIL_LOOK uint8_t tagrumzil_varint32(const uint8_t *s, size_t n, size_t at, uint32_t *value, size_t *end);
TAGRUMZIL_LOOK uint8_t tagrumzil_varint64(const uint8_t *s, size_t n, size_t at, uint64_t *value, size_t *end);
/* An i16: a 32-bit zigzag number, TAGRUMZIL_RANGE where it is outside -32768 to 32767. */
TAGRUMZIL_LOOK uint8_t tagrumzil_i16(const uint8_t *s, size_t n, size_t at, int16_t *value, size_t *end);
/* The bits of eight bytes, lowest first. */
TAGRUMZIL_LOOK uint8_t tagrumzil_le64(const uint8_t *s, size_t n, size_t at, uint64_t *value, size_t *end);
/* Writes a number in the fewest bytes. NO_ROOM. */
TAGRUMZIL_LOOK uint8_t tagrumzil_put_varint(uint8_t *buf, size_t n, size_t at, uint64_t value, size_t *end);
/* How many bytes a number takes, 1 to 10. */
size_t tagrumzil_varint_len(uint64_t value);
/* Zigzag, both ways. */
int32_t tagrumzil_zigzag_to_i32(uint32_t value);
int64_t tagrumzil_zigzag_to_i64(uint64_t value);
uint32_t tagrumzil_i32_to_zigzag(int32_t value);
uint64_t tagrumzil_i64_to_zigzag(int64_t value);

/* ---- The reader. (s, n) is the input, (row, m) the state. */

/* A message's header: its type, its sequence number, and where its name, which is UTF-8, starts and ends in the input. The last id is 0 from then on,
 * and the message is counted from the header's first byte. */
TAGRUMZIL_LOOK uint8_t tagrumzil_read_message_begin(const uint8_t *s, size_t n, uint64_t *row, size_t m, uint8_t *kind, int32_t *sequence, size_t *start, size_t *end);
/* Begins a struct: the last id is put by, and is 0. DEPTH. */
TAGRUMZIL_LOOK uint8_t tagrumzil_read_struct_begin(const uint8_t *s, size_t n, uint64_t *row, size_t m, int16_t *ids, size_t k);
/* Ends a struct: the last id is the outer one again. OUT_OF_TURN where none is open. */
TAGRUMZIL_LOOK uint8_t tagrumzil_read_struct_end(const uint8_t *s, size_t n, uint64_t *row, size_t m, const int16_t *ids, size_t k);
/* A field's header. The struct's end has type 0, and then `*id` is left as it is. A bool field's value waits for tagrumzil_read_bool. */
TAGRUMZIL_LOOK uint8_t tagrumzil_read_field_begin(const uint8_t *s, size_t n, uint64_t *row, size_t m, uint8_t *kind, int16_t *id);
/* A bool: the one that waits, for no byte, or else an element. */
TAGRUMZIL_LOOK uint8_t tagrumzil_read_bool(const uint8_t *s, size_t n, uint64_t *row, size_t m, bool *value);
TAGRUMZIL_LOOK uint8_t tagrumzil_read_i8(const uint8_t *s, size_t n, uint64_t *row, size_t m, int8_t *value);
TAGRUMZIL_LOOK uint8_t tagrumzil_read_i16(const uint8_t *s, size_t n, uint64_t *row, size_t m, int16_t *value);
TAGRUMZIL_LOOK uint8_t tagrumzil_read_i32(const uint8_t *s, size_t n, uint64_t *row, size_t m, int32_t *value);
TAGRUMZIL_LOOK uint8_t tagrumzil_read_i64(const uint8_t *s, size_t n, uint64_t *row, size_t m, int64_t *value);
/* A double, as its 64 bits, so that any bits are kept. */
TAGRUMZIL_LOOK uint8_t tagrumzil_read_double(const uint8_t *s, size_t n, uint64_t *row, size_t m, uint64_t *bits);
/* A uuid, a binary, a string (which is UTF-8): where its bytes start and end in the input. */
TAGRUMZIL_LOOK uint8_t tagrumzil_read_uuid(const uint8_t *s, size_t n, uint64_t *row, size_t m, size_t *start, size_t *end);
TAGRUMZIL_LOOK uint8_t tagrumzil_read_bytes(const uint8_t *s, size_t n, uint64_t *row, size_t m, size_t *start, size_t *end);
TAGRUMZIL_LOOK uint8_t tagrumzil_read_string(const uint8_t *s, size_t n, uint64_t *row, size_t m, size_t *start, size_t *end);
/* A list's or a set's header: its elements' type, and how many there are. Where they can't be there, by 16 bytes for a uuid, 8 for a double and 1 for any
 * other, END: room may be reserved by the count. */
TAGRUMZIL_LOOK uint8_t tagrumzil_read_list_begin(const uint8_t *s, size_t n, uint64_t *row, size_t m, uint8_t *kind, uint32_t *count);
TAGRUMZIL_LOOK uint8_t tagrumzil_read_set_begin(const uint8_t *s, size_t n, uint64_t *row, size_t m, uint8_t *kind, uint32_t *count);
/* A map's header: its keys' and values' types, both 0 in an empty map, and how many pairs there are; END alike. */
TAGRUMZIL_LOOK uint8_t tagrumzil_read_map_begin(const uint8_t *s, size_t n, uint64_t *row, size_t m, uint8_t *key, uint8_t *value, uint32_t *count);
/* Passes over one value of a type. It succeeds exactly on a well-formed value within the limits. A bool that waits is taken by a skip of bool. */
TAGRUMZIL_LOOK uint8_t tagrumzil_skip(const uint8_t *s, size_t n, uint64_t *row, size_t m, uint8_t kind);
/* The picker, where a struct starts: for each of the k wanted field ids, with its type's number in (kinds, j), three numbers in (found, i): what was found
 * (TAGRUMZIL_ABSENT ..), and for TAGRUMZIL_HERE where the value's bytes start and end. Of the fields directly in the struct the last of the id and type is
 * told. The reader moves behind the struct, as a skip of it does. At most 64 ids, none twice, as many types, none of them stop: else TAGRUMZIL_BAD_LIST.
 * i is at least 3 times k, else TAGRUMZIL_NO_ROOM; numbers behind the rows stay as they are. */
enum { TAGRUMZIL_ABSENT = 0, TAGRUMZIL_WRONG_TYPE = 1, TAGRUMZIL_HERE = 2, TAGRUMZIL_FALSE = 3, TAGRUMZIL_TRUE = 4 };
TAGRUMZIL_LOOK uint8_t tagrumzil_pick(const uint8_t *s, size_t n, uint64_t *row, size_t m, const int16_t *wanted, size_t k, const uint8_t *kinds, size_t j, size_t *found, size_t i);

/* Where and why a skip of the struct at the reader's place is refused. It answers as that skip would, 0 or the number, and whatever it answers writes *offset and
 * *steps. At 0: the place behind the struct, and no steps. Else the offset, in the input, of the last byte that was read before the refusal: the reader's place where
 * none was, the input's end (or where the ceiling ends it) where a single byte was missing; a double, a uuid or a string's bytes cut short count as unread. The path to it
 * stands in (path, j), from outside in, two numbers for each of its steps: TAGRUMZIL_FIELD and a field's id, TAGRUMZIL_ELEMENT, TAGRUMZIL_KEY or TAGRUMZIL_VALUE and a
 * number from 0. What stands behind them stays. TAGRUMZIL_PATH numbers are always enough; where there is no room for the path, TAGRUMZIL_NO_ROOM, at the reader's
 * place. TAGRUMZIL_BAD_STATE and TAGRUMZIL_OUT_OF_TURN are at the reader's place too. The row does not move. */
enum { TAGRUMZIL_FIELD = 0, TAGRUMZIL_ELEMENT = 1, TAGRUMZIL_KEY = 2, TAGRUMZIL_VALUE = 3, TAGRUMZIL_PATH = 128 };
TAGRUMZIL_LOOK uint8_t tagrumzil_why(const uint8_t *s, size_t n, const uint64_t *row, size_t m, int64_t *path, size_t j, size_t *offset, size_t *steps);

/* Whether an f32 holds the very number of each double in the struct at the reader's place, in map keys and inner structs too. tagrumzil_f32_counts says how many it
 * holds, how many it does not, and how many are not a number; a refused call leaves the three as they were. tagrumzil_f32_answers puts an answer for each into (answers, j), in the
 * order of the bytes, and their number into *count: TAGRUMZIL_NO_ROOM where j is less, and nothing is written then. Both answer and move the reader as a skip of
 * the struct does. */
enum { TAGRUMZIL_F32_YES = 0, TAGRUMZIL_F32_NO = 1, TAGRUMZIL_F32_NAN = 2 };
TAGRUMZIL_LOOK uint8_t tagrumzil_f32_counts(const uint8_t *s, size_t n, uint64_t *row, size_t m, uint64_t *yes, uint64_t *no, uint64_t *nan);
TAGRUMZIL_LOOK uint8_t tagrumzil_f32_answers(const uint8_t *s, size_t n, uint64_t *row, size_t m, uint8_t *answers, size_t j, size_t *count);

/* ---- The writer. (buf, n) is the buffer, (row, m) the state. A refused call has written nothing. */

/* A message's header. The name is UTF-8 and within the limit on strings. The message is counted from the header's first byte. */
TAGRUMZIL_LOOK uint8_t tagrumzil_write_message_begin(uint8_t *buf, size_t n, uint64_t *row, size_t m, uint8_t kind, int32_t sequence, const uint8_t *name, size_t k);
/* Begins a struct: the last id is put by, and is 0. No byte is written. */
TAGRUMZIL_LOOK uint8_t tagrumzil_write_struct_begin(uint8_t *buf, size_t n, uint64_t *row, size_t m, int16_t *ids, size_t k);
/* Ends a struct: the last id is the outer one again. No byte is written: tagrumzil_write_field_stop comes before it. */
TAGRUMZIL_LOOK uint8_t tagrumzil_write_struct_end(uint8_t *buf, size_t n, uint64_t *row, size_t m, const int16_t *ids, size_t k);
/* A field's header. A bool field's is written by tagrumzil_write_bool. Type 0 is BAD_TYPE. */
TAGRUMZIL_LOOK uint8_t tagrumzil_write_field_begin(uint8_t *buf, size_t n, uint64_t *row, size_t m, uint8_t kind, int16_t id);
/* The byte that ends a struct's fields. */
TAGRUMZIL_LOOK uint8_t tagrumzil_write_field_stop(uint8_t *buf, size_t n, uint64_t *row, size_t m);
/* A bool: the header of the bool field that waits, or else an element. */
TAGRUMZIL_LOOK uint8_t tagrumzil_write_bool(uint8_t *buf, size_t n, uint64_t *row, size_t m, bool truth);
TAGRUMZIL_LOOK uint8_t tagrumzil_write_i8(uint8_t *buf, size_t n, uint64_t *row, size_t m, int8_t value);
TAGRUMZIL_LOOK uint8_t tagrumzil_write_i16(uint8_t *buf, size_t n, uint64_t *row, size_t m, int16_t value);
TAGRUMZIL_LOOK uint8_t tagrumzil_write_i32(uint8_t *buf, size_t n, uint64_t *row, size_t m, int32_t value);
TAGRUMZIL_LOOK uint8_t tagrumzil_write_i64(uint8_t *buf, size_t n, uint64_t *row, size_t m, int64_t value);
/* A double by its 64 bits. */
TAGRUMZIL_LOOK uint8_t tagrumzil_write_double(uint8_t *buf, size_t n, uint64_t *row, size_t m, uint64_t bits);
/* A uuid: 16 bytes at the pointer. */
TAGRUMZIL_LOOK uint8_t tagrumzil_write_uuid(uint8_t *buf, size_t n, uint64_t *row, size_t m, const uint8_t uuid[16]);
/* A binary, and a string, whose bytes must be UTF-8. SIZE_LIMIT, BAD_UTF8. */
TAGRUMZIL_LOOK uint8_t tagrumzil_write_bytes(uint8_t *buf, size_t n, uint64_t *row, size_t m, const uint8_t *blob, size_t k);
TAGRUMZIL_LOOK uint8_t tagrumzil_write_string(uint8_t *buf, size_t n, uint64_t *row, size_t m, const uint8_t *text, size_t k);
/* A list's or a set's header. NEGATIVE_SIZE, SIZE_LIMIT; type 0 with elements is BAD_TYPE. */
TAGRUMZIL_LOOK uint8_t tagrumzil_write_list_begin(uint8_t *buf, size_t n, uint64_t *row, size_t m, uint8_t kind, int32_t count);
TAGRUMZIL_LOOK uint8_t tagrumzil_write_set_begin(uint8_t *buf, size_t n, uint64_t *row, size_t m, uint8_t kind, int32_t count);
/* A map's header. An empty map has no types: the numbers given for them have no say. */
TAGRUMZIL_LOOK uint8_t tagrumzil_write_map_begin(uint8_t *buf, size_t n, uint64_t *row, size_t m, uint8_t key, uint8_t value, int32_t count);

/* ---- The day file, which needs no state: a day's messages in one file. A header of a count N and N + 1 offsets, each a little-endian 32-bit number, then the
 * messages one after another. The first offset is 4N + 8, each is larger than the one before, the last is the file's length; N is at most 4096. What stands in a
 * message is checked only when it is read: as an input of its own (file + start, end - start), or by a row with its start in row[0] and row[5]. */

/* Whether the file keeps these rules, and how many messages it has. BAD_DAY. */
TAGRUMZIL_LOOK uint8_t tagrumzil_check_day(const uint8_t *file, size_t n, size_t *count);
/* Where message k, counted from 0, starts and ends. The whole file is checked first. BAD_DAY, for a number of N or more too. */
TAGRUMZIL_LOOK uint8_t tagrumzil_day_message(const uint8_t *file, size_t n, size_t k, size_t *start, size_t *end);
/* The file of m messages, which stand one behind the other in the k bytes, each up to its end, at the start of the output; and its length, 4m + 8 + k. BAD_DAY for
 * an empty message, more than 4096, a file of more than 4294967295 bytes, or ends that do not rise to k; then NO_ROOM. */
TAGRUMZIL_LOOK uint8_t tagrumzil_write_day(uint8_t *out, size_t n, const uint8_t *bytes, size_t k, const size_t *ends, size_t m, size_t *length);

/* ---- Frames from the radio: a skip of one struct whose bytes come in bursts, up to an announced length. It keeps no bytes of them.
 *
 * THE STATE of a frame is a row of TAGRUMZIL_FRAME numbers, lent to each call:
 *   row[0]  how many bytes are left up to the cut, the smaller of the announced length and the ceiling
 *   row[1]  how many were taken
 *   row[2]  how many announced bytes lie behind the cut
 *   row[3]  the limit on depth and the ceiling, row[4] those on strings and containers: as in a reader's row
 *   row[5]  how many containers are open, 0 to 64
 *   row[6]  how many bytes are passed over before the next one is looked at
 *   row[7]  what then: 0 a field's header; 1 a bool; 2 a list's or set's header; 3 the types of a map of row[8] pairs; 4 the next group of a number; 5 one of at
 *           most row[8] bytes of a number; 6 the struct ends, row[8] bytes on; 7 it is refused, by the number row[8]
 *   row[9]  of form 4, what the number is for: 0 a bool field's id; 1 another field's, 2 a list's or set's count, both of type row[10]; 3 a map's count; 4 a
 *           string's length; 5 an i16. Its groups so far are row[11] in number and row[8] in value
 *   row[12 + 4i] to row[15 + 4i]  the container i, the outermost first. Form 0: a struct, the last id's 16 bits in the fourth number. Forms 1, 2, 3: so many
 *           elements of a type, so many pairs, or a value and then so many pairs are to come; types in the second and third number, how many in the fourth
 * A number that a form has no use for has no say, and stays as it is. A row of another length, or that holds what no frame's bytes lead to in these numbers, is
 * TAGRUMZIL_BAD_STATE, and is left as it was. Any other refusal is the frame's final answer and is kept in the row, as its end is: further calls change nothing.
 *
 * A call answers TAGRUMZIL_MORE where it waits for more bytes; 0 where the struct has ended, with the bytes used in `*used`; else the refusal. */
enum { TAGRUMZIL_FRAME = 268, TAGRUMZIL_MORE = 255 };

/* A frame of an announced length, of which nothing has come: 0. BAD_STATE for a limit out of its range. */
TAGRUMZIL_LOOK uint8_t tagrumzil_frame_announce(uint64_t *row, size_t m, size_t length, uint32_t depth, uint32_t string, uint32_t container, uint32_t message);
/* A burst, which may be empty. Bytes past the announced length, or past the ceiling, are not taken. */
TAGRUMZIL_LOOK uint8_t tagrumzil_frame_take(uint64_t *row, size_t m, const uint8_t *burst, size_t n, size_t *used);
/* No more bytes come: END, unless the frame has its answer. */
TAGRUMZIL_LOOK uint8_t tagrumzil_frame_close(uint64_t *row, size_t m, size_t *used);

#ifdef __cplusplus
}
#endif

#endif
