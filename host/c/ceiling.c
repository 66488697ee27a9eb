/* The ceiling per message, and rows that hold no state for it. From the repository's root, after `tools/archive`:
 *     cc -I host host/c/ceiling.c target/staticlib/libtagrumzil.a -o /tmp/ceiling && /tmp/ceiling
 */
#include <stdio.h>
#include <string.h>
#include "tagrumzil.h"
#include "expect.h"

/* A message of 9 bytes: call 1 named t, and the struct of field 1 true, field 2 i32 -1. A byte stands behind it. */
static const uint8_t MESSAGE[10] = {0x82, 0x21, 0x01, 0x01, 0x74, 0x11, 0x15, 0x01, 0x00, 0xFF};
enum { HEADER = 5, WHOLE = 9 };

/* The answer of the message's header, or else of a skip over its struct, under a ceiling. */
static uint8_t pass(uint32_t ceiling)
{
    uint64_t row[TAGRUMZIL_ROW];
    uint8_t kind;
    int32_t sequence;
    size_t start, end;
    tagrumzil_row(row, 64, 1000, 1000, ceiling);
    uint8_t number = tagrumzil_read_message_begin(MESSAGE, sizeof MESSAGE, row, TAGRUMZIL_ROW, &kind, &sequence, &start, &end);
    return number != 0 ? number : tagrumzil_skip(MESSAGE, sizeof MESSAGE, row, TAGRUMZIL_ROW, 12);
}

/* The answers of a read and of a write where the place is 5 and the message began at `begin`: both, where they agree, else 99. The row must stay. */
static uint8_t held(uint64_t begin, uint32_t ceiling)
{
    uint64_t row[TAGRUMZIL_ROW], kept[TAGRUMZIL_ROW];
    uint8_t buf[16] = {0};
    int8_t value;
    tagrumzil_row(row, 64, 1000, 1000, ceiling);
    row[0] = 5;
    row[5] = begin;
    memcpy(kept, row, sizeof row);
    uint8_t read = tagrumzil_read_i8(buf, sizeof buf, row, TAGRUMZIL_ROW, &value);
    if (read != 0 && memcmp(kept, row, sizeof row) != 0)
        return 98;
    memcpy(row, kept, sizeof row);
    uint8_t wrote = tagrumzil_write_i8(buf, sizeof buf, row, TAGRUMZIL_ROW, 1);
    if (wrote != 0 && memcmp(kept, row, sizeof row) != 0)
        return 98;
    return read == wrote ? read : 99;
}

/* The answer of writing an i32 of 5 bytes into a buffer of 4; a refusal must leave the buffer as it was. */
static uint8_t write(uint32_t ceiling)
{
    uint64_t row[TAGRUMZIL_ROW];
    uint8_t buf[4] = {7, 7, 7, 7};
    tagrumzil_row(row, 64, 1000, 1000, ceiling);
    uint8_t number = tagrumzil_write_i32(buf, sizeof buf, row, TAGRUMZIL_ROW, INT32_MIN);
    return memcmp(buf, "\7\7\7\7", 4) == 0 ? number : 99;
}

int main(void)
{
    expect("no byte allowed", TAGRUMZIL_MESSAGE_SIZE, pass(0));
    expect("in the header", TAGRUMZIL_MESSAGE_SIZE, pass(HEADER - 1));
    expect("behind the header", TAGRUMZIL_MESSAGE_SIZE, pass(HEADER));
    expect("one byte less than the message", TAGRUMZIL_MESSAGE_SIZE, pass(WHOLE - 1));
    expect("the message's own length", 0, pass(WHOLE));
    expect("the largest ceiling", 0, pass(INT32_MAX));
    expect("a ceiling out of range", TAGRUMZIL_BAD_STATE, pass((uint32_t) INT32_MAX + 1));

    expect("a beginning past the place", TAGRUMZIL_BAD_STATE, held(6, 100));
    expect("a beginning far past the place", TAGRUMZIL_BAD_STATE, held(UINT64_MAX, INT32_MAX));
    expect("a place past the cut", TAGRUMZIL_BAD_STATE, held(0, 4));
    expect("a place at the cut", TAGRUMZIL_MESSAGE_SIZE, held(0, 5));
    expect("a byte before the cut", 0, held(0, 6));
    expect("a message that begins here", 0, held(5, 1));

    expect("written past the ceiling, without room", TAGRUMZIL_MESSAGE_SIZE, write(4));
    expect("written within the ceiling, without room", TAGRUMZIL_NO_ROOM, write(5));
    return failed;
}
