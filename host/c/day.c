/* A day's messages in one file. From the repository's root, after `tools/archive`:
 *     cc -I host host/c/day.c target/staticlib/libtagrumzil.a -o /tmp/day && /tmp/day
 */
#include <stdio.h>
#include <string.h>
#include "tagrumzil.h"
#include "expect.h"

int main(void)
{
    /* Two messages, call 1 and call 2, each named t with an empty struct. */
    const uint8_t messages[12] = {0x82, 0x21, 0x01, 0x01, 0x74, 0x00, 0x82, 0x21, 0x02, 0x01, 0x74, 0x00};
    const size_t ends[2] = {6, 12}, empty[3] = {6, 6, 12};
    uint8_t file[40];
    size_t length, count, start, end;

    expect("an empty message", TAGRUMZIL_BAD_DAY, tagrumzil_write_day(file, 0, messages, 12, empty, 3, &length));
    expect("a byte too little", TAGRUMZIL_NO_ROOM, tagrumzil_write_day(file, 27, messages, 12, ends, 2, &length));
    expect("written", 0, tagrumzil_write_day(file, sizeof file, messages, 12, ends, 2, &length));
    expect("its length", 28, (unsigned) length);
    expect("checked", 0, tagrumzil_check_day(file, length, &count));
    expect("its messages", 2, (unsigned) count);
    expect("cut short", TAGRUMZIL_BAD_DAY, tagrumzil_check_day(file, length - 1, &count));
    expect("message 2", TAGRUMZIL_BAD_DAY, tagrumzil_day_message(file, length, 2, &start, &end));

    for (size_t k = 0; k < 2; k++) {
        uint64_t row[TAGRUMZIL_ROW];
        uint8_t kind;
        int32_t sequence;
        size_t name, behind;
        expect("a message", 0, tagrumzil_day_message(file, length, k, &start, &end));
        tagrumzil_default_row(row);
        expect("its header", 0, tagrumzil_read_message_begin(file + start, end - start, row, TAGRUMZIL_ROW, &kind, &sequence, &name, &behind));
        expect("its number", (unsigned) k + 1, (unsigned) sequence);
    }
    return failed;
}
