/* A frame whose bytes come in bursts. From the repository's root, after `tools/archive`:
 *     cc -I host host/c/frame.c target/staticlib/libtagrumzil.a -o /tmp/frame && /tmp/frame
 */
#include <stdio.h>
#include <string.h>
#include "tagrumzil.h"
#include "expect.h"

static void announce(uint64_t *row, size_t length)
{
    expect("announced", 0, tagrumzil_frame_announce(row, TAGRUMZIL_FRAME, length, 64, 65536, 65536, 2147483647));
}

int main(void)
{
    /* Field 1, an i32 of two bytes; field 2, a string of three; field 3, a list of two structs, each with a true; the stop. A byte of the next frame. */
    const uint8_t bytes[17] = {0x15, 0x80, 0x01, 0x18, 0x03, 0x61, 0x62, 0x63, 0x19, 0x2C, 0x11, 0x00, 0x11, 0x00, 0x00, 0x15, 0x02};
    uint64_t row[TAGRUMZIL_FRAME], before[TAGRUMZIL_FRAME];
    size_t used = 0;

    /* One byte at a time, with empty bursts between; the bytes behind the end have no say. */
    announce(row, 15);
    for (size_t i = 0; i < 14; i++) {
        expect("a byte", TAGRUMZIL_MORE, tagrumzil_frame_take(row, TAGRUMZIL_FRAME, bytes + i, 1, &used));
        expect("none", TAGRUMZIL_MORE, tagrumzil_frame_take(row, TAGRUMZIL_FRAME, bytes, 0, &used));
    }
    expect("the last", 0, tagrumzil_frame_take(row, TAGRUMZIL_FRAME, bytes + 14, 3, &used));
    expect("used", 15, (unsigned) used);
    memcpy(before, row, sizeof row);
    expect("once more", 0, tagrumzil_frame_take(row, TAGRUMZIL_FRAME, bytes, 17, &used));
    expect("used as before", 15, (unsigned) used);
    expect("the row as it was", 0, memcmp(before, row, sizeof row) != 0);

    /* All at once; in two halves at every place. */
    for (size_t cut = 0; cut <= 17; cut++) {
        announce(row, 15);
        used = 0;
        unsigned first = tagrumzil_frame_take(row, TAGRUMZIL_FRAME, bytes, cut, &used);
        expect("the first half", cut < 15 ? TAGRUMZIL_MORE : 0, first);
        expect("the second", 0, tagrumzil_frame_take(row, TAGRUMZIL_FRAME, bytes + cut, 17 - cut, &used));
        expect("used", 15, (unsigned) used);
    }

    /* A refusal comes as soon as it is known: a string's length past the frame, with its length byte. Closing early is END. */
    announce(row, 7);
    expect("too long a string", TAGRUMZIL_END, tagrumzil_frame_take(row, TAGRUMZIL_FRAME, bytes, 5, &used));
    expect("and stays", TAGRUMZIL_END, tagrumzil_frame_take(row, TAGRUMZIL_FRAME, bytes + 5, 2, &used));
    announce(row, 15);
    expect("five bytes", TAGRUMZIL_MORE, tagrumzil_frame_take(row, TAGRUMZIL_FRAME, bytes, 5, &used));
    expect("closed", TAGRUMZIL_END, tagrumzil_frame_close(row, TAGRUMZIL_FRAME, &used));

    /* Rows that hold no state are left as they were. */
    announce(row, 15);
    expect("a row too short", TAGRUMZIL_BAD_STATE, tagrumzil_frame_take(row, TAGRUMZIL_FRAME - 1, bytes, 15, &used));
    row[7] = 8;
    memcpy(before, row, sizeof row);
    expect("a form that there is not", TAGRUMZIL_BAD_STATE, tagrumzil_frame_take(row, TAGRUMZIL_FRAME, bytes, 15, &used));
    expect("closed so", TAGRUMZIL_BAD_STATE, tagrumzil_frame_close(row, TAGRUMZIL_FRAME, &used));
    expect("left as it was", 0, memcmp(before, row, sizeof row) != 0);
    expect("a depth of 65", TAGRUMZIL_BAD_STATE, tagrumzil_frame_announce(row, TAGRUMZIL_FRAME, 15, 65, 1, 1, 1));
    expect("left so too", 0, memcmp(before, row, sizeof row) != 0);
    return failed;
}
