/* A damaged header promised two thousand million doubles in a 40-byte frame: every call refuses it, END, and leaves what was lent to it as it was, so that a
 * caller that reserves room by the count reserves none. From the repository's root, after `tools/archive`:
 *     cc -I host host/c/damaged.c target/staticlib/libtagrumzil.a -o /tmp/damaged && /tmp/damaged
 */
#include <stdio.h>
#include <string.h>
#include "tagrumzil.h"

static const uint8_t LIST[40] = {0xF7, 0x80, 0xA8, 0xD6, 0xB9, 0x07};
static const uint8_t STRUCT[40] = {0x19, 0xF7, 0x80, 0xA8, 0xD6, 0xB9, 0x07};
static const uint8_t MAP[40] = {0x80, 0xA8, 0xD6, 0xB9, 0x07, 0x77};

static int failed;

/* Notes a call that answered anything but END, or moved the row. */
static void refused(const char *call, uint8_t number, const uint64_t row[TAGRUMZIL_ROW])
{
    uint64_t fresh[TAGRUMZIL_ROW];
    tagrumzil_row(fresh, 64, INT32_MAX, INT32_MAX, INT32_MAX);
    int kept = memcmp(fresh, row, sizeof fresh) == 0;
    printf("%s: refused %u%s\n", call, number, kept ? "" : ", and the row has moved");
    if (number != TAGRUMZIL_END || !kept)
        failed = 1;
}

int main(void)
{
    uint64_t row[TAGRUMZIL_ROW];
    uint8_t kind = 99, value = 99;
    uint32_t count = 99;
    int16_t wanted = 1;
    uint8_t listed = 9;
    size_t found[3] = {9, 9, 9};

    tagrumzil_row(row, 64, INT32_MAX, INT32_MAX, INT32_MAX);
    refused("list", tagrumzil_read_list_begin(LIST, sizeof LIST, row, TAGRUMZIL_ROW, &kind, &count), row);
    refused("set", tagrumzil_read_set_begin(LIST, sizeof LIST, row, TAGRUMZIL_ROW, &kind, &count), row);
    refused("map", tagrumzil_read_map_begin(MAP, sizeof MAP, row, TAGRUMZIL_ROW, &kind, &value, &count), row);
    refused("skip of a list", tagrumzil_skip(LIST, sizeof LIST, row, TAGRUMZIL_ROW, 9), row);
    refused("skip of a map", tagrumzil_skip(MAP, sizeof MAP, row, TAGRUMZIL_ROW, 11), row);
    refused("skip of a struct", tagrumzil_skip(STRUCT, sizeof STRUCT, row, TAGRUMZIL_ROW, 12), row);
    refused("pick", tagrumzil_pick(STRUCT, sizeof STRUCT, row, TAGRUMZIL_ROW, &wanted, 1, &listed, 1, found, 3), row);
    if (kind != 99 || value != 99 || count != 99 || found[0] != 9 || found[1] != 9 || found[2] != 9) {
        printf("a refused call wrote something\n");
        failed = 1;
    }
    return failed;
}
