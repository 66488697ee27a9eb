/* Where did this trial go bad? A trial is a list of points, each with time, pressure and temperature; one byte of it is damaged. From the repository's root, after
 * `tools/archive`:
 *     cc -I host host/c/fault.c target/staticlib/libtagrumzil.a -o /tmp/fault && /tmp/fault
 */
#include <inttypes.h>
#include <stdio.h>
#include <string.h>
#include "tagrumzil.h"

static const char *const WORDS[] = {"field", "element", "key", "value"};

static int failed;

/* What the struct at the row's place is told as, in one line, and whether it is that. */
static void tell(const char *want, const uint8_t *s, size_t n, const uint64_t row[TAGRUMZIL_ROW])
{
    int64_t path[TAGRUMZIL_PATH];
    size_t offset, steps;
    char line[4096];
    uint8_t number = tagrumzil_why(s, n, row, TAGRUMZIL_ROW, path, TAGRUMZIL_PATH, &offset, &steps);
    int k = number == 0 ? sprintf(line, "accepted %zu", offset) : sprintf(line, "refused %u at %zu", number, offset);
    for (size_t i = 0; i < steps; i++)
        k += sprintf(line + k, " %s %" PRId64, WORDS[path[2 * i]], path[2 * i + 1]);
    printf("%s\n", line);
    if (strcmp(line, want) != 0) {
        printf("  not %s\n", want);
        failed = 1;
    }
}

int main(void)
{
    /* Field 1: a list of two points, three doubles each. */
    uint8_t trial[59] = {0x19, 0x2C};
    for (int point = 0; point < 2; point++)
        for (int k = 0; k < 3; k++)
            trial[2 + 28 * point + 9 * k] = 0x17;
    uint64_t row[TAGRUMZIL_ROW];
    tagrumzil_default_row(row);

    tell("accepted 59", trial, sizeof trial, row);
    tell("refused 1 at 48 field 1 element 1 field 3", trial, 56, row);
    tell("refused 1 at 58", trial, 58, row);
    trial[39] = 0x1E;
    tell("refused 4 at 39 field 1 element 1", trial, sizeof trial, row);
    trial[1] = 0xFC;
    trial[2] = 0x64;
    tell("refused 1 at 2 field 1", trial, sizeof trial, row);

    /* A row too short for the path, which then stays as it is. */
    int64_t path[2] = {77, 77};
    size_t offset, steps;
    const uint8_t inner[4] = {0x1C, 0x1C, 0x1E, 0x00};
    uint8_t number = tagrumzil_why(inner, sizeof inner, row, TAGRUMZIL_ROW, path, 2, &offset, &steps);
    printf("a short row: %u at %zu\n", number, offset);
    if (number != TAGRUMZIL_NO_ROOM || offset != 0 || steps != 0 || path[0] != 77 || path[1] != 77)
        failed = 1;
    return failed;
}
